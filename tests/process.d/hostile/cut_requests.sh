# Requests that are worked out by hand, cut after a byte, each by a server of its own.
. "$helpers/bench.sh"
. "$helpers/python.sh"

# ---- requests over HTTP that are cut, each by a server of its own

# A label and the three looks, cut after some of their bytes, or after each. One client goes away there and another ends there:
# not a byte of a file is changed, and a third one's whole request is answered as ever.
case ${HOSTILE:-some} in
    all) stride=1 ;;
    *) stride=13 ;;
esac
if has_python 'requests that are cut, each by itself'; then
    if python3 -c 'import sqlite3' 2>/dev/null; then
        run_script hostile/cut_requests.py "$gmbench" "$work" "$tests/serving" $stride
    else
        skip 'requests that are cut, each by itself' 'there is no SQLite for python3 here'
    fi
fi
finish
