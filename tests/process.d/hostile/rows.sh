# The rows that are worked out by hand, cut after a byte, or with a read or write that fails.
. "$helpers/bench.sh"
. "$helpers/python.sh"

# ---- the rows that are worked out by hand, cut and with calls that fail

# Each row's lines are handed in as a batch that is cut after some of its bytes, or after all. Then a library that is
# preloaded into the program lets one of its reads fail, or one of its writes.
case ${HOSTILE:-some} in
    all) stride=1 ;;
    *) stride=13 ;;
esac
if has_python 'rows that are cut'; then
    if ! python3 -c 'import sqlite3' 2>/dev/null; then
        skip 'rows that are cut' 'there is no SQLite for python3 here'
    elif command -v cc >/dev/null && cc -O1 -fPIC -shared -o "$work/failing_calls.so" "$helpers/failing_calls.c" \
        2>"$work/complaints"; then
        run_script hostile/rows.py "$gmbench" "$work/failing_calls.so" "$work" \
            "$top/crates/gm_front_tests/src/tests/worked_rows/rows.rt" $stride
    else
        skip 'rows that are cut' 'there is no C compiler here'
    fi
fi
finish
