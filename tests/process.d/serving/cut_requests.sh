# Requests that are cut after each byte, and reads and writes of a connection that fail.
. "$helpers/bench.sh"
. "$helpers/python.sh"

# ---- requests that are cut, and connections of which a read or a write fails

# A label and the three looks, cut after each byte. Then each read and each write of their connection fails once, and then
# after each byte, by a library that is preloaded into the program.
if has_python 'requests that are cut'; then
    if command -v cc >/dev/null && cc -O1 -fPIC -shared -o "$work/failing_calls.so" "$helpers/failing_calls.c" \
        2>"$work/complaints"; then
        run_script serving/cut_requests.py "$gmbench" "$work/failing_calls.so" "$work"
    else
        skip 'requests that are cut' 'there is no C compiler here'
    fi
fi
finish
