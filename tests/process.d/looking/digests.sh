# Last sectors whose digests were worked out beside the program.
. "$helpers/bench.sh"
. "$helpers/python.sh"

# ---- last sectors whose digests were worked out beside the program

if has_python 'digests of last sectors'; then
    if command -v cc >/dev/null && cc -O1 -fPIC -shared -o "$work/stopped_calls.so" "$tests/faults/stopped_calls.c" \
        2>"$work/complaints"; then
        run_script looking/digests.py "$gmbench" "$work/stopped_calls.so" "$work"
    else
        skip 'digests of last sectors' 'there is no C compiler here'
    fi
fi
finish
