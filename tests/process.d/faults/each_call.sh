# Each call on a file fails in turn: sync, replace, write, scrub, check, pending, log, and what is to write nothing.
. "$helpers/bench.sh"
. "$helpers/python.sh"

# ---- each call on a file fails in turn

# Into the program a library is preloaded by which one call on a file fails: an opening, a read, write, cut or sync.
if has_python 'each call fails'; then
    if command -v cc >/dev/null && cc -O1 -fPIC -shared -o "$work/failing_files.so" "$tests/faults/failing_files.c" \
        2>"$work/complaints"; then
        run_script faults/each_call.py "$gmbench" "$work/failing_files.so" "$work"
    else
        skip 'each call fails' 'there is no C compiler here'
    fi
fi
finish
