# One call for memory that is refused in each run: of a batch, a request, each look, a recovery.
. "$helpers/bench.sh"
. "$helpers/python.sh"

# ---- calls for memory that are refused, one in each run

# Into the program a library is preloaded that refuses the Nth call of malloc, calloc or realloc. N goes over all the calls
# of a run, or if there are too many over as many as fit, which are chosen by a fixed seed; the counts are printed. Tried
# are a batch of eight lines (a label, an insert, an advance, refused and repeated lines), a request that is served, a
# recovery of two writes, a replacement, a write, and each look, those that only read among them. Each run tells what it tells with ample memory, or
# F1; the next opening ends well, and the same lines are answered right after it. No look changes an image, and `pending` and
# what is `--read-only` change no file.
case ${HOSTILE:-some} in
    all) most=1000000 ;;
    *) most=80 ;;
esac
if has_python 'calls for memory that are refused'; then
    if command -v cc >/dev/null && cc -O1 -fPIC -shared -fno-builtin -o "$work/refused_memory.so" \
        "$tests/hostile/refused_memory.c" 2>"$work/complaints"; then
        fresh_bench bench
        stopped_remove pending
        run_script hostile/refused_memory.py "$gmbench" "$work/refused_memory.so" "$work" $most
    else
        skip 'calls for memory that are refused' 'there is no C compiler here'
    fi
fi
finish
