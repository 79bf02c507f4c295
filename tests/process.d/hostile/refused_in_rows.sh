# One call for memory refused in each run of the rows that are worked out by hand, and of each command by itself.
. "$helpers/bench.sh"
. "$helpers/python.sh"

# ---- calls for memory that are refused in the rows that are worked out by hand, one in each run

# The library of refused_memory refuses a call of a batch: of each row, and of each of the fourteen commands by itself over a
# larger bench. Some calls of each are chosen here, of those that its lines make beyond an opening. Each run tells what it tells
# with ample memory, or a fault. A line that was not accepted leaves the registry's file and the images as they were before it.
# One that was accepted is carried out by the next opening. Then the same lines are answered as ever, and `repeated` if they
# were accepted.
case ${HOSTILE:-some} in
    all) most=1000000 ;;
    *) most=4 ;;
esac
if has_python 'rows in which memory is refused'; then
    if ! python3 -c 'import sqlite3' 2>/dev/null; then
        skip 'rows in which memory is refused' 'there is no SQLite for python3 here'
    elif command -v cc >/dev/null && cc -O1 -fPIC -shared -fno-builtin -o "$work/refused_memory.so" \
        "$tests/hostile/refused_memory.c" 2>"$work/complaints"; then
        run_script hostile/refused_in_rows.py "$gmbench" "$work/refused_memory.so" "$work" \
            "$top/crates/gm_front_tests/src/tests/worked_rows/rows.rt" $most
    else
        skip 'rows in which memory is refused' 'there is no C compiler here'
    fi
fi
finish
