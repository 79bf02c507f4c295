# Little memory and stack, and few descriptors.
. "$helpers/bench.sh"

# ---- little to work with

put_shelf
mkdir "$work/empty"
run recover --registry "$work/made" --shelf "$work/empty"
(ulimit -n 16 && timeout 20 "$gmbench" dump --shelf "$shelf" a.img) >"$work/output" 2>"$work/complaints"
status=$?
expect 'a dump with 16 descriptors' 0 "$said" ''
(ulimit -n 16 && timeout 20 "$gmbench" recover --registry "$work/made" --shelf "$work/empty") \
    >"$work/output" 2>"$work/complaints"
status=$?
expect 'a recovery with 16 descriptors' 0 'recovered 0' ''
(ulimit -n 4 && exec "$gmbench" recover --registry "$work/made" --shelf "$work/empty") \
    >"$work/output" 2>"$work/complaints"
status=$?
if [ "$status" = 3 ] && [ ! -s "$work/output" ] && [ "$(grep -c '^gmbench: ' "$work/complaints")" = 1 ] &&
    [ "$(wc -l <"$work/complaints")" = 1 ]; then
    pass 'a recovery with 4 descriptors'
else
    fail 'a recovery with 4 descriptors' "status $status, '$(head -n 1 "$work/complaints")'"
fi

# What a run is handed on its input, what it may print if memory is wanting, and the bench that it begins with, if it
# changes one: a copy of it is put in place each time.
input=/dev/null
told=
kept=

# How the program ends with these words in so many KB of memory.
end_in() {
    if [ -n "$kept" ]; then
        rm -rf "$bench"
        cp -R "$kept" "$bench"
    fi
    (
        ulimit -v "$1"
        shift
        exec "$gmbench" "$@"
    ) <"$input" >"$work/output" 2>"$work/complaints"
    status=$?
}

# Runs words whose lines are known in ever more memory, by 400 steps of so many KB from where the program starts at all,
# which is the system's to say. Then it is F1, and from somewhere on the answer. Where the system puts the stack changes
# from run to run by some pages, and with it what there is to start in: up to 64 KB above the least that it started in
# it may still end by a signal, before it has said anything.
grow_memory() {
    name=$1
    step=$2
    lines=$3
    shift 3
    kilobytes=1000
    status=127
    while [ "$status" -gt 3 ] && [ "$kilobytes" -lt 200000 ]; do
        kilobytes=$((kilobytes + 200))
        end_in "$kilobytes" "$@"
    done 2>/dev/null
    kilobytes=$((kilobytes - 200))
    top_kilobytes=$((kilobytes + 400 * step))
    least=
    answered=no
    refused=0
    wrong=
    while [ "$kilobytes" -le "$top_kilobytes" ]; do
        end_in "$kilobytes" "$@"
        if [ "$status" -le 3 ] && [ -z "$least" ]; then
            least=$kilobytes
        fi
        if [ "$status" = 3 ] && [ "$(grep -v "^$made" "$work/complaints")" = "$no_memory" ] &&
            { [ ! -s "$work/output" ] || [ "$(cat "$work/output")" = "$told" ]; }; then
            refused=$((refused + 1))
        elif [ "$status" = 0 ] && [ "$(cat "$work/output")" = "$lines" ] && ! grep -qv "^$made" "$work/complaints"; then
            answered=yes
        elif [ "$status" -gt 128 ] && [ ! -s "$work/output" ] && [ "$kilobytes" -le $((${least:-$kilobytes} + 64)) ]; then
            :
        elif [ -n "$least" ]; then
            wrong="in $kilobytes KB status $status, '$(head -n 1 "$work/output" "$work/complaints")'"
        fi
        kilobytes=$((kilobytes + step))
    done 2>/dev/null
    if [ -n "$wrong" ]; then
        fail "$name" "$wrong"
    elif [ $answered = no ]; then
        fail "$name" 'it never answered'
    else
        pass "$name ($refused times F1)"
    fi
}

grow_memory 'a dump in little memory' 4 "$said" dump --shelf "$shelf" a.img
grow_memory 'a recovery in little memory' 40 'recovered 0' recover --registry "$work/made" --shelf "$shelf"
grow_memory 'a status in little memory' 40 'no mirrors' status --registry "$work/made" --shelf "$shelf"

# Runs words whose lines are known in ever more stack: the program ends by a signal before it has done anything, and from
# somewhere on it answers.
grow_stack() {
    name=$1
    lines=$2
    shift 2
    kilobytes=100
    answered=no
    wrong=
    while [ "$kilobytes" -le 700 ]; do
        rm -rf "$bench"
        cp -R "$kept" "$bench"
        (ulimit -s "$kilobytes" && exec "$gmbench" "$@") <"$input" >"$work/output" 2>"$work/complaints"
        status=$?
        if [ "$status" = 0 ] && [ "$(cat "$work/output")" = "$lines" ]; then
            answered=yes
        elif [ "$status" -le 3 ] || [ $answered = yes ] || ! diff -r "$kept" "$bench" >/dev/null; then
            wrong="in $kilobytes KB status $status, '$(head -n 1 "$work/output" "$work/complaints")'"
        fi
        kilobytes=$((kilobytes + 20))
    done 2>/dev/null
    if [ -n "$wrong" ]; then
        fail "$name" "$wrong"
    elif [ $answered = no ]; then
        fail "$name" 'it never answered'
    else
        pass "$name"
    fi
}

# A label and a copy, each time from the same bench.
fresh_bench little
kept=$work/kept-bench
cp -R "$bench" "$kept"
printf "$label" >"$work/lines"
input=$work/lines
told='k1 fault 1'
grow_memory 'a batch in little memory' 40 'k1 ok 1' batch --registry "$registry" --shelf "$bench/images"
grow_stack 'a batch in little stack' 'k1 ok 1' batch --registry "$registry" --shelf "$bench/images"
fresh_bench little-copy
batch "$label$insert"
rm -rf "$kept"
cp -R "$bench" "$kept"
printf 'k3 advance gm0 b.img\n' >"$work/lines"
input=$work/lines
told='k3 fault 1'
copied='k3 ok 3 copied 3 of 3'
grow_memory 'a copy in little memory' 40 "$copied" batch --registry "$registry" --shelf "$bench/images"
grow_stack 'a copy in little stack' "$copied" batch --registry "$registry" --shelf "$bench/images"
input=/dev/null
told=
kept=
unchanged 'the image is as it was'
finish
