# A registry of 20 MB that is looked at without an opening in little memory.
. "$helpers/under_way.sh"

# ---- a large registry, looked at without an opening in little memory

# 320 patches of 64 sectors are a registry of 20 MB. A batch that is killed after 20 more leaves a log beside it.
fresh_bench large
truncate -s 102400 "$bench/images/a.img"
data=$(head -c 65534 /dev/zero | tr '\0' 5)
patches_of() {
    number=$1
    while [ "$number" -lt "$2" ]; do
        printf 'p%d patch --first %d --data %02x%s gm0\n' "$number" $((number % 100)) $((number % 256)) "$data"
        number=$((number + 1))
    done
}
{
    printf "$label"
    patches_of 0 320
} >"$work/lines"
timeout 120 "$gmbench" batch --registry "$registry" --shelf "$bench/images" <"$work/lines" >"$work/output" 2>"$work/complaints"
status=$?
if [ "$status" = 0 ] && [ "$(grep -c ' ok ' "$work/output")" = 321 ] && [ "$(wc -c <"$registry")" -ge 20000000 ]; then
    pass 'a registry of 20 MB'
else
    fail 'a registry of 20 MB' "status $status, $(wc -c <"$registry") bytes, '$(head -n 1 "$work/complaints")'"
fi

# Keeps the registry and its log, and tells whether they are as they were kept.
keep_registry() {
    rm -rf "$work/kept"
    mkdir "$work/kept"
    cp "$bench"/registry* "$work/kept"
}
expect_registry() {
    mkdir "$work/left"
    cp "$bench"/registry* "$work/left"
    if other=$(diff -r "$work/kept" "$work/left" 2>&1); then
        pass "$1"
    else
        fail "$1" "$other"
    fi
    rm -rf "$work/left"
}

# Looks in ever more memory: it is F1, never F2, and in 60,000 KB the answer. `pending` also says what the fault means.
look_in_little() {
    name=$1
    wanted=$2
    shift 2
    kilobytes=16000
    refused=0
    wrong=
    while [ "$kilobytes" -le 60000 ]; do
        (ulimit -v "$kilobytes" && exec "$gmbench" "$@" --registry "$registry" --shelf "$bench/images") \
            >"$work/output" 2>"$work/complaints"
        status=$?
        if [ "$status" = 3 ] && [ ! -s "$work/output" ] && [ "$(grep -vxF 'F1: the system gave no more memory' "$work/complaints")" = "$no_memory" ]; then
            refused=$((refused + 1))
        elif [ "$status" != 0 ] || [ "$(cat "$work/output")" != "$wanted" ] || [ -s "$work/complaints" ]; then
            wrong="in $kilobytes KB status $status, '$(head -n 1 "$work/output" "$work/complaints")'"
        fi
        kilobytes=$((kilobytes + 4000))
    done
    if [ "$status" != 0 ] && [ -z "$wrong" ]; then
        wrong='it never answered'
    fi
    if [ -n "$wrong" ]; then
        fail "$name" "$wrong"
    else
        pass "$name ($refused times F1)"
    fi
}

keep_registry
look_in_little 'a status of it in little memory' "$of_one" status --read-only
look_in_little 'what is pending there' '' pending
expect_registry 'nothing is changed'

patches_of 320 340 >"$work/lines"
mkfifo "$bench/in"
"$gmbench" batch --registry "$registry" --shelf "$bench/images" <"$bench/in" >"$bench/answers" 2>/dev/null &
under_way=$!
exec 3>"$bench/in"
cat "$work/lines" >&3
wait_for_lines 20 "$bench/answers"
kill -9 "$under_way"
wait "$under_way" 2>/dev/null
exec 3>&-
rm "$bench/in"
if [ -s "$registry-wal" ]; then
    pass 'a log is left beside it'
else
    fail 'a log is left beside it' "$(ls "$bench")"
fi
keep_registry
look_in_little 'a status of both' "$of_one" status --read-only
look_in_little 'what is pending in both' '' pending
expect_registry 'nothing is changed of both'
finish
