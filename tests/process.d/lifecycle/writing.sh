# Data that are written into a mirror by `write`: what is handed in, what is in the way of it, and how it goes on.
. "$helpers/under_way.sh"

# A bench whose mirror gm0 has two ACTIVE images with so many sectors of data.
put_mirror() {
    fresh_bench "$1"
    for letter in a b; do
        head -c $(($2 * 512)) /dev/zero | tr '\0' "$letter" >"$bench/images/$letter.img"
        head -c 512 /dev/zero >>"$bench/images/$letter.img"
    done
    batch "$label$insert"
    at_bench sync --quiet
    cp "$bench/images/a.img" "$work/wanted"
}

# So many sectors of data that no two sectors have in common, into a file.
put_data() {
    awk -v count="$1" -v word="$2" 'BEGIN {
        for (at = 0; at < count * 32; at++) printf "%-15s\n", word " " at
    }' >"$work/$2"
}

# Lays a file over the data that are wanted, from a sector on.
lay_over() {
    dd if="$work/$1" of="$work/wanted" bs=512 seek="$2" conv=notrunc 2>/dev/null
}

# Whether both images have the data that are wanted, so many sectors of them.
expect_data() {
    for letter in a b; do
        expect_same_data "$1, $letter.img" "$bench/images/$letter.img" "$work/wanted" $(($2 * 512))
    done
}

# The line of a patch with these sectors of a file: a key, the first sector, the file, and its first sector and how many.
patch_line() {
    printf '%s patch --first %s --data %s gm0\n' "$1" "$2" \
        "$(dd if="$work/$3" bs=512 skip="$4" count="$5" 2>/dev/null | od -An -v -tx1 | tr -d ' \n')"
}

put_data 200 data
put_data 200 others
dd if="$work/data" of="$work/others" bs=512 count=128 conv=notrunc 2>/dev/null
put_data 10 few

# ---- data of several commands

put_mirror several 300
at_bench write gm0 --first 30 --file "$work/data" --key w
takes='w: this takes 4 commands, and 204800 bytes of the registry for ever'
expect 'data of four commands' 0 "$(lines 'w ok 5\nw.2 ok 6\nw.3 ok 7\nw.4 ok 8')" \
    "$(lines "$takes\ngm0 100%%: 100 of 100 KiB")"
lay_over data 30
expect_data 'they are on both images' 300
at_bench audit
expect 'an audit after it' 0 '' ''
keep_bench
at_bench write gm0 --first 30 --file "$work/data" --key w
expect 'the same words again' 0 "$(lines 'w repeated 5\nw.2 repeated 6\nw.3 repeated 7\nw.4 repeated 8')" ''
expect_kept 'they change nothing'
at_bench write gm0 --first 30 --file "$work/others" --key w
other_data='its data are others: give FILE and N as they were, or another --key'
expect 'other data under these keys' 1 'w.3 refused 3' \
    "$(lines "w.3: refused 3: the key was accepted for another command\nw.3: $other_data")"
at_bench write gm0 --first 31 --file "$work/data" --key w
expect 'another sector under these keys' 1 'w refused 3' \
    "$(lines "w: refused 3: the key was accepted for another command\nw: $other_data")"
expect_kept 'nothing is written of them'
at_bench write gm0 --first 290 --file - <"$work/few"
expect 'the input, under a key of its own, to the last sector' 0 'g000009 ok 9' ''
lay_over few 290
at_bench write --quiet --first 100 --file "$work/data" -- gm0
expect 'without a word of how far it is' 0 "$(lines 'g000010 ok 10\ng000010.2 ok 11\ng000010.3 ok 12\ng000010.4 ok 13')" ''
lay_over data 100
expect_data 'both images have all of that' 300

# ---- what is in the way

keep_bench
: >"$work/none"
printf x >"$work/uneven"
at_bench write gm0 --first 0 --file "$work/none" --key v
expect 'no data' 1 'v not done' "v: $work/none has no bytes"
at_bench write gm0 --first 0 --file - --key v </dev/null
expect 'an empty input' 1 'v not done' 'v: the input has no bytes'
at_bench write gm0 --first 0 --file "$work/uneven" --key v
expect 'one byte' 1 'v not done' "v: the length of $work/uneven is 1, no multiple of 512"
at_bench write gm0 --first 101 --file "$work/data" --key v
expect 'data that end after the mirror' 1 'v not done' \
    "v: $work/data is longer than the 101888 bytes left of gm0's 300 sectors"
at_bench write gm0 --first 4294967295 --file - --key v <"$work/few"
expect 'data that begin after it' 1 'v not done' \
    "v: the input is longer than the 0 bytes left of gm0's 300 sectors"
long=a2345678901234567890123456789_1
rule="a key, also with .2 and so on, is 1 to 32 of A-Z, a-z, 0-9, '.', '_' and '-'"
at_bench write gm0 --first 0 --file "$work/data" --key $long
expect 'a key that is too long with what follows it' 1 "$long not done" "$long: $rule"
at_bench write gm0 --first 0 --file "$work/few" --key a/b
expect 'a key that is none' 1 '? not done' "?: $rule"
at_bench write gm1 --first 0 --file "$work/data"
expect 'a mirror that is not there' 1 'refused 5' 'refused 5: no mirror is named gm1'
at_bench write gm0 --first 0 --file "$work/nowhere" --explain
expect 'a file that is not there' 3 '' "$(lines "$broken\ninput or output: there is no file $work/nowhere")"
at_bench write gm0 --first 0 --file - <&-
expect 'an input that is closed' 3 '' "$(lines "$broken\ninput or output: the input can't be read")"
at_bench write gm0 --first 0 --file "$bench/images" --explain
expect 'a folder' 3 '' "$(lines "$broken\ninput or output: $bench/images is a folder")"
expect_kept 'nothing is written by any'
at_bench write gm0 --first 0 --file "$work/few" --key a23456789012345678901234567890_1
expect 'a key of 32 characters for one command' 0 'a23456789012345678901234567890_1 ok 14' ''
put_back
damage "$bench/images/b.img" $((300 * 512 + 64)) x
keep_bench
at_bench write gm0 --first 0 --file "$work/data" --key v
expect 'an image that is not as it is registered' 1 "$(lines 'v not done\nb.img damaged')" \
    'v: this takes 4 commands, and 204800 bytes of the registry for ever
v: b.img is another file or was overwritten: bring the right one back, mend it, replace it, or give it up by lost
v: --unchecked does it anyway'
expect_kept 'nothing is written beside it'
at_bench write gm0 --first 0 --file "$work/few" --key v --unchecked
expect 'unless it is not to look' 0 'v ok 14' ''

if command -v sqlite3 >/dev/null; then
    put_mirror full 300
    put_accepted 4 99997
    at_bench write gm0 --first 0 --file "$work/data" --key w
    expect 'more commands than are left' 1 'w not done' 'w: this takes 4 commands, and the registry takes 3 more'
    at_bench write gm0 --first 0 --file "$work/few" --key w
    expect 'as many as are left' 0 'w ok 99998' ''
else
    skip 'more commands than are left' 'there is no sqlite3 here'
fi

# ---- a mirror whose data aren't complete

fresh_bench filled
batch "$label$insert"
head -c 512 /dev/zero >"$work/sector"
at_bench write gm0 --first 0 --file "$work/sector" --key w
expect 'while an image is filled' 1 'w refused 30' "$(head -n 1 "$work/complaints")"
forget_registry
at_bench write gm0 --first 0 --file "$work/sector" --key w
expect 'without a registry' 3 '' "$(lines "gmbench: F2 store\nF2: there is no registry at $registry")"
expect_none 'none is made' "$registry"

# ---- it goes on after a stop

put_mirror begun 300
{
    patch_line w 30 data 0 64
    patch_line w.2 94 data 64 64
} >"$work/lines"
at_bench batch <"$work/lines"
expect 'two commands by hand' 0 "$(lines 'w ok 5\nw.2 ok 6')" ''
at_bench write gm0 --first 30 --file "$work/data" --key w
expect 'the others are done' 0 "$(lines 'w repeated 5\nw.2 repeated 6\nw.3 ok 7\nw.4 ok 8')" 'gm0 100%: 100 of 100 KiB'
lay_over data 30
patch_line v.2 64 others 64 64 >"$work/lines"
at_bench batch <"$work/lines"
at_bench write gm0 --first 0 --file "$work/others" --key v --quiet
expect 'the second was done first' 0 "$(lines 'v ok 10\nv.2 repeated 9\nv.3 ok 11\nv.4 ok 12')" ''
lay_over others 0
expect_data 'both images have all' 300

# Killed once a few were answered.
put_mirror killed 2000
put_data 1900 long
: >"$bench/answers"
"$gmbench" write gm0 --first 96 --file "$work/long" --key w --quiet --registry "$registry" --shelf "$bench/images" \
    >"$bench/answers" 2>/dev/null &
under_way=$!
tries=0
while [ "$(wc -l <"$bench/answers")" -lt 3 ] && [ $tries -lt 5000 ]; do
    tries=$((tries + 1))
done
kill -9 "$under_way" 2>/dev/null
wait "$under_way" 2>/dev/null
done_before=$(wc -l <"$bench/answers")
timeout 60 "$gmbench" write gm0 --first 96 --file "$work/long" --key w --quiet --registry "$registry" \
    --shelf "$bench/images" >"$work/output" 2>"$work/complaints"
status=$?
if [ "$status" = 0 ] && [ "$(wc -l <"$work/output")" = 30 ] &&
    [ "$(grep -c ' repeated ' "$work/output")" -ge "$done_before" ] && [ ! -s "$work/complaints" ]; then
    pass 'the same words go on'
else
    fail 'the same words go on' "status $status after $done_before, $(tail -n 1 "$work/output")"
fi
lay_over long 96
expect_data 'a write that was killed is whole' 2000

# ---- how far it is, and more than 16 MiB

put_mirror large 33000
head -c 16777728 /dev/zero | tr '\0' z >"$work/large.data"
keep_bench
at_bench write gm0 --first 100 --file "$work/large.data" --key w
expect 'more than 16 MiB' 1 'w not done' "w: this takes 513 commands, and 33555456 bytes of the registry for ever
w: to do without: deactivate all images but one, edit that, activate the others, sync
w: --force writes them anyway"
expect_kept 'nothing is written of them'
timeout 60 "$gmbench" write gm0 --first 100 --file "$work/large.data" --key w --force --registry "$registry" \
    --shelf "$bench/images" >"$work/output" 2>"$work/complaints"
status=$?
[ "$status" = 0 ] && [ "$(grep -c '^w.* ok ' "$work/output")" = 513 ] &&
    [ "$(tail -n 1 "$work/complaints")" = 'gm0 100%: 16 of 16 MiB' ] &&
    pass 'if that is forced' || fail 'if that is forced' "status $status, $(tail -n 1 "$work/output")"
lay_over large.data 100
expect_data 'they are written' 33000

# ---- its key, and a bar, at a terminal

if command -v script >/dev/null; then
    printf '"%s" write gm0 --first 0 --file "%s" --registry "%s" --shelf "%s"\n' "$gmbench" "$work/few" "$registry" \
        "$bench/images" >"$work/typed"
    script -qec "sh $work/typed" /dev/null </dev/null >"$work/terminal" 2>/dev/null
    tr -d '\r' <"$work/terminal" >"$work/shown"
    key=$(sed -n '2s/ ok .*//p' "$work/shown")
    lines "$key: after a stop the same words with --key $key go on" >"$work/said"
    echo >>"$work/said"
    head -n 1 "$work/shown" >"$work/first"
    expect_same 'a terminal is told the key' "$work/first" "$work/said"
    # 32 patches: the bar is shown anew below the answers.
    head -c 1048576 /dev/zero >"$work/many"
    printf '"%s" write gm0 --first 0 --file "%s" --registry "%s" --shelf "%s"\n' "$gmbench" "$work/many" "$registry" \
        "$bench/images" >"$work/typed"
    script -qec "sh $work/typed" /dev/null </dev/null >"$work/terminal" 2>/dev/null
    cleared=$(printf '\r\033\[K')
    grep -q "${cleared}gm0 [0-9]*% [0-9.]* of 1 MiB" "$work/terminal" && pass 'a bar shows how far it is' ||
        fail 'a bar shows how far it is' "$(tail -n 3 "$work/terminal")"
    tr '\r' '\n' <"$work/terminal" | sed "s/$(printf '\033')\[K//g" | grep -c '^g[0-9.]* ok [0-9]*$' >"$work/answers"
    [ "$(cat "$work/answers")" = 32 ] && pass 'and tears none of the answers' ||
        fail 'and tears none of the answers' "$(cat "$work/answers") whole lines, $(tail -n 3 "$work/terminal")"
    [ "$(tail -c 4 "$work/terminal")" = "$(printf '\r\033[K')" ] && pass 'it is taken away at the end' ||
        fail 'it is taken away at the end' "$(tail -n 1 "$work/terminal")"
else
    skip 'the key at a terminal' 'there is no script(1) here'
fi
finish
