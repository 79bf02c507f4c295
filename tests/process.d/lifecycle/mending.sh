# An image whose last sector isn't as it is registered: when that is written again, and what is said if it isn't.
. "$helpers/bench.sh"

# A bench whose mirror gm0 has two images with so many sectors of data, a.img ACTIVE and b.img to be filled.
begun_mirror() {
    fresh_bench "$1"
    for letter in a b; do
        head -c $(($2 * 512)) /dev/zero | tr '\0' "$letter" >"$bench/images/$letter.img"
        head -c 512 /dev/zero >>"$bench/images/$letter.img"
    done
    sectors=$2
    batch "$label$insert"
}

# The same, in which b.img is ACTIVE too.
filled_mirror() {
    begun_mirror "$1" "$2"
    batch 'k3 advance gm0 b.img\n'
}

# Writes these bytes at the beginning of the last sector of an image of that mirror.
spoil() {
    printf "$2" | dd of="$bench/images/$1" bs=512 seek="$sectors" conv=notrunc 2>/dev/null
}

# Writes a byte that no image has at the beginning of these data sectors of an image.
rot() {
    image=$bench/images/$1
    shift
    for sector; do
        damage "$image" $((sector * 512)) x
    done
}

# Whether the last run wasn't done under this key, and complained of just these lines.
expect_not_done() {
    expect "$1" 1 "$2 not done" "$3"
    expect_kept "$1: nothing is written"
}

forced='--force does it anyway'
unchecked='--unchecked does it anyway'

# ---- a last sector that was damaged

# What is written over the first bytes of b.img's last sector, and how the image stands then.
spoiled() {
    filled_mirror "spoiled-$1" 40
    keep_bench
    spoil b.img "$2"
    at_bench check
    grep -qx "b.img $3" "$work/output" && pass "$1: it isn't as it is registered" ||
        fail "$1: it isn't as it is registered" "$(cat "$work/output")"
    at_bench mend b.img
    expect "$1: its last sector is written again" 0 'g000004 ok 4' 'b.img 100%: 20 of 20 KiB'
    expect_same "$1: b.img has every byte that it had" "$bench/images/b.img" "$work/kept-images/b.img"
    expect_same "$1: so has a.img" "$bench/images/a.img" "$work/kept-images/a.img"
    at_bench status
    expect "$1: the mirror is as it was" 0 "$of_filled" ''
}
spoiled magic X 'no metadata'
spoiled hash 'GEOM::MIRROR\000\000\000\000\004\000\000\000gm1' 'damaged'
filled_mirror zeros 40
keep_bench
truncate -s 20480 "$bench/images/b.img"
truncate -s 20992 "$bench/images/b.img"
at_bench mend --quiet --json b.img
expect 'zeros, as JSON' 0 '{"answer":"ok","key":"g000004","seq":4}' ''
expect_same 'zeros: b.img has every byte that it had' "$bench/images/b.img" "$work/kept-images/b.img"

# The source of all others is compared with the one that would be the source without it.
filled_mirror source 40
keep_bench
spoil a.img X
at_bench mend --key m1 a.img
expect 'the source' 0 'm1 ok 4' 'a.img 100%: 20 of 20 KiB'
expect_same 'the source has every byte that it had' "$bench/images/a.img" "$work/kept-images/a.img"

# A mirror that fills nothing by itself stays so.
filled_mirror setting 40
batch 'k4 configure --autosync off gm0\n'
keep_bench
spoil b.img X
at_bench mend --quiet b.img
expect 'a mirror with NOAUTOSYNC' 0 'g000005 ok 5' ''
expect_same 'it keeps the flag' "$bench/images/b.img" "$work/kept-images/b.img"

# ---- one that is as it is registered

filled_mirror well 40
keep_bench
at_bench mend b.img
expect 'nothing is to be mended' 0 'b.img is as it is registered' ''
at_bench mend --json --key m1 b.img
expect 'as JSON' 0 '{"answer":"as registered","image":"b.img"}' ''
rm "$bench/images/a.img"
at_bench mend b.img
expect 'whatever another image is' 0 'b.img is as it is registered' ''
cp "$work/kept-images/a.img" "$bench/images/a.img"
expect_kept 'nothing was handed in'

# ---- data that differ

filled_mirror rotten 40
rot b.img 17 20 39
spoil b.img X
keep_bench
differs='b.img differs from the source a.img in 3 sectors, first 17'
rebuild='rebuild --unchecked gm0 b.img has it filled anew by the next sync'
at_bench mend --quiet b.img
expect_not_done 'data that differ' g000004 "$(lines "g000004: $differs\ng000004: $rebuild")"
at_bench mend --quiet --force --key m1 b.img
expect_not_done 'they are not forced' m1 "$(lines "m1: $differs\nm1: $rebuild")"
at_bench mend --quiet --json --key m1 b.img
expect_not_done_json() {
    expect "$1" 1 '{"answer":"not done","key":"m1"}' "$2"
    expect_kept "$1: nothing is written"
}
expect_not_done_json 'as JSON' "$(lines "m1: $differs\nm1: $rebuild")"
at_bench mend b.img
expect 'it says how far it is' 1 'g000004 not done' \
    "$(lines "b.img 100%%: 20 of 20 KiB\ng000004: $differs\ng000004: $rebuild")"
at_bench rebuild --unchecked gm0 b.img
at_bench sync --quiet
expect 'after a rebuild a sync fills it' 0 "$(lines 'gm0 a.img ACTIVE\ngm0 b.img ACTIVE')" ''
expect_same_data 'it has the data then' "$bench/images/a.img" "$bench/images/b.img" 20480
at_bench audit
expect 'and it is as it is registered' 0 '' ''
filled_mirror one-sector 40
rot a.img 39
spoil a.img X
keep_bench
at_bench mend --quiet a.img
expect_not_done 'one sector of the source' g000004 "$(lines \
    'g000004: a.img differs from the source b.img in 1 sector, first 39
g000004: rebuild --unchecked gm0 a.img has it filled anew by the next sync')"

# ---- one that is being filled: 600 sectors, of which it has 256

begun_mirror filling 600
batch 'k3 advance gm0 b.img\n'
keep_bench
spoil b.img X
at_bench mend b.img
expect 'other data above its offset' 0 'g000004 ok 4' 'b.img 100%: 128 of 128 KiB'
expect_same 'it has every byte that it had' "$bench/images/b.img" "$work/kept-images/b.img"
at_bench status
expect 'it is being filled still' 0 "$(lines 'gm0             DEGRADED 1/2
  a.img           ACTIVE
  b.img           SYNCHRONIZING 256 of 600')" ''
spoil b.img X
rot b.img 255
keep_bench
at_bench mend --quiet b.img
expect_not_done 'other data below its offset' g000005 \
    "$(lines "g000005: b.img differs from the source a.img in 1 sector, first 255\ng000005: $rebuild")"
begun_mirror stale 600
batch 'k3 advance gm0 b.img\nk4 configure --autosync off gm0\n'
spoil b.img X
rot b.img 0
keep_bench
at_bench mend --quiet b.img
expect_not_done 'other data of one that is STALE' g000005 \
    "$(lines "g000005: b.img differs from the source a.img in 1 sector, first 0\ng000005: $rebuild")"
begun_mirror empty 40
keep_bench
spoil b.img X
at_bench mend b.img
expect 'one that has nothing yet' 0 'g000003 ok 3' ''
expect_same 'it is as it was' "$bench/images/b.img" "$work/kept-images/b.img"

# ---- one that is INACTIVE, and the only one that is ACTIVE

filled_mirror inactive 40
batch 'k4 deactivate gm0 b.img\n'
rot b.img 3
keep_bench
spoil b.img X
at_bench mend b.img
expect 'one that is INACTIVE' 0 'g000005 ok 5' ''
expect_same 'its other data stay' "$bench/images/b.img" "$work/kept-images/b.img"
spoil a.img X
keep_bench
alone='no other component of gm0 is ACTIVE: nothing shows that a.img has its data'
at_bench mend a.img
expect_not_done 'the only one that is ACTIVE' g000006 "$(lines "g000006: $alone\ng000006: $forced")"
at_bench mend --json --key m1 a.img
expect_not_done_json 'the only one, as JSON' "$(lines "m1: $alone\nm1: $forced")"
at_bench mend --force a.img
expect 'unless that is forced' 0 'g000006 ok 6' ''
at_bench audit
expect 'both are as they are registered' 0 '' ''

# Types this answer when it asks whether a.img is mended.
answer() {
    printf '"%s" mend --registry "%s" --shelf "%s" a.img >"%s"; echo "$?" >"%s"\n' "$gmbench" "$registry" \
        "$bench/images" "$work/output" "$work/ended" >"$work/typed"
    printf "$1" | script -qec "sh $work/typed" /dev/null >"$work/terminal" 2>/dev/null
    status=$(cat "$work/ended")
    grep -qF "$alone" "$work/terminal" && grep -qF 'go on? (yes or no)' "$work/terminal" &&
        pass "a terminal is asked: $2" || fail "a terminal is asked: $2" "$(cat "$work/terminal")"
    : >"$work/complaints"
}
if command -v script >/dev/null; then
    fresh_bench asked
    batch "$label"
    sectors=3
    spoil a.img X
    keep_bench
    answer 'no\n' no
    expect_not_done 'after no' g000002 ''
    answer 'yes\n' yes
    expect 'after yes' 0 'g000002 ok 2' ''
else
    skip 'a question at a terminal' 'there is no script(1) here'
fi

# ---- a last sector that says something else

filled_mirror exchanged 40
dd if="$bench/images/a.img" bs=512 skip=40 count=1 2>/dev/null | dd of="$bench/images/b.img" bs=512 seek=40 conv=notrunc 2>/dev/null
keep_bench
at_bench mend --quiet b.img
expect_not_done 'one that says another component' g000004 "$(lines \
    "g000004: b.img says that it is another component of gm0: that is written over\ng000004: $forced")"
at_bench mend --quiet --force b.img
expect 'unless that is forced too' 0 'g000004 ok 4' ''
filled_mirror older 40
dd if="$bench/images/b.img" of="$work/sector" bs=512 skip=40 count=1 2>/dev/null
batch 'k4 deactivate gm0 a.img\nk5 activate gm0 a.img\nk6 advance gm0 a.img\n'
spoil b.img X
dd if="$work/sector" of="$bench/images/b.img" bs=512 seek=40 conv=notrunc 2>/dev/null
at_bench mend --quiet b.img
expect 'one that is older, with the data' 0 'g000007 ok 7' ''

# ---- what is in the way

filled_mirror absent 40
rm "$bench/images/b.img"
keep_bench
in_its_size='mend writes the last sector of an image that is there in its size'
at_bench mend b.img
expect "one that isn't there" 1 "$(lines 'g000004 not done\nb.img absent')" \
    "$(lines "g000004: b.img isn't in the folder: bring it back, or give it up by lost\ng000004: $in_its_size")"
head -c 512 /dev/zero >"$bench/images/b.img"
keep_bench
at_bench mend b.img
expect 'one that is cut short' 1 "$(lines 'g000004 not done\nb.img another size')" "$(lines \
    "g000004: b.img hasn't the size that is registered: bring the right one back, replace it, or give it up by lost
g000004: $in_its_size")"
at_bench mend --force --unchecked --json b.img
expect 'whatever is forced, as JSON' 1 \
    '{"answer":"not done","images":[{"image":"b.img","standing":"another size"}],"key":"g000004"}' \
    "$(cat "$work/complaints")"
expect_kept 'nothing is written of it'

filled_mirror others 40
cp "$bench/images/a.img" "$work/whole"
spoil b.img X
spoil a.img X
keep_bench
overwritten='is another file or was overwritten: bring the right one back, mend it, replace it, or give it up by lost'
at_bench mend --quiet b.img
expect 'another image that is damaged' 1 "$(lines 'g000004 not done\na.img no metadata')" \
    "$(lines "g000004: a.img $overwritten\ng000004: $unchecked")"
expect_kept 'nothing is written then'
at_bench mend --quiet --unchecked b.img
expect 'unless that is not looked at' 0 'g000004 ok 4' ''
expect_same 'then both are written' "$bench/images/a.img" "$work/whole"
spoil b.img X
truncate -s 512 "$bench/images/a.img"
keep_bench
at_bench mend --quiet --unchecked --key m1 b.img
expect_not_done 'a source that is cut short' m1 \
    "$(lines "m1: a.img hasn't its size: nothing shows that b.img has the data of gm0\nm1: $forced")"
at_bench mend --quiet --unchecked --force --key m1 b.img
expect 'which the rules refuse' 1 'm1 refused 8' "$(cat "$work/complaints")"
expect_kept 'so nothing is written'

filled_mirror stranger 40
put_image "$bench/images/c.img" c bare
keep_bench
at_bench mend c.img
expect 'no component' 1 'g000004 refused 12' "g000004: refused 12: c.img isn't a component of a registered mirror"
at_bench mend --json --key m1 x.img
expect 'nor is one that is not there, as JSON' 1 '{"answer":"refused","key":"m1","number":12}' \
    "m1: refused 12: x.img isn't a component of a registered mirror"
at_bench mend
expect_words 'no image'
at_bench mend a.img b.img
expect_words 'two images'
at_bench mend 'b/img'
expect_words 'a name that is none'
expect_kept 'nothing was handed in for them'

# ---- keys

filled_mirror keys 40
spoil b.img X
at_bench mend --quiet --key m1 b.img
expect 'a key that is given' 0 'm1 ok 4' ''
spoil b.img X
keep_bench
repeated='m1: done before, as number 4; nothing is done now'
at_bench mend --quiet --key m1 b.img
expect 'the same again' 0 'm1 repeated 4' "$repeated"
expect_kept 'nothing is done anew'
at_bench mend --quiet --key k3 b.img
expect 'a key of another command' 1 'k3 refused 3' 'k3: refused 3: the key was accepted for another command'
at_bench mend --quiet --key 'm 1' b.img
expect 'a key that is none' 1 '? refused 2' "m 1: refused 2: a key is 1 to 32 of A-Z, a-z, 0-9, '.', '_' and '-'"
expect_kept 'nothing is done under them'
at_bench mend --quiet b.img
at_bench configure --autosync off gm0
at_bench mend --quiet --key m1 b.img
expect 'the same again after the setting is another' 0 'm1 repeated 4' "$repeated"

# Without a registry there is nothing to mend, and none is made.
forget_registry
at_bench mend b.img
[ "$status" = 3 ] && [ ! -e "$registry" ] && pass 'no registry is made' || fail 'no registry is made' "status $status"
finish
