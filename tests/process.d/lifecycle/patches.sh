# Data that are changed: which sectors of which components, and what is refused.
. "$helpers/lists.sh"
. "$helpers/records.sh"
. "$helpers/serving.sh"

# ---- data that are changed on each component that has them

# So many digits of a hexadecimal number, each of them this one.
digits() {
    head -c "$2" /dev/zero | tr '\0' "$1"
}
# Whether an image holds this character in so many sectors from one on.
expect_sectors() {
    head -c $(($5 * 512)) /dev/zero | tr '\0' "$3" >"$work/wanted-sectors"
    dd if="$bench/images/$2" bs=512 skip="$4" count="$5" 2>/dev/null >"$work/sectors"
    expect_same "$1" "$work/sectors" "$work/wanted-sectors"
}
one=$(digits f 1024)
byte_of_one='\377'

# Two components that have the data.
fresh_bench two
batch "$label${insert}k3 advance gm0 b.img\n"
expect 'two components that have the data' 0 "$(lines 'k1 ok 1\nk2 ok 2\nk3 ok 3 copied 3 of 3')" ''
keep_bench
batch "k4 patch --first 2 --data $one gm0\nk5 patch --first 3 --data $one gm0\n"
expect 'the last sector is changed, and the one behind it is none' 1 "$(lines 'k4 ok 4\nk5 refused 31')" ''
for letter in a b; do
    expect_sectors "$letter.img has it" "$letter.img" "$byte_of_one" 2 1
    expect_sectors "$letter.img keeps the others" "$letter.img" a 0 2
done
expect_told 'a dump of the first' a.img 'gm0 7 1 2 0 2 0 4096 load 1536 0 NONE NONE (none) 2048'
expect_told 'a dump of the second' b.img 'gm0 7 2 2 0 2 0 4096 load 1536 0 NONE NONE (none) 2048'
at_bench audit
expect 'an audit finds nothing' 0 '' ''
at_bench scrub --quiet
expect 'their data are equal' 0 '' ''
batch "k4 patch --data $one gm0 --first 2\nk4 patch --first 1 --data $one gm0\nk4 patch --first 2 --data ${one%f}e gm0\n"
expect 'the same again is repeated, and another is refused' 1 "$(lines 'k4 repeated 4\nk4 refused 3\nk4 refused 3')" ''

put_back
batch "k4 patch --first 0 --data $(digits 6 3072) gm0\n"
expect 'all sectors' 0 'k4 ok 4' ''
for letter in a b; do
    expect_sectors "$letter.img has all of them" "$letter.img" f 0 3
done

# ---- refusals, each for the least number

put_back
two=$(digits 0 2048)
expect_list 'what a patch is refused for' 1 <<END
k4 patch --first 0 --data $one gm1|k4 refused 5
k4 patch --first 3 --data $one gm1|k4 refused 5
k4 patch --first 3 --data $one gm0|k4 refused 31
k4 patch --first 2 --data $two gm0|k4 refused 31
k4 patch --first 4294967295 --data $one gm0|k4 refused 31
k4 patch --first 0 --data $(digits 0 4096) gm0|k4 refused 31
k4 patch --first 0 --data $(digits 0 65536) gm0|k4 refused 31
k1 patch --first 0 --data $one gm0|k1 refused 3
k/4 patch --first 0 --data $one gm0|? refused 2
END
expect_kept 'no byte is changed by them'
batch 'k4 rebuild gm0 b.img\n'
expect_list 'while a component is filled' 1 <<END
k5 patch --first 0 --data $one gm0|k5 refused 30
k5 patch --first 3 --data $one gm0|k5 refused 30
END
put_back
batch 'k4 rebuild gm0 b.img\nk5 configure --autosync off gm0\n'
expect_list 'while one waits to be filled' 1 <<END
k6 patch --first 0 --data $one gm0|k6 refused 30
END
put_back
rm "$bench/images/b.img"
batch "k4 patch --first 3 --data $one gm0\n"
expect 'while one is away' 1 'k4 refused 8' ''

# One that was added and has other data.
fresh_bench inserted
batch "$label$insert"
expect_list 'while one that was added is to be filled' 1 <<END
k3 patch --first 2 --data $one gm0|k3 refused 30
END
expect_images 'no image is written by it' pending-a pending-b

# An adopted mirror with the greatest syncid.
fresh_bench greatest
put_told a.img 3 a all=1 syncid=4294967295
batch "k1 adopt gm0 a.img\nk2 patch --first 0 --data $one gm0\nk2 patch --first 3 --data $one gm0\n"
expect 'a syncid that can not rise' 1 "$(lines 'k1 ok 1\nk2 refused 23\nk2 refused 23')" ''

# ---- a component out of use falls behind, and is filled anew from what the others hold

fresh_bench behind
batch "$label${insert}k3 advance gm0 b.img\nk4 deactivate gm0 b.img\n"
cp "$bench/images/b.img" "$work/b.img"
batch "k5 patch --first 0 --data $one gm0\n"
expect 'a patch beside a component out of use' 0 'k5 ok 5' ''
expect_same 'that one is not written' "$bench/images/b.img" "$work/b.img"
expect_sectors 'the other has it' a.img "$byte_of_one" 0 1
expect_sectors 'the other keeps the others' a.img a 1 2
expect_told 'a dump of the other' a.img 'gm0 7 1 2 0 3 0 4096 load 1536 0 NONE NONE (none) 2048'
expect_records 'what is registered then' <<'END'
gm0 DEGRADED 7 2 0 3 load 4096 NONE 1536
a.img ACTIVE 1 0 3 NONE 0 2048 no
b.img INACTIVE 2 0 1 INACTIVE 0 2048 no
END
batch 'k6 activate gm0 b.img\nk7 advance gm0 b.img\n'
expect 'it is filled anew' 0 "$(lines 'k6 ok 6\nk7 ok 7 copied 3 of 3')" ''
for letter in a b; do
    expect_sectors "$letter.img has what was patched" "$letter.img" "$byte_of_one" 0 1
    expect_sectors "$letter.img has the others as they were" "$letter.img" a 1 2
done
expect_told 'a dump of the one that was filled' b.img 'gm0 7 2 2 0 3 0 4096 load 1536 0 NONE NONE (none) 2048'
at_bench scrub --quiet
expect 'their data are equal then' 0 '' ''

# Images that were patched, and are adopted by a registry that knows nothing; one of them says DIRTY.
forget_registry
put_back_dirty() {
    overwrite "$bench/images/b.img" 87 '\001'
    rehash "$bench/images/b.img"
}
put_back_dirty
run taste --shelf "$bench/images"
expect 'an image that says DIRTY is tasted by what else it says' 0 "$(lines \
    'gm0             mid 7 genid 0 syncid 3\n  a.img           ACTIVE\n  b.img           ACTIVE DIRTY\n  source: a.img')" ''
batch 'k1 adopt gm0 a.img b.img\n'
expect 'the mirror is adopted' 0 'k1 ok 1' ''
expect_told 'DIRTY is gone' b.img 'gm0 7 2 2 0 3 0 4096 load 1536 0 NONE NONE (none) 2048'

# ---- as many sectors, and as many components, as there may be

fresh_bench many
members=
for number in 1 2 3 4 5 6 7 8 9 10 11 12 13 14 15 16; do
    put_told "m$number" 70 m "did=$number" all=16 mediasize=35840 provsize=36352
    members="$members m$number"
done
batch "k1 adopt gm0$members\n"
expect 'sixteen components' 0 'k1 ok 1' ''
batch "k2 patch --first 6 --data $(digits 6 65536) gm0\nk3 patch --first 7 --data $(digits 6 65536) gm0\n"
expect '64 sectors of each' 1 "$(lines 'k2 ok 2\nk3 refused 31')" ''
for number in 1 9 16; do
    expect_sectors "m$number has them" "m$number" f 6 64
    expect_sectors "m$number keeps those before" "m$number" m 0 6
done
at_bench audit
expect 'an audit of sixteen' 0 '' ''
at_bench scrub --quiet
expect 'the data of sixteen are equal' 0 '' ''

# ---- the same over HTTP: 64 sectors, whose digits make a body of more than 64 KiB

if has_python 'a patch over HTTP'; then
    begin_server
    post "{\"key\":\"k4\",\"words\":[\"patch\",\"--first\",\"6\",\"--data\",\"$(digits 5 65536)\",\"--\",\"gm0\"]}"
    expect 'a patch of 64 sectors over HTTP' 0 '{"answer":"ok","seq":3}' ''
    post "{\"key\":\"k5\",\"words\":[\"patch\",\"--first\",\"7\",\"--data\",\"$(digits 5 65536)\",\"--\",\"gm0\"]}"
    expect 'one that ends beyond the data' 0 '{"answer":"refused","number":31}' ''
    stop_server 'a server that was handed patches'
    expect_sectors 'an image has what came over HTTP' m16 U 6 64
    at_bench scrub --quiet
    expect 'the data are equal behind it' 0 '' ''
fi
finish
