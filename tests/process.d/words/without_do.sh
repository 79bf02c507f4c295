# Commands by themselves: which keys and numbers they get, what `--key` does, and what is said of them.
. "$helpers/help.sh"
. "$helpers/bench.sh"

# An empty image of four sectors at that bench.
add_image() {
    head -c 2048 /dev/zero >"$bench/images/$1"
}

# The numbers that an image says: its mirror's and its own.
numbers_of() {
    "$gmbench" dump --shelf "$bench/images" "$1" | sed -n 's/^[md]id: //p' | paste -sd ' ' -
}

# Whether the last run was refused with this line, and complained with these words.
expect_refused() {
    [ "$status" = 1 ] && [ "$(cat "$work/output")" = "$2" ] && grep -qF -- "$3" "$work/complaints" && pass "$1" ||
        fail "$1" "status $status, '$(cat "$work/output")', '$(cat "$work/complaints")'"
}

# ---- keys and numbers of its own

fresh_bench alone
add_image c.img
at_bench label gm0 a.img
expect 'a mirror without key and numbers' 0 'g000001 ok 1' "a new registry was made at $registry"
at_bench insert gm0 b.img
expect_refused 'it looks first at what is lost' 'g000002 not done' 'b.img holds data, first in sector 0'
at_bench insert --force gm0 b.img
expect 'a spare' 0 'g000002 ok 2' ''
at_bench insert gm0 c.img
expect 'another' 0 'g000003 ok 3' ''
at_bench remove gm0 b.img
expect 'a component is taken out' 0 'g000004 ok 4' ''
at_bench insert gm0 b.img --force --priority 9
expect 'options after the names' 0 'g000005 ok 5' ''
at_bench do g000007 configure --slice 8192 gm0
expect 'a key of this kind that somebody took' 0 'g000007 ok 6' ''
at_bench configure --slice 4096 gm0
expect 'it goes round that' 0 'g000008 ok 7' ''
at_bench configure gm0
expect_refused 'what the rules refuse' 'g000009 refused 25' 'configure is given nothing to change'
at_bench rebuild gm0 d.img
expect_refused 'an image that is not there' 'g000009 refused 8' "d.img isn't on the shelf"
keep_bench
at_bench insert --did x gm0 d.img
expect_refused 'a number that is none' 'g000009 refused 1' "'x' for --did: it is a number up to 4294967295"
expect_kept 'nothing of that was done'

# ---- numbers of mirrors

add_image e.img
add_image f.img
at_bench label gm1 e.img
expect 'another mirror' 0 'g000009 ok 8' ''
at_bench label --balance split --mid=9 gm2 --did 4294967295 -- f.img
expect 'numbers that are given' 0 'g000010 ok 9' ''
[ "$(numbers_of f.img)" = '9 4294967295' ] && pass 'they are taken as they are' ||
    fail 'they are taken as they are' "it says '$(numbers_of f.img)'"

# ---- keys that are given

add_image g.img
at_bench insert --key k10 gm1 g.img
expect 'a key that is given' 0 'k10 ok 10' ''
at_bench insert --key k10 gm1 g.img
expect 'the same again, with the numbers of then' 0 'k10 repeated 10' 'k10: done before, as number 10; nothing is done now'
at_bench insert --key k10 gm1 h.img
expect_refused 'another command under it' 'k10 refused 3' 'the key was accepted for another command'
at_bench insert --key 'k 10' gm1 h.img
expect_refused 'a key that is none' '? refused 2' 'a key is 1 to 32 of'

add_image i.img
at_bench label --key k11 --mid 11 gm4 i.img
expect 'a key and one number that are given' 0 'k11 ok 11' ''
at_bench label --key k11 --mid 11 gm4 i.img
expect 'the same again, with the other number of then' 0 'k11 repeated 11' 'k11: done before, as number 11; nothing is done now'
at_bench label --key k11 --mid 12 gm4 i.img
expect_refused 'another number under it' 'k11 refused 3' 'the key was accepted for another command'

# ---- names that begin with a hyphen

add_image -h.img
at_bench label -- -gm -h.img
expect 'names that begin with a hyphen' 0 'g000012 ok 12' ''
at_bench destroy -- -gm
expect 'one of them' 0 'g000013 ok 13' ''
at_bench patch --first 0 --data "$(head -c 512 /dev/zero | od -An -v -tx1 | tr -d ' \n')" gm2
expect 'bytes' 0 'g000014 ok 14' ''

# ---- wrong words

keep_bench
for words in 'label gm3' 'label --nothing gm3 h.img' 'forget gm0 gm1' 'insert --did' 'patch gm2' 'lost gm0'; do
    at_bench $words
    [ "$status" = 2 ] && [ ! -s "$work/output" ] && grep -q '^error: ' "$work/complaints" && pass "wrong words: $words" ||
        fail "wrong words: $words" "status $status, '$(cat "$work/output")', '$(cat "$work/complaints")'"
done
expect_kept 'nothing was opened for them'
command_lines | sed 's/ .*//' >"$work/commands"
while read -r word; do
    run "$word" --help
    [ "$status" = 0 ] && grep -q '^Example:$' "$work/output" && grep -q "^  gmbench $word " "$work/output" && pass "the help of $word" ||
        fail "the help of $word" "status $status, '$(cat "$work/output")'"
done <"$work/commands"

# ---- a registry

forget_registry
at_bench forget gm0
[ "$status" = 3 ] && grep -q 'F2 store' "$work/complaints" && pass 'no registry is made by forget' ||
    fail 'no registry is made by forget' "status $status, '$(cat "$work/complaints")'"
at_bench label --existing gm5 h.img
[ "$status" = 3 ] && grep -q 'F2 store' "$work/complaints" && pass 'nor with --existing' ||
    fail 'nor with --existing' "status $status, '$(cat "$work/complaints")'"
at_bench adopt gm1 e.img g.img
expect 'one is made by adopt' 0 'g000001 ok 1' "a new registry was made at $registry"

# ---- at a terminal

if command -v script >/dev/null 2>&1; then
    add_image k.img
    echo "\"$gmbench\" label --registry \"$registry\" --shelf \"$bench/images\" gm6 k.img" >"$work/typed"
    script -qec "sh $work/typed" /dev/null </dev/null >"$work/terminal" 2>/dev/null
    told=$(tr -d '\r' <"$work/terminal" | head -n 1)
    set -- $(numbers_of k.img)
    [ "$told" = "g000002 --mid $1 --did $2" ] && pass 'key and numbers are said first' ||
        fail 'key and numbers are said first' "$(cat "$work/terminal")"
else
    skip 'what is said at a terminal' 'there is no script'
fi
finish
