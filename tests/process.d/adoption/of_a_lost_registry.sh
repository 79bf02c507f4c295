# Mirrors that were made here, and are adopted by a registry that knows nothing.
. "$helpers/bench.sh"

# ---- mirrors that are found on images

adopt='k1 adopt gm0 a.img b.img\n'

fresh_bench adopted
batch "$label${insert}k3 advance gm0 b.img\n"
forget_registry
cp "$bench/images/a.img" "$work/adopted-a"
cp "$bench/images/b.img" "$work/adopted-b"
batch "${adopt}${adopt}k2 adopt gm0 a.img\nk2 adopt gm1 a.img\n"
expect 'a mirror is adopted' 1 "$(lines 'k1 ok 1\nk1 repeated 1\nk2 refused 6\nk2 refused 7')" ''
at_bench status
expect 'a status of it' 0 "$of_filled" ''
expect_same 'the first image says what it said' "$bench/images/a.img" "$work/adopted-a"
expect_same 'and so does the second' "$bench/images/b.img" "$work/adopted-b"
at_bench audit
expect 'an audit of it' 0 '' ''

forget_registry
damage "$bench/images/b.img" 1024 x
batch "$adopt"
expect 'one whose images differ is adopted' 0 'k1 ok 1' ''
at_bench status
expect 'the one that differs is to be filled' 0 "$of_two" ''
batch 'k2 advance gm0 b.img\n'
expect 'it is filled' 0 'k2 ok 2 copied 3 of 3' ''
expect_same_data 'it has the data' "$bench/images/a.img" "$bench/images/b.img" 1536

forget_registry
batch 'k1 adopt gm1 a.img b.img
k1 adopt gm0 a.img a.img
k1 adopt gm0 a.img d.img
k1 adopt gm0
k1 adopt
k1 adopt gm0 a.img b.img a.img b.img a.img b.img a.img b.img a.img b.img a.img b.img a.img b.img a.img b.img a.img
'
expect 'an adoption that is refused' 1 "$(lines 'k1 refused 26\nk1 refused 13\nk1 refused 8\nk1 refused 1\nk1 refused 1
k1 refused 13')" ''
overwrite "$bench/images/b.img" 45 '\1'
batch "${adopt}k1 adopt gm0 b.img\n"
expect 'metadata that are damaged' 1 "$(lines 'k1 refused 26\nk1 refused 26')" ''
at_bench status
expect 'a status when nothing was adopted' 0 'no mirrors' ''
rehash "$bench/images/b.img"
batch "${adopt}k1 adopt gm0 b.img\n"
expect 'another genid' 1 "$(lines 'k1 refused 26\nk1 ok 1')" ''
batch 'k2 adopt gm0 a.img\nk2 adopt gm2 b.img\n'
expect 'one that is adopted in part' 1 "$(lines 'k2 refused 6\nk2 refused 7')" ''

# ---- one that is being filled

fresh_bench half
put_long_image "$bench/images/a.img" x
put_long_image "$bench/images/b.img" y
batch "$label${insert}k3 advance gm0 b.img\n"
forget_registry
batch "$adopt"
expect 'one that is being filled is adopted' 0 'k1 ok 1' ''
at_bench status
expect 'it goes on where it was' 0 "$(whole_lines "$of_two" | sed 's/0 of 3/256 of 257/')" ''
forget_registry
damage "$bench/images/b.img" 130600 x
batch "$adopt"
expect 'one whose data are not those of the source' 0 'k1 ok 1' ''
at_bench status
expect 'it begins anew' 0 "$(whole_lines "$of_two" | sed 's/0 of 3/0 of 257/')" ''

# ---- those that were taken out of use, or lost

fresh_bench behind
batch "$label${insert}k3 advance gm0 b.img\nk4 deactivate gm0 b.img\n"
forget_registry
batch "$adopt"
expect 'one that is out of use is adopted' 0 'k1 ok 1' ''
run dump --shelf "$bench/images" b.img
expect 'it stays out of use' 0 "$(dumped 2 2 INACTIVE 3e8215ef842e068e129321324a08d319)" ''
batch 'k2 lost gm0 b.img\n'
forget_registry
batch "${adopt}k1 adopt gm0 a.img\nk2 forget gm0\n"
expect 'one that was lost is left out' 1 "$(lines 'k1 refused 26\nk1 ok 1\nk2 ok 2')" ''
at_bench status
expect 'a status of the one' 0 "$(lines 'gm0             COMPLETE 1/1\n  a.img           ACTIVE')" ''

# ---- one whose source a patch was stopped in

# a.img says DIRTY, and its sectors are old or new; b.img is whole, one syncid behind.
fresh_bench torn
put_edited "$bench/images/a.img" x 44 '\002' 49 '\002' 87 '\001'
put_edited "$bench/images/b.img" y 40 '\002' 44 '\002'
cp "$bench/images/a.img" "$work/torn-a"
cp "$bench/images/b.img" "$work/torn-b"
why="the source is DIRTY, these aren't: adopt gm0 b.img"
at_bench adopt gm0 a.img b.img
expect 'an adoption from a torn image is not done' 1 'g000001 not done' "$(lines "g000001: $why
g000001: --force does it anyway")"
at_bench adopt --all
expect 'nor one of all' 1 "gm0 left: $why" ''
at_bench status
expect 'it is not registered' 0 'no mirrors' ''
expect_same 'the torn one is as it was' "$bench/images/a.img" "$work/torn-a"
expect_same 'and so is the whole one' "$bench/images/b.img" "$work/torn-b"
at_bench adopt gm0 b.img
expect 'the line that was given adopts the whole one' 0 'g000001 ok 1' ''
at_bench status
expect 'a status of the whole one' 0 "$(lines 'gm0             DEGRADED 1/2\n  b.img           ACTIVE')" ''
for words in 'adopt --force gm0 a.img b.img' 'adopt --force --all' 'batch'; do
    forget_registry
    cp "$work/torn-a" "$bench/images/a.img"
    cp "$work/torn-b" "$bench/images/b.img"
    echo 'g000001 adopt gm0 a.img b.img' >"$work/lines"
    at_bench $words <"$work/lines"
    expect "from the torn one: $words" 0 'g000001 ok 1' ''
    at_bench status
    expect "the other is to be filled: $words" 0 "$of_two" ''
done

# ---- as many as there may be

fresh_bench sixteen
others=
asked="$label"
answered='k1 ok 1'
number=1
for n in 02 03 04 05 06 07 08 09 10 11 12 13 14 15 16; do
    put_image "$bench/images/c$n.img" c bare
    others="$others c$n.img"
    asked="${asked}k$n insert --did $n gm0 c$n.img\nf$n advance gm0 c$n.img\n"
    answered="$answered\nk$n ok $((number + 1))\nf$n ok $((number + 2)) copied 3 of 3"
    number=$((number + 2))
done
batch "${asked}k17 label --mid 8 --did 17 gm1 b.img\n"
expect 'a mirror of sixteen is filled' 0 "$(lines "$answered\nk17 ok $((number + 1))")" ''
forget_registry
batch "k1 adopt gm0 a.img b.img$others\nk1 adopt gm0 a.img$others\n"
expect 'sixteen are adopted, and not seventeen' 1 "$(lines 'k1 refused 14\nk1 ok 1')" ''
at_bench status
expect 'a status of sixteen' 0 "$({
    echo 'gm0             COMPLETE 16/16'
    for name in a.img $others; do echo "  $name         ACTIVE"; done
} | sed 's/^  a.img  */  a.img           /')" ''

fresh_bench sixtyfour
batch 'k1 label --mid 65 --did 1 m65 a.img\n'
forget_registry
asked=
for n in $(seq 1 64); do
    put_image "$bench/images/n$n.img" n bare
    asked="${asked}k$n label --mid $n --did 1 m$n n$n.img\n"
done
batch "$asked"
batch 'k1 adopt m65 a.img\nk65 adopt m65 a.img\nk66 destroy m64\nk67 adopt m65 a.img\n'
expect 'sixty-four mirrors, and one that is adopted' 1 "$(lines 'k1 refused 3\nk65 refused 15\nk66 ok 65\nk67 ok 66')" ''
finish
