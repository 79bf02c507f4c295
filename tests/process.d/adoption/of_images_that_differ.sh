# Images of a mirror that each went on alone: an adoption asks before it gives one of them up.
. "$helpers/bench.sh"

# a.img and b.img of gm0 are ACTIVE by what they say. Each was used alone since then: sectors of both differ.
fresh_bench alone
batch "$label${insert}k3 advance gm0 b.img\n"
forget_registry
damage "$bench/images/a.img" 512 north
damage "$bench/images/b.img" 1024 south
cp -R "$bench/images" "$work/found-images"
found_again() {
    forget_registry
    rm -r "$bench/images"
    cp -R "$work/found-images" "$bench/images"
}
why='b.img is ACTIVE and differs from the source in 2 sectors, first 1: both may have gone on alone, and a sync writes over it'

# ---- an adoption that isn't wanted

at_bench adopt gm0 a.img b.img
expect 'it is not done' 1 'g000001 not done' "$(lines "g000001: $why\ng000001: --force does it anyway")"
at_bench adopt --json gm0 a.img b.img
expect 'nor as JSON' 1 '{"answer":"not done","key":"g000001"}' "$(lines "g000001: $why
g000001: --force does it anyway")"
at_bench adopt --all
expect 'nor with all mirrors' 1 "gm0 left: $why" ''
at_bench status
expect 'the mirror is not registered' 0 'no mirrors' ''
expect_same 'the one is as it was' "$bench/images/a.img" "$work/found-images/a.img"
expect_same 'and so is the other' "$bench/images/b.img" "$work/found-images/b.img"

# ---- one that is forced

for words in 'adopt --force gm0 a.img b.img' 'adopt --force --all' 'batch'; do
    found_again
    echo 'g000001 adopt gm0 a.img b.img' >"$work/lines"
    at_bench $words <"$work/lines"
    expect "it is done: $words" 0 'g000001 ok 1' ''
    at_bench status
    expect "the other is to be filled: $words" 0 "$of_two" ''
done
at_bench sync --quiet
expect 'a sync after that' 0 "$(lines 'gm0 a.img ACTIVE\ngm0 b.img ACTIVE')" ''
expect_same_data 'gives it the data of the source' "$bench/images/a.img" "$bench/images/b.img" 1536

# ---- each by itself

found_again
at_bench adopt gm0 b.img
expect 'one alone leaves the other' 1 'g000001 not done' "$(lines 'g000001: a.img is of the same mirror: adopt it too
g000001: --force does it anyway')"
mkdir "$work/away"
mv "$bench/images/a.img" "$work/away"
at_bench adopt gm0 b.img
expect 'if the other is away, it is adopted' 0 'g000001 ok 1' ''

finish
