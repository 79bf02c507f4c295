# Numbers that a command by itself isn't given: they are drawn, so that mirrors which are made apart differ in them.
. "$helpers/bench.sh"

# The numbers that an image of that bench says: its mirror's and its own.
numbers_of() {
    "$gmbench" dump --shelf "$bench/images" "$1" | sed -n 's/^[md]id: //p' | paste -sd ' ' -
}

# Whether these numbers may be given, and no two of them are equal.
expect_apart() {
    name=$1
    shift
    wrong=
    for number; do
        [ "$number" -ge 1 ] && [ "$number" -le 4294967295 ] || wrong="there is $number"
    done
    [ "$(printf '%s\n' "$@" | sort -u | wc -l)" = $# ] || wrong="two are equal"
    [ -z "$wrong" ] && pass "$name" || fail "$name" "$wrong: $*"
}

# A bench whose mirror gm0 has a.img and b.img, which are ACTIVE, under numbers that are drawn.
made_alone() {
    fresh_bench "$1"
    at_bench label gm0 a.img
    at_bench insert --force gm0 b.img
    at_bench sync --quiet
    mid=$(numbers_of a.img | cut -d ' ' -f 1)
    did=$(numbers_of a.img | cut -d ' ' -f 2)
    other_did=$(numbers_of b.img | cut -d ' ' -f 2)
    [ "$(numbers_of b.img)" = "$mid $other_did" ] && pass "$1: one number for the mirror" ||
        fail "$1: one number for the mirror" "$(numbers_of a.img), $(numbers_of b.img)"
}

# ---- two offices that know nothing of each other

made_alone north
expect_apart 'north: the numbers' "$mid" "$did" "$other_did"
north="$mid $did $other_did"
cp -R "$bench/images" "$work/north-images"
made_alone south
expect_apart 'the numbers of both' "$mid" "$did" "$other_did" $north
cp -R "$bench/images" "$work/south-images"
cp "$work/north-images/b.img" "$bench/images/b.img"
keep_bench
at_bench audit
expect "an image of the other office under a member's name is found" 1 b.img ''
at_bench configure --balance prefer gm0
expect 'and stands in the way of a command' 1 "$(lines 'g000004 not done\nb.img another mirror')" "$(lines \
    'g000004: b.img is another image, by what it says: were names exchanged? See dump and taste
g000004: --unchecked does it anyway')"
at_bench sync
expect 'and of a sync' 1 b.img 'gm0 is passed over: not all of its images are as they are registered'
expect_kept 'nothing is written'

fresh_bench drawer
cp "$work/north-images/a.img" "$bench/images/a.img"
cp "$work/south-images/b.img" "$bench/images/b.img"
cp -R "$bench/images" "$work/drawer-images"
at_bench adopt --all
expect 'an image of each makes no mirror' 1 "$(lines 'gm0 left: two mirrors have this name\ngm0 left: two mirrors have this name')" \
    "a new registry was made at $registry"
at_bench adopt gm0 a.img b.img
expect 'also if both are named' 1 'g000001 refused 26' \
    "g000001: refused 26: these images don't tell of one mirror gm0; taste says what they tell"
expect_same 'the one is as it was' "$bench/images/a.img" "$work/drawer-images/a.img"
expect_same 'and so is the other' "$bench/images/b.img" "$work/drawer-images/b.img"

# ---- a command that is repeated

fresh_bench repeated
at_bench label --key k1 gm0 a.img
at_bench insert --key k2 --force gm0 b.img
keep_bench
at_bench label --key k1 gm0 a.img
expect 'a label that is repeated' 0 'k1 repeated 1' 'k1: done before, as number 1; nothing is done now'
at_bench insert --key k2 gm0 b.img
expect 'an insert that is repeated' 0 'k2 repeated 2' 'k2: done before, as number 2; nothing is done now'
expect_kept 'they keep their numbers'

# ---- whatever the system gives

# A command, while the system gives this number whenever it is asked.
drawing() {
    export LD_PRELOAD="$work/drawn.so" DRAWN="$1"
    shift
    at_bench "$@"
    unset LD_PRELOAD DRAWN
}

# Whether an image says these numbers after the last run, which was done.
expect_numbers() {
    told=$(numbers_of "$2")
    [ "$status" = 0 ] && [ "$told" = "$3" ] && pass "$1" || fail "$1" "status $status, '$told', and not '$3'"
}

if command -v cc >/dev/null && cc -O1 -fPIC -shared -o "$work/drawn.so" "$tests/words/drawn_numbers.c" 2>"$work/complaints"; then
    fresh_bench given
    for name in c d e f g h; do
        head -c 2048 /dev/zero >"$bench/images/$name.img"
    done
    put_told_by() {
        "$gmbench" do --registry "$bench/other" --shelf "$bench/images" k1 label --mid "$2" --did "$3" "$4" "$1" >/dev/null 2>&1
        rm -f "$bench/other" "$bench/other-wal"
    }
    drawing 4294967295 label gm0 a.img
    expect_numbers 'the greatest number' a.img '4294967295 4294967295'
    drawing 4294967295 insert --force gm0 b.img
    expect_numbers 'one that a component has' b.img '4294967295 1'
    drawing 0 label gm1 c.img
    expect_numbers 'none' c.img '1 1'
    drawing 1 label gm2 d.img
    expect_numbers 'one that a mirror has' d.img '2 1'
    put_told_by e.img 3 1 gm9
    put_told_by f.img 4 2 gm1
    drawing 3 label gm3 g.img
    expect_numbers 'those that images say' g.img '5 3'
    drawing 1 insert gm1 h.img
    expect_numbers 'one that an image of the name says' h.img '1 3'
else
    skip 'whatever the system gives' 'there is no C compiler here'
fi
finish
