# No crate waits for the proof of the bench that can do without it.
. "$helpers/expect.sh"
. "$helpers/python.sh"

# ---- the crates' order, and what waits for the bench

if has_python 'the order of the crates'; then
    run_script repository/crates.py "$top"

    # Wrong repositories, each of which one line of the script refuses.
    refused=$work/refused
    begin() {
        rm -rf "$refused"
        mkdir -p "$refused/crates"
        for crate in low gm_bench above gmbench; do
            mkdir -p "$refused/crates/$crate/src"
        done
        printf 'low:\ngm_bench: low\nabove: gm_bench\ngmbench: above\n' >"$refused/crates.txt"
        echo 'use low::Low;' >"$refused/crates/gm_bench/src/lib.rt"
        echo 'use gm_bench::Bench;' >"$refused/crates/above/src/lib.rt"
        echo 'use above::program;' >"$refused/crates/gmbench/src/main.rt"
    }
    expect_told() {
        told=$(PYTHONPATH=$helpers python3 -B "$tests/repository/crates.py" "$refused" | grep -v '^ok ')
        [ "$told" = "$2" ] && pass "$1" || fail "$1" "it said '$told'"
    }
    begin
    expect_told 'a repository in order' ''
    begin
    printf 'low:\nabove: gm_bench\ngm_bench: low\ngmbench: above\n' >"$refused/crates.txt"
    expect_told 'a crate before one below it' 'failed above is listed after the crates below it: gm_bench comes later'
    begin
    echo 'use low::Low;' >"$refused/crates/above/src/lib.rt"
    expect_told 'a crate that waits for the bench, and uses nothing of it' \
        'failed above needs each crate for which it waits: it names nothing of gm_bench'
    begin
    printf '#[test]\nfn one() {}\n' >"$refused/crates/low/src/tests.rt"
    expect_told 'a crate of the program that has tests' 'failed low has no tests, which a build would prove: it has some'
    begin
    for number in 1 2 3 4 5 6 7 8 9 10 11 12 13 14 15 16 17 18 19 20 21 22 23 24 25 26 27 28 29 30 31; do
        printf 'fn one_%s() {}\n\npub fn two_%s() {}\n' "$number" "$number"
    done >>"$refused/crates/above/src/lib.rt"
    expect_told 'a crate above the bench that is large' 'failed above has at most 60 functions: it has 62'
fi
finish
