# What ./check counts and names at its end.
. "$helpers/expect.sh"

# The last lines of ./check, by stand-ins for `rt` and for tests/process: what it counts, and what it says was skipped.

here=$work/here
mkdir -p "$here/tools" "$here/tests" "$here/crates/gmbench/out" "$work/path"
cp "$top/check" "$top/HANDLES" "$top/crates.txt" "$here"
cp "$top/tools/proved" "$here/tools"
echo program >"$here/crates/gmbench/out/gmbench"
cat >"$work/path/rt" <<'END'
#!/bin/sh
[ "$1" = ci ] || exit 0
cat "$told/rt"
exit "$(cat "$told/rt.status")"
END
cat >"$here/tests/process" <<'END'
#!/bin/sh
cat "$told/process"
exit "$(cat "$told/process.status")"
END
chmod +x "$work/path/rt" "$here/tests/process"
told=$work/told
export told
mkdir "$told"

# What `rt ci` and tests/process print, and how each ends.
say() {
    printf "$1" >"$told/rt"
    echo "$2" >"$told/rt.status"
    printf "$3" >"$told/process"
    echo "$4" >"$told/process.status"
}

# Whether ./check ends so, with just this after what `rt ci` and the tests print.
expect_end() {
    rm -f "$here/crates/gmbench/out/gmbench.proved"
    PATH=$work/path:$PATH "$here/check" >"$work/printed" 2>"$work/complaints" </dev/null
    status=$?
    # How long it took is another number each time.
    tail -n +"$(($(cat "$told/rt" "$told/process" | wc -l) + 1))" "$work/printed" |
        sed 's/^# it took [0-9]* minutes, and [0-9]* seconds of a processor$/# it took a time/' >"$work/output"
    expect "$1" "$2" "$3" ''
}

say 'rt: ok\n40 passed, 0 failed\n' 0 '# words/lines\nok one\n2 passed, 0 failed\n' 0
expect_end 'all passed' 0 '# it took a time
42 passed, 0 failed'
[ -f "$here/crates/gmbench/out/gmbench.proved" ] && pass 'a note is left' || fail 'a note is left' 'there is none'
say '40 passed, 0 failed\n' 0 \
    '# words/lines\nok one\nskipped a line: there is no zsh here\n# faults/stops\nskipped two: there is no sqlite3\n1 passed, 0 failed\n' 0
expect_end 'tests that were skipped' 0 "# what was skipped
skipped words/lines: a line: there is no zsh here
skipped faults/stops: two: there is no sqlite3
# it took a time
41 passed, 0 failed, 2 skipped"
say '40 passed, 1 failed\n' 1 '# words/lines\nok one\n1 passed, 0 failed\n' 0
expect_end 'a crate that failed' 1 '# it took a time
41 passed, 1 failed'
expect_none 'no note is left' "$here/crates/gmbench/out/gmbench.proved"
say '40 passed, 0 failed\n' 0 '# words/lines\nfailed one: why\n0 passed, 1 failed\n' 1
expect_end 'a test that failed' 1 '# it took a time
40 passed, 1 failed'
say '40 passed, 0 failed\n' 2 '# words/lines\nok one\n1 passed, 0 failed\n' 0
expect_end 'proofs that end with a status' 1 '# it took a time
41 passed, 1 failed'
say 'rt: it was killed\n' 137 '# words/lines\nok one\n1 passed, 0 failed\n' 0
expect_end 'proofs that did not come to their end' 1 '# it took a time
1 passed, 1 failed'
say '40 passed, 0 failed\n' 0 '# words/lines\n' 1
expect_end 'tests that did not come to their end' 1 '# it took a time
40 passed, 1 failed'

# ---- a kit that keeps what it proved proves the crates of the program first, and then tries all

cat >"$work/path/rt" <<'END'
#!/bin/sh
[ "$1" != help ] || echo 'rt ci --anew'
[ "$1" = ci ] || exit 0
echo "$*" >>"$told/order"
cat "$told/rt"
END
cat >"$here/tools/build" <<'END'
#!/bin/sh
echo "build $*" >>"$told/order"
exit 1
END
chmod +x "$here/tools/build"
say '40 passed, 0 failed\n' 0 '# words/lines\nok one\n2 passed, 0 failed\n' 0
expect_order() {
    rm -f "$told/order"
    PATH=$work/path:$PATH "$here/check" $2 >"$work/printed" 2>&1 </dev/null
    status=$?
    [ "$status" = 0 ] && [ "$(cat "$told/order")" = "$3" ] && pass "$1" || fail "$1" "status $status: $(cat "$told/order")"
}
expect_order 'the crates of the program come first' '' 'build --crates
ci'
expect_order 'but not if all is proved anew' --anew 'ci --anew'

# ---- ./check --times says what went to which crate

# Stands for `rt ci`, by processes that work for some seconds with the words and in the folders of real ones.
cat >"$work/path/rt" <<'END'
#!/bin/sh
[ "$1" = ci ] || exit 0
# Two seconds of a processor, however fast that is.
work() (
    ulimit -c 0
    ulimit -t 2
    exec awk 'BEGIN { while (1) m++ }' --crate-name "$@"
)
work gm_one &
work gm_one --test &
(mkdir -p "$told/rt-edit-1-a" && cd "$told/rt-edit-1-a" && work gm_two --incremental /tmp/rt-edits-1-a/seed) &
(mkdir -p "$told/rt-edit-1-b" && cd "$told/rt-edit-1-b" && work gm_two --incremental /tmp/rt-edits-1-a/3) &
(mkdir -p "$told/rt-edit-b2_cd" && cd "$told/rt-edit-b2_cd" && work gm_three --incremental /tmp/rt-edits-x3) &
work gmbench --crate-checked checked &
wait
cat "$told/rt"
END
cat >"$here/tests/process" <<'END'
#!/bin/sh
(ulimit -c 0 && ulimit -t 2 && exec awk 'BEGIN { while (1) m++ }' --crate-name gm_four)
cat "$told/process"
END
say '40 passed, 0 failed\n' 0 '# words/lines\nok one\n2 passed, 0 failed\n' 0
cp "$top/tools/times" "$here/tools"
PATH=$work/path:$PATH KEEP_TIMES=$work/kept-times "$here/check" --times >"$work/printed" 2>&1 </dev/null
grep -q '^# it took' "$work/kept-times" && grep -q 'gm_one *proof$' "$work/kept-times" && pass 'the table is kept' ||
    fail 'the table is kept' "there is $(cat "$work/kept-times" 2>&1)"
for row in 'gm_one *proof' 'gm_one *proof of tests' 'gm_two *seed of edits' 'gm_two *edits' 'gm_three *edits' 'gmbench *compiling' \
    'tests/process *running'; do
    sed -n '/^# processor seconds/,/^# it took/p' "$work/printed" | grep -q "^ *[1-9][0-9]*  $row$" &&
        pass "the table has $row" || fail "the table has $row" "it printed $(cat "$work/printed")"
done
grep -q gm_four "$work/printed" && fail 'what the tests start is theirs' "it printed $(cat "$work/printed")" ||
    pass 'what the tests start is theirs'

# ---- each file of tests says in its first line what it shows

"$top/tests/process" --list >"$work/listed" 2>&1
for file in $(cd "$tests" && find . -name '*.sh' ! -path './helpers/*' | sed 's|^\./||; s|\.sh$||'); do
    grep -q "^$file  *[A-Z0-9].*\.$" "$work/listed" && pass "tests/process lists $file" ||
        fail "tests/process lists $file" 'its first line is no sentence'
done

# ---- what tools/test-needs names is what the tests look for

needs=$(sed -n "s/^needs='\(.*\)'/\1/p" "$top/tools/test-needs")
for need in python3 cc sqlite3 curl zsh fish mandoc man dot gnuplot strace /usr/bin/time; do
    case " $needs " in
        *" $need "*) pass "$need is installed for the tests" ;;
        *) fail "$need is installed for the tests" 'tools/test-needs lacks it' ;;
    esac
done
packages=$(sed -n "s/^packages='\(.*\)'/\1/p" "$top/tools/test-needs")
[ -n "$packages" ] && grep -qF "apt-get install $packages" "$top/README.md" && pass 'README gives the line for Debian' ||
    fail 'README gives the line for Debian' "apt-get install $packages"

# ---- what costs most of the gate is bounded, and the pages say by how much

# That a count isn't above its bound.
expect_at_most() {
    [ "$2" -le "$3" ] && pass "$1: $3 at most" || fail "$1: $3 at most" "there are $2"
}

find "$top/crates" -path '*/must-fail/*.edit' | sed 's|.*/crates/||; s|/must-fail||; s|\.edit$||' | LC_ALL=C sort >"$work/edits"
edits=$(wc -l <"$work/edits")
crates=$(cut -d / -f 1 "$work/edits" | sort -u | wc -l)
expect_at_most 'wrong bodies' "$edits" 90
expect_at_most 'crates with wrong bodies' "$crates" 15
tests=$(find "$top/crates" -path '*_tests/src/*.rt' -exec cat {} + | wc -l)
expect_at_most 'lines of proved tests' "$tests" 9600
for page in docs/PROOF.md docs/GATE.md CONTRIBUTING.md; do
    tr '\n' ' ' <"$top/$page" >"$work/page"
    kits=$(grep -o 'rattle-kit-[0-9a-z]*' "$work/page" | LC_ALL=C sort -u | tr '\n' ' ')
    [ "$kits" = 'rattle-kit-13b rattle-kit-13f ' ] && pass "$page has the kits" ||
        fail "$page has the kits" "it has '$kits'"
done
for page in docs/PROOF.md docs/GATE.md; do
    tr '\n' ' ' <"$top/$page" >"$work/page"
    grep -q "\<$edits edits in $crates crates" "$work/page" && pass "$page counts the wrong bodies" ||
        fail "$page counts the wrong bodies" "there are $edits edits in $crates crates"
done

# ---- each wrong body that docs/PROOF.md names is in the tree

sed -n '/^## Wrong bodies/,/^## What is trusted/ s/^|.*| `\(.*\)` |$/\1/p' "$top/docs/PROOF.md" >"$work/named"
[ -s "$work/named" ] && pass 'docs/PROOF.md names wrong bodies' || fail 'docs/PROOF.md names wrong bodies' 'it names none'
while read -r name; do
    case $name in
        *::*) grep -qrE "fn ${name##*::}\(" "$top/crates/${name%%::*}/src" ;;
        *) grep -qxF "$name" "$work/edits" ;;
    esac && pass "there is $name" || fail "there is $name" 'the tree has none'
done <"$work/named"
finish
