# In which order tools/build proves crates, and what a failure, a signal or a full disk leaves.
. "$helpers/expect.sh"
. "$helpers/python.sh"

# Builds of a small repository by a stand-in for `rt`, which writes down what it does: which crates are proved when, and what
# stays after a failure, a signal or a full disk. The real proofs are those of ./check.

# ---- a repository of six crates, and the stand-in

here=$work/here
mkdir -p "$here/tools" "$here/bin" "$work/path" "$work/notes" "$work/temporary"
chmod 711 "$work/temporary"
cp "$top/tools/build" "$top/tools/proved" "$here/tools"
cp "$top/quickstart" "$top/HANDLES" "$here"
cat >"$here/crates.txt" <<'END'
# lowest layer first
base: std_thing
left: base
right: base
left_tests: left
upper: left right
gmbench: upper
END
for crate in base left right left_tests upper gmbench; do
    mkdir -p "$here/crates/$crate/src" "$here/crates/$crate/must-fail" "$here/crates/$crate/out"
    echo "//! $crate" >"$here/crates/$crate/src/lib.rt"
    echo edit >"$here/crates/$crate/must-fail/one.edit"
done
mv "$here/crates/gmbench/src/lib.rt" "$here/crates/gmbench/src/main.rt"
cat >"$work/path/rt" <<'END'
#!/bin/sh
# What a test wants of it lies in $notes: `slow`, `fails.NAME`, `hangs.NAME`, `full`, `forgets`, `unkept`.
case $1 in
    help) [ -e "$notes/forgets" ] || echo 'rt ci --anew'; exit ;;
    version) echo stand-in; exit ;;
esac
shift
echo "begin ${*:-all}" >>"$notes/log"
[ -d .git ] && [ -d "${TMPDIR:?}" ] || echo 'failed: no top or no place' >>"$notes/log"
ls -d crates/*/must-fail crates/left_tests crates/*/out >>"$notes/left" 2>/dev/null
grep -c '^left_tests' crates.txt >>"$notes/lines"
for name in ${*:-gmbench}; do
    if [ -e "$notes/hangs.$name" ]; then
        : >"$notes/hanging.$name"
        sleep 1000 &
        echo $! >>"$notes/sleepers"
        wait
    fi
    if [ -e "$notes/full" ]; then
        echo 'rt: the disk is full, with 0 MB left'
        exit 2
    fi
    if [ -e "$notes/fails.$name" ]; then
        echo "why $name fails"
        echo "rt: $name NOT PROVED"
        exit 1
    fi
    [ -e "$notes/slow" ] && sleep 2 || sleep 0.2
    echo "rt: $name proved"
done
[ $# -gt 0 ] || { mkdir -p crates/gmbench/out && echo "the program of $(cat crates/gmbench/src/main.rt)" >crates/gmbench/out/gmbench; }
[ ! -e "$notes/unkept" ] || echo 'rt: note: the store cannot be used, so nothing is kept'
echo "end ${*:-all}" >>"$notes/log"
END
chmod +x "$work/path/rt"
notes=$work/notes
export notes
path=$work/path:$PATH

# Begins anew with these notes.
begin() {
    rm -rf "$notes" "$here/bin"
    mkdir -p "$notes" "$here/bin"
    for name; do
        : >"$notes/$name"
    done
}

# Builds; what it prints and how it ends is kept.
build() {
    PATH=$path TMPDIR=$work/temporary timeout 60 "$here/tools/build" "$here/bin/gmbench" >"$work/output" 2>"$work/complaints" \
        </dev/null
    status=$?
}

# Begins a build that hangs in a crate, and waits until it does. Its process is $building.
build_until_it_hangs() {
    begin "hangs.$1"
    PATH=$path TMPDIR=$work/temporary "$here/tools/build" "$here/bin/gmbench" >"$work/output" 2>"$work/complaints" </dev/null &
    building=$!
    tries=0
    while [ ! -e "$notes/hanging.$1" ] && [ $tries -lt 300 ]; do
        sleep 0.1
        tries=$((tries + 1))
    done
}

# Whether no process of the stand-in is left, no half made file, and no program.
expect_nothing_left() {
    living=
    for sleeper in $(cat "$notes/sleepers" 2>/dev/null); do
        tries=0
        while kill -0 "$sleeper" 2>/dev/null && [ $tries -lt 50 ]; do
            sleep 0.1
            tries=$((tries + 1))
        done
        [ $tries -lt 50 ] || living="$living $sleeper"
    done
    [ -z "$living" ] && pass "$1: no process is left" || fail "$1: no process is left" "$living"
    found=$(ls -A "$work/temporary" "$here/bin" | grep -v "^$work\|^$here\|^\$")
    [ -z "$found" ] && pass "$1: no file is left" || fail "$1: no file is left" "$found"
}

if has_python 'builds'; then
    # ---- each crate is proved once those below it are, then all together

    begin slow
    build
    [ "$status" = 0 ] && pass 'a build' || fail 'a build' "status $status: $(head -n 3 "$work/complaints")"
    whole_lines "the program of //! gmbench" >"$work/wanted"
    expect_same 'it leaves the program' "$here/bin/gmbench" "$work/wanted"
    (cd "$here" && tools/proved say bin/gmbench) >"$work/said" 2>&1
    grep -q '^bin/gmbench, proved by tools/build with stand-in' "$work/said" && pass 'and its note' ||
        fail 'and its note' "$(cat "$work/said")"
    begun=$(grep '^begin' "$notes/log" | LC_ALL=C sort | tr '\n' ' ')
    [ "$begun" = 'begin all begin base begin left begin right begin upper ' ] && pass 'each crate once, without those of tests' ||
        fail 'each crate once, without those of tests' "$begun"
    ended=$(grep -n . "$notes/log" | sed -n 's/^\([0-9]*\):\(begin\|end\) \(.*\)/\2_\3=\1/p')
    eval "$ended"
    [ "$end_base" -lt "$begin_left" ] && [ "$end_base" -lt "$begin_right" ] && [ "$end_left" -lt "$begin_upper" ] &&
        [ "$end_right" -lt "$begin_upper" ] && [ "$end_upper" -lt "$begin_all" ] &&
        pass 'each behind those below it' || fail 'each behind those below it' "$(cat "$notes/log")"
    if [ "$(getconf _NPROCESSORS_ONLN)" -gt 1 ] && [ "$(awk '/^MemTotal:/ { print int($2 / 5767168) }' /proc/meminfo)" -gt 1 ]; then
        [ "$begin_right" -lt "$end_left" ] && [ "$begin_left" -lt "$end_right" ] && pass 'two that may go side by side do' ||
            fail 'two that may go side by side do' "$(cat "$notes/log")"
    fi
    [ ! -s "$notes/left" ] && ! grep -qv '^0$' "$notes/lines" && pass 'no wrong bodies and no crates of tests are tried' ||
        fail 'no wrong bodies and no crates of tests are tried' "$(cat "$notes/left")"
    grep -q '5 of 5 crates proved' "$work/output" && grep -q '0 of 5 crates proved; at work: base' "$work/output" && pass 'it says how far it is' ||
        fail 'it says how far it is' "$(cat "$work/output")"
    [ -z "$(ls -A "$work/temporary")" ] && pass 'it leaves nothing beside' ||
        fail 'it leaves nothing beside' "$(ls -A "$work/temporary")"

    # ---- the crates below the program alone, for ./check

    begin
    PATH=$path TMPDIR=$work/temporary timeout 60 "$here/tools/build" --crates >"$work/output" 2>"$work/complaints" </dev/null
    status=$?
    begun=$(grep '^begin' "$notes/log" | LC_ALL=C sort | tr '\n' ' ')
    [ "$status" = 0 ] && [ "$begun" = 'begin base begin left begin right begin upper ' ] && pass 'the crates below the program' ||
        fail 'the crates below the program' "status $status: $begun"
    expect_nothing_left 'the crates below the program'
    begin forgets
    PATH=$path TMPDIR=$work/temporary timeout 60 "$here/tools/build" --crates >"$work/output" 2>"$work/complaints" </dev/null
    status=$?
    [ "$status" = 0 ] && [ ! -e "$notes/log" ] && pass 'a kit that keeps nothing has nothing to prove first' ||
        fail 'a kit that keeps nothing has nothing to prove first' "status $status: $(cat "$notes/log" 2>/dev/null)"

    # ---- two at once

    begin
    PATH=$path TMPDIR=$work/temporary "$here/tools/build" "$here/bin/gmbench" >/dev/null 2>&1 </dev/null &
    beside=$!
    build
    wait "$beside"
    [ "$?$status" = 00 ] && pass 'two at once' || fail 'two at once' "status $status: $(head -n 3 "$work/complaints")"
    expect_same 'and there is one program' "$here/bin/gmbench" "$work/wanted"
    [ "$(ls "$here/bin" | tr '\n' ' ')" = 'gmbench gmbench.proved ' ] && pass 'and nothing beside it' ||
        fail 'and nothing beside it' "$(ls "$here/bin")"

    # ---- a kit that keeps nothing proves all at once

    begin forgets
    build
    [ "$status" = 0 ] && [ "$(cat "$notes/log")" = "$(lines 'begin all\nend all\n')" ] && pass 'a kit that keeps nothing' ||
        fail 'a kit that keeps nothing' "$(cat "$notes/log")"
    begin unkept
    build
    begun=$(grep -c '^begin' "$notes/log")
    [ "$status" = 0 ] && [ "$begun" = 2 ] && tail -n 1 "$notes/log" | grep -q '^end all' && pass 'a place where it can not' ||
        fail 'a place where it can not' "$(cat "$notes/log")"

    # ---- sources that change meanwhile are those of before, and there is no note

    build_until_it_hangs base
    echo '//! changed' >"$here/crates/gmbench/src/main.rt"
    rm "$notes/hangs.base"
    kill $(cat "$notes/sleepers")
    wait "$building"
    expect_same 'sources that change meanwhile' "$here/bin/gmbench" "$work/wanted"
    expect_none 'and no note says that they were proved' "$here/bin/gmbench.proved"
    echo '//! gmbench' >"$here/crates/gmbench/src/main.rt"

    # ---- what ends it early

    begin fails.left hangs.right
    build
    [ "$status" = 1 ] && pass 'a crate that fails' || fail 'a crate that fails' "status $status"
    grep -q '^why left fails$' "$work/complaints" && [ "$(tail -n 1 "$work/complaints")" = "build: left isn't proved" ] &&
        pass 'its log and its name are told' || fail 'its log and its name are told' "$(cat "$work/complaints")"
    expect_nothing_left 'a crate that fails'
    begin full
    build
    [ "$status" = 1 ] && grep -q 'the disk is full' "$work/complaints" && pass 'a disk that is full for rt' ||
        fail 'a disk that is full for rt' "status $status: $(cat "$work/complaints")"
    expect_nothing_left 'a disk that is full for rt'
    for signal in INT TERM HUP; do
        build_until_it_hangs right
        kill -$signal "$building"
        wait "$building"
        ended=$?
        [ "$ended" = 130 ] && pass "$signal ends it" || fail "$signal ends it" "status $ended"
        expect_nothing_left "$signal ends it"
    done
    begin
    small=$work/small
    mkdir "$small"
    if unshare -m mount -t tmpfs -o size=16k none "$small" 2>/dev/null; then
        PATH=$path unshare -m sh -c "mount -t tmpfs -o size=16k none '$small' && TMPDIR='$small' '$here/tools/build' \
            '$here/bin/gmbench'" >"$work/output" 2>"$work/complaints" </dev/null
        status=$?
        [ "$status" = 1 ] && grep -q '^build: .*No space left on device' "$work/complaints" && pass 'a disk that is full' ||
            fail 'a disk that is full' "status $status: $(tail -n 1 "$work/complaints")"
        expect_nothing_left 'a disk that is full'
    else
        skip 'a disk that is full' 'there are no mounts of its own here'
    fi

    # ---- quickstart: one at a time, and a signal ends its build

    begin hangs.base
    PATH=$path TMPDIR=$work/temporary "$here/quickstart" >"$work/first" 2>&1 </dev/null &
    first=$!
    tries=0
    while [ ! -e "$notes/hanging.base" ] && [ $tries -lt 300 ]; do
        sleep 0.1
        tries=$((tries + 1))
    done
    PATH=$path TMPDIR=$work/temporary "$here/quickstart" >"$work/second" 2>&1 </dev/null &
    second=$!
    sleep 1
    grep -q '^Another quickstart is at work in ' "$work/second" && [ "$(grep -c '^begin' "$notes/log")" = 1 ] &&
        pass 'a second quickstart waits' || fail 'a second quickstart waits' "$(cat "$work/second")"
    kill -TERM "$second"
    wait "$second"
    kill -TERM "$first"
    wait "$first"
    ended=$?
    [ "$ended" = 130 ] && pass 'a signal ends a quickstart' || fail 'a signal ends a quickstart' "status $ended"
    expect_nothing_left 'a signal ends a quickstart'
    begin fails.upper
    PATH=$path TMPDIR=$work/temporary "$here/quickstart" >"$work/output" 2>"$work/complaints" </dev/null
    status=$?
    [ "$status" = 1 ] && [ "$(tail -n 1 "$work/complaints")" = 'quickstart: the build failed' ] &&
        pass 'a quickstart whose build fails' || fail 'a quickstart whose build fails' "status $status"
    expect_nothing_left 'a quickstart whose build fails'
fi
"$here/tools/build" >"$work/output" 2>"$work/complaints"
status=$?
expect 'no file to build' 2 '' 'usage: tools/build FILE | --crates'
finish
