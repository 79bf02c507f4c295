# A command that was stopped, of which an image is gone for good: it is given up.
. "$helpers/records.sh"
. "$helpers/python.sh"

# An image that is so long that a batch within the limit below can't write its last sector.
put_far_image() {
    dd if=/dev/zero of="$1" bs=512 count=1 seek=32767 2>/dev/null
}

# Runs a command at that bench, which may write no file beyond a limit.
within_limit() {
    command=$1
    shift
    (
        trap '' XFSZ
        ulimit -f 8192
        exec timeout 20 "$gmbench" "$command" --registry "$registry" --shelf "$bench/images" "$@"
    ) >"$work/output" 2>"$work/complaints"
    status=$?
}

# Hands in a line that is accepted, and of which nothing is carried out: it stops at a far image, and what was written to
# the images before that is taken back.
stop_at() {
    cp -R "$bench/images" "$work/as-they-were"
    printf '%s\n' "$1" >"$work/lines"
    within_limit batch <"$work/lines"
    pending=$("$gmbench" pending --registry "$registry")
    expect "it stops: $1" 3 "${1%% *} fault 3" "$(lines "$pending\ngmbench: F3 disk")"
    rm -rf "$bench/images"
    mv "$work/as-they-were" "$bench/images"
}

# Takes an image out of the folder, and puts it back.
take_away() {
    mv "$bench/images/$1" "$bench/away-$1"
}

bring_back() {
    mv "$bench/away-$1" "$bench/images/$1"
}

# Whether the loss of an image is answered so with a status of 1, and no byte is written.
expect_refused() {
    keep_bench
    at_bench recover --without "$2" --key "$3"
    expect "$1" 1 "$4" ''
    expect_kept "$1: nothing is written"
}

# ---- an image that was to be written

fresh_bench deactivated
put_far_image "$bench/images/b.img"
batch "$label${insert}k3 advance gm0 b.img\n"
expect 'a mirror in sync' 0 "$(lines 'k1 ok 1\nk2 ok 2\nk3 ok 3 copied 3 of 3')" ''
stop_at 'k4 deactivate gm0 b.img'
expect_refused 'an image that is there is not given up' b.img k5 'k5 refused 32'
take_away b.img
keep_bench
at_bench recover
expect 'a recovery without an image that was to be written' 3 '' 'gmbench: F5 absent b.img'
expect_kept 'it leaves all as it was'
at_bench recover --without b.img --key k5
expect 'a recovery that gives it up' 0 "$(lines 'k5 ok 5\nrecovered 2')" ''
expect_told 'what the other image tells then' a.img 'gm0 7 1 2 1 2 0 4096 load 1536 0 NONE NONE (none) 2048'
keep_bench
at_bench recover --key k5 --without b.img
expect 'the same again' 0 "$(lines 'k5 repeated 5\nrecovered 0')" ''
expect_kept 'the same again changes no byte'
at_bench status
expect 'a status behind it' 0 "$(lines 'gm0             DEGRADED 1/2\n  a.img           ACTIVE')" ''
at_bench audit
expect 'an audit behind it' 0 '' ''
batch 'k4 deactivate gm0 b.img\nk5 lost gm0 b.img\nk5 lost gm0 a.img\n'
expect 'what was accepted stays so, and the loss is among it' 1 \
    "$(lines 'k4 repeated 4\nk5 repeated 5\nk5 refused 3')" ''

# It comes back later: it is told to be out of date, and is taken as a new one.
bring_back b.img
run taste --shelf "$bench/images"
expect 'a taste once it is back' 0 "$(lines 'gm0             mid 7 genid 1 syncid 2
  a.img           ACTIVE\n  b.img           BROKEN\n  source: a.img')" ''
at_bench recover --without b.img --key k5
expect 'the same again once it is back' 0 "$(lines 'k5 repeated 5\nrecovered 0')" ''
batch 'k6 insert --did 2 gm0 b.img\nk6 clear b.img\nk7 forget gm0\nk8 insert --did 2 gm0 b.img\nk9 advance gm0 b.img\n'
expect 'it is cleared, and inserted anew' 1 \
    "$(lines 'k6 refused 10\nk6 ok 6\nk7 ok 7\nk8 ok 8\nk9 ok 9 copied 3 of 3')" ''

# A loss that is stopped after its acceptance is carried out by the next opening.
fresh_bench stopped-twice
put_far_image "$bench/images/a.img"
put_far_image "$bench/images/b.img"
batch "$label$insert"
stop_at 'k3 deactivate gm0 b.img'
take_away b.img
within_limit recover --without b.img --key k4
expect 'a loss that is stopped' 3 '' 'gmbench: F3 disk'
at_bench recover --without b.img --key k4
expect 'the same behind that' 0 "$(lines 'k4 repeated 4\nrecovered 2')" ''
expect_told 'what the other image tells behind a stopped loss' a.img \
    'gm0 7 1 2 1 2 0 4096 load 16776704 0 NONE NONE (none) 16777216'

# ---- an image that was to be copied from

fresh_bench only-source
put_far_image "$bench/images/b.img"
batch "$label$insert"
stop_at 'k3 advance gm0 b.img'
take_away a.img
at_bench recover
expect 'a recovery without the source of a copy' 3 '' 'gmbench: F5 absent a.img'
expect_refused 'the only source is not given up' a.img k4 'k4 refused 27'
bring_back a.img
at_bench recover
expect 'a recovery once it is back' 0 'recovered 2' ''

fresh_bench last-active
put_long_image "$bench/images/a.img" a
put_far_image "$bench/images/b.img"
batch "$label$insert"
stop_at 'k3 advance gm0 b.img'
take_away a.img
expect_refused 'the last ACTIVE component is not given up' a.img k4 'k4 refused 17'

fresh_bench another-source
put_far_image "$bench/images/b.img"
put_image "$bench/images/c.img" c bare
batch "${label}k2 insert --did 2 gm0 c.img\nk3 advance gm0 c.img\nk4 insert --did 3 gm0 b.img\n"
expect 'two images with the data' 0 "$(lines 'k1 ok 1\nk2 ok 2\nk3 ok 3 copied 3 of 3\nk4 ok 4')" ''
stop_at 'k5 advance gm0 b.img'
take_away a.img
at_bench recover
expect 'a recovery without one of two sources' 3 '' 'gmbench: F5 absent a.img'
at_bench recover --without a.img --key k6
expect 'a recovery that copies from the other' 0 "$(lines 'k6 ok 6\nrecovered 2')" ''
expect_same_data 'what is copied' "$bench/images/b.img" "$bench/images/c.img" 1536
at_bench status
expect 'a status behind that copy' 0 \
    "$(lines 'gm0             DEGRADED 2/3\n  b.img           ACTIVE\n  c.img           ACTIVE')" ''
at_bench recover --without a.img --key k6
expect 'that again' 0 "$(lines 'k6 repeated 6\nrecovered 0')" ''
at_bench audit
expect 'an audit behind that copy' 0 '' ''

# ---- images without which it doesn't go on

# An image that was to be wiped is no component any more. Any image in its place will do.
stopped_remove removed
take_away b.img
expect_refused 'an image that was to be taken out' b.img k4 'k4 refused 12'
expect_refused 'an image that nobody knows' z.img k4 'k4 refused 12'
expect_refused 'a key of another command' b.img k1 'k1 refused 3'
expect_refused 'a key that is none' b.img 'k 4' '? refused 2'
expect_refused 'an empty key' b.img '' '? refused 2'
expect_refused 'a key of 33 characters' b.img kkkkkkkkkkkkkkkkkkkkkkkkkkkkkkkkk '? refused 2'
head -c 512 /dev/zero >"$bench/images/b.img"
at_bench recover
expect 'a recovery with another image in its place' 0 'recovered 2' ''

# There is room for 100,000 commands, of which a loss is one.
for accepted in 100000 99999; do
    command -v sqlite3 >/dev/null || {
        skip 'a loss beside 100,000 commands' 'there is no sqlite3'
        break
    }
    fresh_bench "accepted-$accepted"
    put_far_image "$bench/images/b.img"
    batch "$label$insert"
    stop_at 'k3 deactivate gm0 b.img'
    put_accepted 3 $accepted
    take_away b.img
    if [ $accepted = 100000 ]; then
        expect_refused 'a loss for which there is no room' b.img k4 'k4 refused 4'
        expect_refused 'the same under a key that is taken' b.img k1 'k1 refused 3'
    else
        at_bench recover --without b.img --key k4
        expect 'a loss that is the last command' 0 "$(lines 'k4 ok 100000\nrecovered 2')" ''
        at_bench recover --without b.img --key k4
        expect 'the last command again' 0 "$(lines 'k4 repeated 100000\nrecovered 0')" ''
    fi
done

# A genid that can't rise.
fresh_bench last-genid
put_told a.img 3 x all=2 did=1 genid=4294967295
put_told b.img 32767 x all=2 did=2 genid=4294967295 provsize=16777216
batch 'k1 adopt gm0 a.img b.img\n'
expect 'a mirror with the greatest genid' 0 'k1 ok 1' ''
stop_at 'k2 deactivate gm0 b.img'
take_away b.img
expect_refused 'a genid does not rise beyond the greatest number' b.img k3 'k3 refused 24'

# Two images are gone. The one that was to be taken out is wanted all the same.
fresh_bench two-gone
put_far_image "$bench/images/b.img"
put_image "$bench/images/c.img" c bare
batch "${label}k2 insert --did 2 gm0 c.img\nk3 advance gm0 c.img\nk4 insert --did 3 gm0 b.img\n"
cp "$registry" "$work/three-components"
stop_at 'k5 deactivate gm0 b.img'
take_away c.img
take_away b.img
expect_refused 'another image of the mirror is gone too' b.img k6 'k6 refused 8'
cp "$work/three-components" "$registry"
bring_back b.img
bring_back c.img
stop_at 'k5 remove gm0 b.img'
take_away c.img
take_away b.img
keep_bench
at_bench recover --without c.img --key k6
expect 'an image that is still to be wiped is gone too' 3 '' 'gmbench: F5 absent b.img'
expect_kept 'that loss is not accepted'
bring_back b.img
at_bench recover --without c.img --key k6
expect 'the same once it is back' 0 "$(lines 'k6 ok 6\nrecovered 3')" ''

# ---- the words

for words in '--without b.img' '--key k4' '--without b.img --key' '--without --key k4'; do
    at_bench recover $words
    expect_words "recover $words"
done
for word in a/b '' 'two words' sixteen-letters0 'ä.img'; do
    at_bench recover --without "$word" --key k4
    expect_words "recover without the provider '$word'"
done
grep -q "^error: invalid value 'ä.img' for '--without <PROV>': " "$work/complaints" &&
    pass 'an invalid provider is named' || fail 'an invalid provider is named' "$(head -n 1 "$work/complaints")"
at_bench status --without b.img --key k4
expect_words 'a status without an image'

# ---- losses in rows

# Into the program a library is preloaded that fails its first write of an image: so a command is accepted, and nothing of it
# written. Another one counts what a loss does to images.
if has_python 'losses in rows'; then
    if command -v cc >/dev/null && cc -O1 -fPIC -shared -o "$work/stopping.so" "$tests/faults/stopped_calls.c" \
        2>"$work/complaints" && cc -O1 -fPIC -shared -o "$work/counting.so" "$tests/faults/failing_files.c" \
        2>"$work/complaints"; then
        run_script faults/recovery_without.py "$gmbench" "$work/stopping.so" "$work/counting.so" "$work"
    else
        skip 'losses in rows' 'there is no C compiler here'
    fi
fi
finish
