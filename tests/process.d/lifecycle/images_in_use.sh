# Images that something else uses aren't written.
. "$helpers/bench.sh"
. "$helpers/python.sh"

forced='--force does it anyway'

# A bench whose mirror gm0 has a.img and b.img, both ACTIVE, beside a blank image c.img.
fresh_mirror() {
    fresh_bench "$1"
    batch "$label${insert}k3 advance gm0 b.img\n"
    truncate -s 2048 "$bench/images/c.img"
}

# Starts a program that has an image open, with these words of the shell before it, until it is ended.
hold() {
    (eval "exec $1"; exec sleep 60) &
    holder=$!
    sleep 0.3
}

let_go() {
    kill "$holder" 2>/dev/null
    wait "$holder" 2>/dev/null
}

# Whether the last command wasn't done, because that program has this image open for writing.
expect_writer() {
    expect "$1" 1 "$2 not done" "$2: $3 is open for writing by process $holder (sleep): end that first
$2: $forced"
    expect_kept "$1: nothing was written"
}

# ---- a process that has an image open for writing

fresh_mirror writer
hold "3>>'$bench/images/a.img'"
keep_bench
at_bench do k9 deactivate gm0 b.img
expect_writer 'a command of its mirror' k9 a.img
at_bench deactivate --key k9 gm0 b.img
expect_writer 'a command by itself' k9 a.img
at_bench do --unchecked k9 deactivate gm0 b.img
expect_writer 'what skips the look at metadata' k9 a.img
at_bench do --json k9 deactivate gm0 b.img
expect 'as JSON' 1 '{"answer":"not done","key":"k9"}' "$(cat "$work/complaints")"
head -c 512 /dev/zero >"$work/data"
at_bench write --key k9 --first 0 --file "$work/data" gm0
expect_writer 'data of a file' k9 a.img
at_bench replace --key k9 gm0 b.img c.img
expect_writer 'a replacement' k9 a.img
whole=$(dd if="$bench/images/b.img" bs=512 skip=3 2>/dev/null | md5sum)
overwrite "$bench/images/b.img" 0 X
keep_bench
at_bench mend --key k9 b.img
expect_writer 'a last sector that is mended' k9 a.img
at_bench mend --force --quiet --key m9 b.img
expect 'unless that is forced' 0 'm9 ok 4' ''
[ "$(dd if="$bench/images/b.img" bs=512 skip=3 2>/dev/null | md5sum)" = "$whole" ] && pass 'then it is as it was' ||
    fail 'then it is as it was' 'its last sector is another'
at_bench do k3 advance gm0 b.img
expect 'a key that was accepted is answered without a look' 0 'k3 repeated 3' \
    'k3: done before, as number 3; nothing is done now'
at_bench label --key k9 gm1 c.img
expect 'another mirror goes on' 0 'k9 ok 5' "$(cat "$work/complaints")"
at_bench do --force k10 deactivate gm0 b.img
expect 'a command that is forced' 0 'k10 ok 6' ''
let_go
at_bench do k11 activate gm0 b.img
expect 'after its end' 0 'k11 ok 7' ''

hold "3>>'$bench/images/b.img'"
keep_bench
at_bench sync
expect 'a sync' 1 'not done' "b.img is open for writing by process $holder (sleep): end that first
--force fills anyway"
expect_kept 'a sync: nothing was written'
at_bench sync --json
expect 'a sync as JSON' 1 '{"answer":"not done"}' "$(cat "$work/complaints")"
at_bench sync --force --quiet
expect 'a sync that is forced' 0 'gm0 a.img ACTIVE
gm0 b.img ACTIVE
gm1 c.img ACTIVE' ''
at_bench sync --quiet
expect 'a sync with nothing to fill' 0 'gm0 a.img ACTIVE
gm0 b.img ACTIVE
gm1 c.img ACTIVE' ''
let_go

# ---- what only reads it

fresh_mirror reader
hold "3<'$bench/images/a.img'"
at_bench do k9 deactivate gm0 b.img
expect 'a reader is no obstacle' 0 'k9 ok 4' ''
let_go

# ---- locks

# Holds a lock of this kind on a.img until it is ended.
hold_lock() {
    python3 -c '
import fcntl, sys, time
image = open(sys.argv[1], "rb")
if sys.argv[2] == "whole":
    fcntl.flock(image, fcntl.LOCK_SH)
else:
    fcntl.lockf(image, fcntl.LOCK_SH, 1, 100)
print("held", flush=True)
time.sleep(60)' "$bench/images/a.img" "$1" >"$bench/held" &
    holder=$!
    for _ in 1 2 3 4 5 6 7 8 9 10 11 12 13 14 15 16 17 18 19 20; do
        [ -s "$bench/held" ] || sleep 0.2
    done
}

for kind in whole byte; do
    has_python "a lock, $kind" || continue
    fresh_mirror "lock-$kind"
    hold_lock "$kind"
    keep_bench
    at_bench do k9 deactivate gm0 b.img
    expect "a lock, $kind" 1 'k9 not done' "k9: a.img is locked by another program
k9: $forced"
    expect_kept "a lock, $kind: nothing was written"
    at_bench do --force k9 deactivate gm0 b.img
    expect "a lock, $kind, that is forced" 0 'k9 ok 4' ''
    let_go
    at_bench do k10 activate gm0 b.img
    expect "a lock, $kind, that is gone" 0 'k10 ok 5' ''
done

# ---- a loop device

fresh_mirror loop
if device=$(losetup --find --show --read-only "$bench/images/a.img" 2>/dev/null); then
    keep_bench
    at_bench do k9 deactivate gm0 b.img
    expect 'a loop device' 1 'k9 not done' "k9: a.img backs $device: detach it first
k9: $forced"
    expect_kept 'a loop device: nothing was written'
    losetup --detach "$device"
    at_bench do k9 deactivate gm0 b.img
    expect 'a loop device that is gone' 0 'k9 ok 4' ''
else
    skip 'a loop device' 'losetup makes none here'
fi

finish
