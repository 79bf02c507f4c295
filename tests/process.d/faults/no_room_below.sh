# A medium below a file system that has no room for what was written: what a failed sync left in memory isn't believed.
. "$helpers/bench.sh"

# A file system on a file, on a medium that is smaller than the file system is told. It is mounted for these steps alone, and
# goes with them. In each a command is to fail, because the medium is full. Then there is room again, what is pending is
# recovered, and a restart shows what is on the medium.
cat >"$work/steps" <<'END'
set -eu
look=
images=$work/disk/images
mount -t tmpfs -o size=24m none "$work/medium"
truncate -s 64M "$work/medium/device"
mkfs.ext4 -q -b 4096 -J size=4 -N 64 -E nodiscard,lazy_itable_init=0,lazy_journal_init=0 "$work/medium/device"
mount -o loop "$work/medium/device" "$work/disk"
mkdir "$images"

# Runs a command whose output, complaints and status are kept under a name.
run() {
    step=$1
    shift
    status=0
    timeout 20 "$gmbench" "$@" --shelf "$images" >"$work/$step.output" 2>"$work/$step.complaints" </dev/null || status=$?
    echo "$status" >"$work/$step.status"
}
# The same while the medium has no room, a recovery once it has, and an audit after a restart.
run_full() {
    what=$1
    shift
    sync
    dd if=/dev/zero of="$work/medium/filler" bs=4k 2>/dev/null || true
    run "$what" "$@" --registry "$work/registry"
    rm "$work/medium/filler"
    run "$what-recovered" recover $look --registry "$work/registry"
    umount "$work/disk"
    mount -o loop "$work/medium/device" "$work/disk"
    run "$what-audited" audit --read-only --registry "$work/registry"
}
# Takes the room of a file's last block from the medium, while the system holds what is in it.
take_last_block() {
    sync
    cat "$1" >/dev/null
    block=$(filefrag -v "$1" | awk '$2 ~ /^[0-9]+\.\.$/ { last = $5 } END { sub(":", "", last); print last + 0 }')
    fallocate -p -o $((block * 4096)) -l 4096 "$work/medium/device"
}

# b.img, c.img and d.img are of holes, but for what is written to them while there is room.
head -c 1048576 /dev/urandom | tee "$images/a.img" >"$images/e.img"
cp "$images/e.img" "$images/f.img"
truncate -s 1M "$images/b.img" "$images/c.img" "$images/d.img"
head -c 512 /dev/urandom >"$work/sector"
for line in 'label --mid 7 --did 1 --force gm0 a.img' 'insert --did 2 --force gm0 b.img' \
    'label --mid 8 --did 1 --force gm3 d.img'; do
    run made ${line%% *} --registry "$work/registry" ${line#* }
done
for line in 'label --mid 9 --did 1 --force gm2 e.img' 'insert --did 2 --force gm2 f.img'; do
    run made ${line%% *} --registry "$work/other" ${line#* }
done
run made sync --registry "$work/other" --quiet
printf x | dd of="$images/f.img" bs=1 conv=notrunc 2>/dev/null

run_full advance sync --quiet gm0
run_full label label --mid 6 --did 1 --force gm1 c.img
run_full patch write --key p1 --first 1000 --file "$work/sector" gm3
cp "$images/f.img" "$work/f.img"
take_last_block "$images/f.img"
# The medium never had the metadata of this image, and no stop leaves that.
look=--unchecked
run_full adopt adopt --force gm2 e.img f.img
cmp -n 131072 "$images/a.img" "$images/b.img" >"$work/advanced" 2>&1 || true
dd if="$images/d.img" bs=512 skip=1000 count=1 2>/dev/null | cmp - "$work/sector" >"$work/patched" 2>&1 || true
END

# Whether a command failed for want of room, and after its recovery each image is on the medium as it is registered.
expect_recovered() {
    found=$(cat "$work/$1.status" 2>/dev/null || echo none)
    if [ "$found" != 3 ]; then
        skip "a medium without room: $1" "here no sync fails then: status $found, $(head -n 1 "$work/$1.complaints")"
        return
    fi
    status=$(cat "$work/$1-recovered.status")
    cp "$work/$1-recovered.output" "$work/output"
    cp "$work/$1-recovered.complaints" "$work/complaints"
    expect "a recovery after a failed sync: $1" 0 "recovered $2" ''
    status=$(cat "$work/$1-audited.status")
    cp "$work/$1-audited.output" "$work/output"
    cp "$work/$1-audited.complaints" "$work/complaints"
    expect "each image is as registered after a restart: $1" 0 '' ''
}

mkdir "$work/medium" "$work/disk"
if [ "$(id -u)" != 0 ] || ! command -v mkfs.ext4 >/dev/null || ! command -v unshare >/dev/null; then
    skip 'a medium without room' 'root, mkfs.ext4 and unshare are wanted'
elif ! gmbench=$gmbench work=$work unshare -m sh "$work/steps" >"$work/said" 2>&1; then
    skip 'a medium without room' "no such medium can be had here: $(tail -n 1 "$work/said")"
else
    expect_recovered advance 2
    expect_recovered label 1
    expect_recovered patch 3
    expect_recovered adopt 2
    expect_same 'what was filled is on the medium' /dev/null "$work/advanced"
    expect_same 'what was written is on the medium' /dev/null "$work/patched"
fi
finish
