# A command that was stopped, which the next opening carries out.
. "$helpers/rights.sh"

# ---- a command that was stopped

# What the program makes of three commands, of which the stored registry has the last one pending. The registries are the
# same byte for byte once it was carried out, and were so before but for the page of the table `intents`.
fresh_bench three-commands
batch "$label$insert"
expect 'the commands before the stopped one' 0 "$(lines 'k1 ok 1\nk2 ok 2')" ''
expect_images 'the stored sectors are those of the insertion' pending-a pending-b
batch 'k3 remove gm0 b.img\n'
expect 'the command that is stopped elsewhere' 0 'k3 ok 3' ''
expect_images 'a removal that is carried out at once' fresh bare
cp "$registry" "$work/kept-registry"
other_bytes=$(cmp -l "$top/examples/pending.sqlite" "$work/kept-registry" 2>&1 |
    awk '$1 <= 16384 || $1 > 18432')
[ -z "$other_bytes" ] && pass 'the stored registry has other bytes in one page alone' ||
    fail 'the stored registry has other bytes in one page alone' "$other_bytes"
stopped_remove pending
at_bench recover
expect 'a stopped removal is carried out' 0 'recovered 2' ''
expect_images 'what it leaves of the images' fresh bare
expect_same 'what it leaves of the registry' "$registry" "$work/kept-registry"
at_bench recover
expect 'it is carried out once' 0 'recovered 0' ''
expect_images 'it leaves the images then' fresh bare
expect_same 'it leaves the registry then' "$registry" "$work/kept-registry"

# The other commands carry it out before they do anything else.
stopped_remove pending-status
at_bench status
expect 'a status behind a stop' 0 "$of_one" ''
expect_images 'it carried out the stopped removal' fresh bare
at_bench recover
expect 'nothing is left to be recovered behind a status' 0 'recovered 0' ''
stopped_remove pending-list
at_bench list
expect 'a list behind a stop' 0 "$list_of_one" ''
expect_images 'it carried out the stopped removal too' fresh bare
stopped_remove pending-batch
batch 'k3 remove gm0 b.img\nk4 clear b.img\n'
expect 'a batch behind a stop' 1 "$(lines 'k3 repeated 3\nk4 refused 29')" ''
expect_images 'the stopped removal came first' fresh bare

# ---- a copy

if command -v sqlite3 >/dev/null; then
    stopped_copy copied
    expect_images 'nothing is copied yet' pending-a pending-b
    at_bench recover
    expect 'a stopped copy is carried out' 0 'recovered 2' ''
    put_image "$work/wanted-b" a pending-b
    expect_same 'the data are copied' "$bench/images/b.img" "$work/wanted-b"
    put_image "$work/wanted-a" a pending-a
    expect_same 'what they are copied from stays' "$bench/images/a.img" "$work/wanted-a"
else
    skip 'a stopped copy is carried out' 'there is no sqlite3'
fi

# ---- images that are away

# The intents are b.img's and a.img's, in this order: the first whose image is away is told.
stopped_remove away
for command in recover status list batch; do
    mv "$bench/images/b.img" "$bench/images/moved-out"
    at_bench $command </dev/null
    expect "a $command without b.img" 3 '' 'gmbench: F5 absent b.img'
    mv "$bench/images/moved-out" "$bench/images/b.img"
    expect_images "it leaves a.img, and b.img where it was moved" pending-a pending-b
done
mv "$bench/images/a.img" "$bench/moved-out"
at_bench recover
expect 'a recovery without a.img' 3 '' 'gmbench: F5 absent a.img'
mv "$bench/images/b.img" "$bench/moved-too"
at_bench recover
expect 'a recovery without both' 3 '' 'gmbench: F5 absent b.img'
mv "$bench/moved-out" "$bench/images/a.img"
mv "$bench/moved-too" "$bench/images/b.img"
expect_images 'neither is written before both are there' pending-a pending-b
at_bench recover
expect 'a recovery once they are back' 0 'recovered 2' ''
expect_images 'it carries out all' fresh bare

# ---- an image that can't be written

# This user may read one of the two alone.
stopped_remove unwritable
if has_another_user; then
    chmod 755 "$work"
    chown -R 65534:65534 "$bench"
    chmod 444 "$bench/images/b.img"
    at_bench_as_another recover
    if ! skip_without_program 'a recovery that may not write an image'; then
        expect 'a recovery that may not write an image' 3 '' 'gmbench: F3 disk'
        put_image "$work/wanted-b" b pending-b
        expect_same 'that image stays' "$bench/images/b.img" "$work/wanted-b"
        chmod 644 "$bench/images/b.img"
        at_bench_as_another recover
        expect 'the same once it may' 0 'recovered 2' ''
        expect_images 'it is carried out then' fresh bare
    fi
else
    skip 'a recovery that may not write an image' 'there is no other user here'
fi
finish
