# Batches that are killed, or stopped by an image.
. "$helpers/rights.sh"
. "$helpers/under_way.sh"

# ---- batches that are stopped

# One that is killed between two lines holds nothing, and what it answered is kept.
fresh_bench killed
kill_batch "$label"
batch "$label$insert"
expect 'a batch behind one that was killed' 0 "$(lines 'k1 repeated 1\nk2 ok 2')" ''

# An image that goes away ends a batch that wants it. Nothing of its insertion is accepted.
fresh_bench image-goes
begin_batch "$label"
rm "$bench/images/b.img"
send "${insert}k3 destroy gm0\n"
end_batch
expect 'a batch from which an image is taken' 3 "$(lines 'k1 ok 1\nk2 fault 3')" 'gmbench: F3 disk'
at_bench recover
expect 'nothing is left of that line' 0 'recovered 0' ''
batch 'k3 destroy gm0\n'
expect 'a batch that needs no such image' 0 'k3 ok 2' ''
put_image "$bench/images/b.img" b bare
expect_images 'it wiped the other' bare bare

# A command that was answered waits for no later opening, though the one behind it failed before it was accepted.
fresh_bench answered
put_image "$bench/images/c.img" c bare
begin_batch "$label$insert"
wait_for_lines 2 "$bench/answers"
rm "$bench/images/c.img"
send 'r1 remove gm0 b.img\nr2 insert --did 3 gm0 c.img\n'
end_batch
expect 'a batch whose image goes before its last line' 3 "$(lines 'k1 ok 1\nk2 ok 2\nr1 ok 3\nr2 fault 3')" 'gmbench: F3 disk'
run pending --registry "$registry"
expect 'what it answered is not pending' 0 '' ''
put_image "$work/wanted-b" b bare
expect_same 'b.img is taken out' "$bench/images/b.img" "$work/wanted-b"

# b.img is so long that its last sector lies beyond what this process may write. Its insertion is accepted by then, and
# what is left of it is carried out by the next opening that can. The batch's own can't, and says what is pending.
still_pending="$(lines 'metadata of a.img\nmetadata of b.img\ngmbench: F3 disk')"
fresh_bench stopped
dd if=/dev/zero of="$bench/images/b.img" bs=512 count=1 seek=32767 2>/dev/null
printf "$label${insert}k3 destroy gm0\n" >"$work/lines"
(
    trap '' XFSZ
    ulimit -f 8192
    exec timeout 20 "$gmbench" batch --registry "$registry" --shelf "$bench/images" <"$work/lines"
) >"$work/output" 2>"$work/complaints"
status=$?
expect 'a batch that can not write an image' 3 "$(lines 'k1 ok 1\nk2 fault 3')" "$still_pending"
at_bench recover
expect 'a recovery behind it' 0 'recovered 2' ''
at_bench batch <"$work/lines"
expect 'the same batch behind that' 0 "$(lines 'k1 repeated 1\nk2 repeated 2\nk3 ok 3')" ''

# The same if the system would end the process for such a write: it isn't begun.
fresh_bench limited
dd if=/dev/zero of="$bench/images/b.img" bs=512 count=1 seek=32767 2>/dev/null
(
    ulimit -f 8192
    exec timeout 20 "$gmbench" batch --registry "$registry" --shelf "$bench/images" <"$work/lines"
) >"$work/output" 2>"$work/complaints"
status=$?
expect 'a batch with a limit of the length of files' 3 "$(lines 'k1 ok 1\nk2 fault 3')" "$still_pending"
at_bench recover
expect 'a recovery without that limit' 0 'recovered 2' ''

# Here b.img can't even be opened to be looked at, so that its insertion isn't accepted.
fresh_bench forbidden
if has_another_user; then
    chmod 755 "$work"
    printf "$label${insert}k3 destroy gm0\n" >"$work/lines"
    chmod 644 "$work/lines"
    chown -R 65534:65534 "$bench"
    chmod 444 "$bench/images/b.img"
    at_bench_as_another batch <"$work/lines"
    if ! skip_without_program 'a batch that may not open an image'; then
        expect 'a batch that may not open an image' 3 "$(lines 'k1 ok 1\nk2 fault 3')" 'gmbench: F3 disk'
        chmod 644 "$bench/images/b.img"
        at_bench recover
        # The label was answered, and the insertion that was to settle it wasn't accepted: the batch settled it at its end.
        expect 'a recovery behind that one' 0 'recovered 0' ''
        at_bench_as_another batch <"$work/lines"
        expect 'the same batch once it may' 0 "$(lines 'k1 repeated 1\nk2 ok 2\nk3 ok 3')" ''
    fi
else
    skip 'a batch that may not open an image' 'there is no other user here'
fi
finish
