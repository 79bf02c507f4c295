# Images that are moved, replaced or cut under a run.
. "$helpers/rights.sh"
. "$helpers/under_way.sh"

# ---- a folder that changes under a run

# What is done to b.img while a batch is under way, or before a recovery. What it was is kept in `elsewhere`, beside the folder.
changes='shrinks grows goes moves is-replaced is-made-anew is-a-link is-a-link-within is-a-pipe is-a-folder'
change() {
    image=$bench/images/b.img
    elsewhere=$bench/elsewhere
    case $1 in
        shrinks) head -c 1536 "$image" >"$elsewhere" && cat "$elsewhere" >"$image" ;;
        grows) head -c 512 /dev/zero >>"$image" ;;
        # Most file systems give it the inode of the one that is gone.
        is-made-anew) cp "$image" "$elsewhere" && rm "$image" && cp "$elsewhere" "$image" ;;
        *) mv "$image" "$elsewhere" ;;
    esac
    case $1 in
        goes) rm "$elsewhere" ;;
        is-replaced) cp "$elsewhere" "$image" ;;
        is-a-link) ln -s ../elsewhere "$image" ;;
        is-a-link-within) mv "$elsewhere" "$bench/images/c.img" && ln -s c.img "$image" ;;
        is-a-pipe) mkfifo "$image" ;;
        is-a-folder) mkdir "$image" ;;
    esac
}

# All that lies in the bench but the registry: each entry's kind and name, and the bytes of each file.
everything() {
    (cd "$bench" && find images elsewhere 2>/dev/null | LC_ALL=C sort | while read -r entry; do
        if [ -h "$entry" ]; then
            echo "$entry is a link to $(readlink "$entry")"
        elif [ -f "$entry" ]; then
            echo "$entry $(md5sum <"$entry")"
        elif [ -p "$entry" ]; then
            echo "$entry is a pipe"
        else
            echo "$entry is a folder"
        fi
    done)
}

# Whether a batch that is under way ends with F3 at the line that wants b.img, once that changed so, and nothing is written
# after that, whether or not the image had been opened before.
expect_disk_fault() {
    title=$1
    told=$2
    line=$3
    change "$4"
    everything >"$work/before"
    send "${line}k9 destroy gm0\n"
    end_batch
    everything >"$work/behind"
    expect "$title" 3 "$(lines "$told\n${line%% *} fault 3")" 'gmbench: F3 disk'
    expect_same "$title: nothing is written" "$work/behind" "$work/before"
}

for kind in $changes; do
    fresh_bench "$kind-before-it-is-open"
    begin_batch "$label"
    expect_disk_fault "an image that wasn't open $kind" 'k1 ok 1' "$insert" "$kind"
    at_bench recover
    expect "nothing is pending behind it" 0 'recovered 0' ''
    fresh_bench "$kind-once-it-is-open"
    begin_batch "k0 clear b.img\n$label$insert"
    wait_for_lines 3 "$bench/answers"
    expect_disk_fault "an image that was open $kind" "$(lines 'k0 refused 29\nk1 ok 1\nk2 ok 2')" \
        'k3 advance gm0 b.img\n' "$kind"
    at_bench recover
    expect "nothing is pending behind that one" 0 'recovered 0' ''
done

# An image that comes back is used again: here it is away for one line, which another batch hands in.
fresh_bench away-and-back
begin_batch "$label$insert"
change moves
mv "$bench/elsewhere" "$bench/images/b.img"
send 'k3 advance gm0 b.img\n'
end_batch
expect 'an image that was away between two lines' 0 "$(lines 'k1 ok 1\nk2 ok 2\nk3 ok 3 copied 3 of 3')" ''

# The whole folder is moved, and another one with the same bytes put in its place: neither is written.
fresh_bench folder
begin_batch "$label"
mv "$bench/images" "$bench/moved"
cp -R "$bench/moved" "$bench/images"
cp -R "$bench/moved" "$work/moved"
send "${insert}k9 destroy gm0\n"
end_batch
expect 'a folder that is moved, with another in its place' 3 "$(lines 'k1 ok 1\nk2 fault 3')" 'gmbench: F3 disk'
for folder in images moved; do
    if other=$(diff -r "$bench/$folder" "$work/moved" 2>&1); then
        pass "nothing is written to the folder $folder"
    else
        fail "nothing is written to the folder $folder" "$other"
    fi
done

# Another image than those that a line names may change as it will.
fresh_bench another
begin_batch "$label"
change is-a-pipe
send 'k3 destroy gm0\n'
end_batch
expect 'an image that no line wants' 0 "$(lines 'k1 ok 1\nk3 ok 2')" ''

# The image of a component that something pending wants: the next opening names it, and writes nothing.
for kind in $changes; do
    command -v sqlite3 >/dev/null || {
        skip 'an image that something pending wants' 'there is no sqlite3'
        break
    }
    stopped_copy "pending-$kind"
    change "$kind"
    everything >"$work/before"
    at_bench recover
    everything >"$work/behind"
    case $kind in
        is-replaced | is-made-anew)
            # as good as the other one
            expect "an image that something pending wants $kind" 0 'recovered 2' ''
            ;;
        *)
            expect "an image that something pending wants $kind" 3 '' 'gmbench: F5 absent b.img'
            expect_same "an image that something pending wants $kind: nothing is written" "$work/behind" "$work/before"
            ;;
    esac
done

# Rights that an image loses: one that is open is written still, and another can't be opened.
if has_another_user; then
    fresh_bench rights
    chmod 755 "$work"
    chown -R 65534:65534 "$bench"
    mkfifo "$bench/in"
    timeout 60 setpriv --reuid=65534 --regid=65534 --clear-groups \
        "$gmbench" batch --registry "$registry" --shelf "$bench/images" <"$bench/in" \
        >"$bench/answers" 2>"$bench/complaints" &
    under_way=$!
    exec 3>"$bench/in"
    send "$label"
    wait_for "$bench/answers"
    if [ -s "$bench/answers" ]; then
        chmod 0 "$bench/images/a.img" "$bench/images/b.img"
        everything >"$work/before"
        send "$insert"
        end_batch
        everything >"$work/behind"
        expect 'an image that loses its rights' 3 "$(lines 'k1 ok 1\nk2 fault 3')" 'gmbench: F3 disk'
        expect_same 'an image that loses its rights: nothing is written' "$work/behind" "$work/before"
    else
        end_batch
        skip 'an image that loses its rights' 'another user can not run the program where it lies'
    fi
else
    skip 'an image that loses its rights' 'there is no other user here'
fi
finish
