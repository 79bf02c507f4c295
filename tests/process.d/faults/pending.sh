# What is pending, and what is looked at while nothing is written.
. "$helpers/rights.sh"
. "$helpers/python.sh"

# ---- what is pending, and what is looked at without an opening

fresh_bench made
keep_none() {
    expect_none "$1" "$registry"
    expect_none "$1, nor a log" "$registry-wal"
}
# What a pending complains of.
of_store() {
    echo "gmbench: F2 store
F2: $1"
}
at_bench pending
expect 'a registry that is not there' 3 '' "$(of_store "there is no registry at $registry")"
keep_none 'none is made'
at_bench status --read-only
expect 'a status of one that is not there' 3 '' 'gmbench: F2 store'
keep_none 'none is made for it'
: >"$registry"
run pending --registry "$registry"
expect 'an empty file' 3 '' "$(of_store "$registry holds no registry: it is empty, or its making was stopped")"
expect_none 'nothing is put beside it' "$registry-wal"
printf 'no registry, but text\n' >"$registry"
run pending --registry "$registry"
expect 'a file that is no registry' 3 '' "$(of_store "$registry isn't a registry: no database begins as it does")"
rm "$registry"
mkdir "$registry"
run pending --registry "$registry"
expect 'a folder in its place' 3 '' "$(of_store "$registry isn't a regular file")"
rmdir "$registry"

stopped_remove behind
keep_bench
run pending --registry "$registry"
expect 'what a command that was stopped left' 0 "$(lines 'clear b.img\nmetadata of a.img')" ''
at_bench pending
expect 'the same beside its images' 0 "$(lines 'clear b.img: member\nmetadata of a.img: member')" ''
GMBENCH_SHELF="$bench/images" GMBENCH_REGISTRY="$registry" run pending
expect 'the environment stands for both' 0 "$(lines 'clear b.img: member\nmetadata of a.img: member')" ''
at_bench status --read-only
expect 'a status that carries out nothing' 0 "$of_one" '2 writes are pending'
at_bench list --read-only
expect 'a list that carries out nothing' 0 "$list_of_one" '2 writes are pending'
at_bench audit --read-only
expect 'an audit that carries out nothing' 1 a.img '2 writes are pending'
at_bench audit --read-only --json
expect 'the same as JSON' 1 '{"amiss":["a.img"]}' '2 writes are pending'
expect_kept 'nothing is changed'
expect_none 'and no log is left' "$registry-wal"
head -c 2048 /dev/zero >"$bench/images/a.img"
head -c 2048 /dev/zero >"$bench/images/b.img"
at_bench pending
expect 'blank files in the place of both' 0 "$(lines "clear b.img: zero\nmetadata of a.img: no metadata
a.img isn't what the stop left: no metadata")" ''
rm "$bench/images/a.img"
truncate -s 1536 "$bench/images/b.img"
at_bench pending
expect 'one is away, and one is shorter' 0 "$(lines 'clear b.img: zero\nmetadata of a.img: absent')" ''
put_edited "$bench/images/a.img" a 36 '\011'
at_bench pending
expect 'another mirror in its place' 0 "$(lines "clear b.img: zero\nmetadata of a.img: another
a.img isn't what the stop left: another mirror")" ''
put_back
wrong=
while IFS='|' read -r edits how; do
    put_edited "$bench/images/b.img" b $edits
    at_bench pending
    told=$(grep -v "isn't what the stop left" "$work/output")
    [ "$told" = "$(lines "clear b.img: $how\nmetadata of a.img: member")" ] || wrong=${wrong:-"'$edits' is not '$how': $told"}
done <<'END'
40 \002|member
40 \011 53 \003|member
20 gm1|member
20 gm1 36 \010|member
36 \010|another
16 \005|no metadata
0 g|no metadata
END
[ -z "$wrong" ] && pass 'how an image stands that is to be cleared' || fail 'how an image stands that is to be cleared' "$wrong"
: >"$bench/images/b.img"
at_bench pending
expect 'one without a byte' 0 "$(lines 'clear b.img: absent\nmetadata of a.img: member')" ''
head -c 512 /dev/zero >"$bench/images/b.img"
at_bench pending
expect 'one of a single sector' 0 "$(lines 'clear b.img: zero\nmetadata of a.img: member')" ''
put_back

# A blank file in a source's place is seen before its zeros are copied.
if command -v sqlite3 >/dev/null; then
    stopped_copy copying
    at_bench pending
    expect 'a copy' 0 "$(lines 'copy 3 sectors of a.img to b.img from 0: a.img as registered, b.img as registered
metadata of b.img: as registered')" ''
    head -c 2048 /dev/zero >"$bench/images/a.img"
    at_bench pending
    expect "a blank file in the source's place" 0 \
        "$(lines "copy 3 sectors of a.img to b.img from 0: a.img no metadata, b.img as registered
metadata of b.img: as registered
a.img isn't what the stop left: no metadata")" ''

    # A destroy takes the mirror out of the registry before it clears the images.
    fresh_bench destroyed
    batch "$label$insert"
    sqlite3 "$registry" "DELETE FROM components; DELETE FROM mirrors;
        INSERT INTO commands VALUES ('k3', 3, 'destroy gm0', 0, 0);
        INSERT INTO intents VALUES (1, 2, 'a.img', '', 0, 0), (2, 2, 'b.img', '', 0, 0)"
    at_bench pending
    expect 'a destroy that was stopped' 0 "$(lines 'clear a.img: member\nclear b.img: member')" ''
else
    skip 'a copy' 'there is no sqlite3 here'
fi

# A journal, and others who hold the registry or the folder.
stopped_remove held
printf 'x' >"$registry-journal"
at_bench pending
expect 'a journal that holds something' 3 '' "$(of_store "$registry has a rollback journal: open it with sqlite3 first")"
: >"$registry-journal"
run pending --registry "$registry"
expect 'an empty one' 0 "$(lines 'clear b.img\nmetadata of a.img')" ''
printf '\000x' >"$registry-journal"
run pending --registry "$registry"
expect 'one that begins with a zero, as SQLite leaves it' 0 "$(lines 'clear b.img\nmetadata of a.img')" ''
rm "$registry-journal"
if command -v flock >/dev/null; then
    (
        flock -x 9
        at_bench pending
        expect 'a folder that is held' 3 '' "$broken
input or output: another gmbench holds the folder $bench/images"
        run pending --registry "$registry"
        expect 'without it the registry is shown' 0 "$(lines 'clear b.img\nmetadata of a.img')" ''
        echo "$passed $failed" >"$work/counted"
    ) 9<"$bench/images"
    read -r passed failed <"$work/counted"
    (
        flock -s 9
        at_bench pending
        expect 'a folder that another one looks at' 0 "$(lines 'clear b.img: member\nmetadata of a.img: member')" ''
        echo "$passed $failed" >"$work/counted"
    ) 9<"$bench/images"
    read -r passed failed <"$work/counted"
else
    skip 'a folder that is held' 'there is no flock here'
fi
if has_python 'a registry that another program has open'; then
    python3 - "$registry" <<'END' &
import fcntl, os, struct, sys, time
file = os.open(sys.argv[1], os.O_RDWR)
fcntl.fcntl(file, fcntl.F_OFD_SETLK, struct.pack("hhqqi4x", fcntl.F_WRLCK, 0, 1 << 30, 512, 0))
open(sys.argv[1] + ".held", "w").close()
time.sleep(60)
END
    holder=$!
    for _ in 1 2 3 4 5 6 7 8 9 10 11 12 13 14 15 16 17 18 19 20; do
        [ -e "$registry.held" ] || sleep 0.5
    done
    run pending --registry "$registry"
    expect 'a registry that another program has open' 3 '' "$(of_store "another program has $registry open")"
    kill "$holder" 2>/dev/null
    wait "$holder" 2>/dev/null
    rm -f "$registry.held"
fi

# A registry among its images is none of them.
stopped_remove among
mv "$registry" "$bench/images/registry"
registry=$bench/images/registry
truncate -s 4096 "$bench/images/c.img"
at_bench pending
expect 'a registry that lies among the images' 0 "$(lines 'clear b.img: member\nmetadata of a.img: member')" ''

# ---- media that can't be written

stopped_remove read
expect_as_reader 'what is pending, to a user who may only read' "$(lines 'clear b.img: member\nmetadata of a.img: member')" \
    pending --registry "$registry" --shelf "$bench/images"
if unshare -m true 2>/dev/null; then
    mkdir -p "$work/mount"
    for look in 'pending' 'status --read-only' 'list --read-only' 'audit --read-only'; do
        unshare -m sh -c 'mount --bind "$1" "$2" && mount -o remount,bind,ro "$2" || exit 99
            mount=$2 program=$3
            shift 3
            exec "$program" "$@" --registry "$mount/registry" --shelf "$mount/images"' sh "$bench" "$work/mount" "$gmbench" \
            $look >"$work/output" 2>"$work/complaints"
        status=$?
        case $status-$look in
            99-*) skip "$look of a medium that is read-only" 'it can not be mounted here' ;;
            *-pending) expect "$look of a medium that is read-only" 0 \
                "$(lines 'clear b.img: member\nmetadata of a.img: member')" '' ;;
            *-status*) expect "$look of a medium that is read-only" 0 "$of_one" '2 writes are pending' ;;
            *-list*) expect "$look of a medium that is read-only" 0 "$list_of_one" '2 writes are pending' ;;
            *) expect "$look of a medium that is read-only" 1 a.img '2 writes are pending' ;;
        esac
    done
else
    skip 'a medium that is read-only' 'there are no mounts of its own here'
fi

# ---- each of the fourteen commands, killed before each of its writes

run_stopped_calls 'what is pending behind each command' faults/pending.py
finish
