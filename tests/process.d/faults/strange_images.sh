# Images that no stop leaves as they are: nothing that is pending is carried out over them.
. "$helpers/bench.sh"

# What is said of an image that is something else, and how it stands.
strange() {
    printf '%s\n' "gmbench: F5 absent $1" "F5: $1 isn't what the stop left: $2" \
        'F5: put the right file back; recover --unchecked goes on with what is there'
}

# Whether each command that opens the registry of that bench leaves all as it is, and says why.
expect_left_alone() {
    keep_bench
    for words in status list audit recover batch 'audit --existing'; do
        at_bench $words </dev/null
        expect "$1: $words" 3 '' "$(strange "$2" "$3")"
    done
    # A sync also says what the fault means.
    for words in 'sync --unchecked' 'sync --force'; do
        at_bench $words </dev/null
        meaning="F5: $2 isn't there as it was left, and a write to it is pending"
        expect "$1: $words" 3 '' "$(strange "$2" "$3" | sed "1a $meaning")"
    done
    for words in 'do k9 forget gm0' 'forget gm0' 'insert --unchecked --force gm0 c.img' 'adopt --all'; do
        at_bench $words </dev/null
        [ "$status" = 3 ] && grep -qF "F5: $2 isn't what the stop left: $3" "$work/complaints" &&
            pass "$1: $words" || fail "$1: $words" "$status: $(cat "$work/complaints")"
    done
    timeout 20 "$gmbench" serve --port 0 --count 1 --registry "$registry" --shelf "$bench/images" \
        >"$work/output" 2>"$work/complaints"
    status=$?
    expect "$1: serve" 3 '' "$(strange "$2" "$3")"
    expect_kept "$1: nothing is written"
}

# ---- another file has the name of an image that is to get metadata

stopped_remove replaced
put_image "$bench/images/a.img" x bare
expect_left_alone 'a file without metadata' a.img 'no metadata'
at_bench pending
expect 'it is shown' 0 "$(lines "clear b.img: member\nmetadata of a.img: no metadata
a.img isn't what the stop left: no metadata")" ''
at_bench pending --json
expect 'also as JSON' 0 '{"pending":[{"images":[{"image":"b.img","standing":"member"}],"of":"b.img","write":"clear"},{"images":[{"image":"a.img","standing":"no metadata"}],"of":"a.img","write":"metadata"}],"strange":[{"image":"a.img","standing":"no metadata"}]}' ''
put_image "$work/right" a pending-a
cp "$work/right" "$bench/images/a.img"
at_bench recover
expect 'with the right file it goes on' 0 'recovered 2' ''

stopped_remove taken-all-the-same
put_image "$bench/images/a.img" x bare
at_bench recover --unchecked
expect 'what is there is taken all the same' 0 'recovered 2' ''

stopped_remove another-mirror
put_edited "$bench/images/a.img" a 36 '\011'
expect_left_alone 'an image of another mirror of that name' a.img 'another mirror'

stopped_remove another-component
put_edited "$bench/images/a.img" a 40 '\011'
expect_left_alone 'another component of the mirror' a.img 'another component'

stopped_remove damaged
put_image "$bench/images/a.img" a pending-a
overwrite "$bench/images/a.img" 100 'x'
expect_left_alone 'a last sector that is damaged' a.img damaged

# ---- an image that is to be wiped

stopped_remove wiped
put_image "$bench/images/b.img" x bare
printf 'data' | dd of="$bench/images/b.img" bs=1 seek=1600 conv=notrunc 2>/dev/null
expect_left_alone 'a file with data in its last sector' b.img 'no metadata'

stopped_remove wiped-already
head -c 2048 /dev/zero >"$bench/images/b.img"
at_bench recover
expect 'zeros may be what is left' 0 'recovered 2' ''

# ---- an image that is newer than the registry, which is an old copy

stopped_remove old-registry
put_edited "$bench/images/a.img" a 49 '\011'
expect_left_alone 'a newer image' a.img newer

# ---- what is away stays what it was

stopped_remove away
put_image "$bench/images/a.img" x bare
rm "$bench/images/b.img"
at_bench recover
expect 'an image that is away is named' 3 '' 'gmbench: F5 absent b.img
'"$(strange a.img 'no metadata' | sed 1d)"

if ! command -v sqlite3 >/dev/null; then
    skip 'copies, and commands of an old registry' 'there is no sqlite3 here'
    finish
    exit
fi

# ---- the source and the target of a copy

stopped_copy source
put_image "$bench/images/a.img" x bare
expect_left_alone 'a source without metadata' a.img 'no metadata'

stopped_copy target
put_image "$bench/images/b.img" x bare
expect_left_alone 'a target without metadata' b.img 'no metadata'

# ---- an old registry in which a patch is pending, beside newer images

fresh_bench old
batch "$label"
cp "$registry" "$work/before"
zeros=$(head -c 512 /dev/zero | od -An -v -tx1 | tr -d ' \n')
batch "k2 patch --first 0 --data $zeros gm0\nk3 patch --first 0 --data $(echo "$zeros" | tr 0 1) gm0\n"
expect 'two patches' 0 "$(lines 'k2 ok 2\nk3 ok 3')" ''
cp "$work/before" "$registry"
rm -f "$registry-wal"
sqlite3 "$registry" "UPDATE mirrors SET syncid = 2; UPDATE components SET syncid = 2;
    INSERT INTO commands VALUES ('k2', 2, 'patch --first 0 --data $zeros gm0', 0, 0);
    INSERT INTO intents VALUES (1, 4, 'a.img', '', 0, 0), (2, 5, 'a.img', '', 0, 1), (3, 1, 'a.img', '', 0, 0);
    INSERT INTO patches VALUES (1, zeroblob(512))"
expect_left_alone 'an old registry with a patch' a.img newer
finish
