# Records that are those of a state, and rows and tables that aren't, which are reported and left.
. "$helpers/records.sh"
. "$helpers/python.sh"

# ---- records that are those of a state, and records that break a rule of it

# SQLite's own command line changes the rows of a registry. Two mirrors of one mid, or two components of a mirror with
# one did, can't be put there, since the tables take no such row.

# Whether the bench, whose registry is changed by this, shows its mirrors.
expect_state() {
    put_back
    sqlite3 "$registry" "$2" >/dev/null
    at_bench status
    sed -n 1p "$work/output" >"$work/first-line"
    cp "$work/first-line" "$work/output"
    expect "$1 is registered" 0 "$(lines 'gm0             DEGRADED 1/3')" ''
}

# Whether it is unreadable.
expect_no_state() {
    put_back
    sqlite3 "$registry" "$2" >/dev/null
    at_bench status
    expect "$1 is not registered" 3 '' 'gmbench: F6 registry unreadable'
}

# Whether each opening of the bench, whose registry is changed by this, says that fault and writes nothing: neither to an image,
# nor to the database, nor a page to its log, of which each byte stays. The change stands in the database, or in the log alone.
expect_left() {
    for place in database log; do
        put_back
        if [ "$place" = log ]; then
            sqlite3 "$registry" '.dbconfig no_ckpt_on_close on' "$3" >/dev/null
            rm -f "$registry-shm"
            expect_same "$1 stands in the log" "$registry" "$work/kept-registry"
        else
            sqlite3 "$registry" "$3" >/dev/null
            : >"$registry-wal"
        fi
        rm -rf "$work/changed"
        cp -R "$bench" "$work/changed"
        for command in recover status list batch; do
            at_bench $command </dev/null
            expect "$1 in the $place: a $command" 3 '' "gmbench: $2"
        done
        logged=$(wc -c <"$work/changed/registry-wal")
        if ! other=$(diff -r -x registry-wal "$bench" "$work/changed" 2>&1); then
            fail "$1 in the $place is left" "$other"
        elif ! other=$(head -c "$logged" "$registry-wal" | cmp - "$work/changed/registry-wal" 2>&1); then
            fail "$1 in the $place leaves the log" "$other"
        elif [ "$(wc -c <"$registry-wal")" -ge $((logged + 2048)) ]; then
            fail "$1 in the $place leaves the log" 'it has a page more'
        else
            pass "$1 in the $place is left"
        fi
    done
}

# So many mirrors of one component each beside the two.
many_more() {
    echo "WITH RECURSIVE n(i) AS (SELECT 1 UNION ALL SELECT i + 1 FROM n WHERE i < $1)
        INSERT INTO mirrors SELECT 'm' || i, 100 + i, 1, 0, 1, 4096, 1, 1536, 0 FROM n;
    WITH RECURSIVE n(i) AS (SELECT 1 UNION ALL SELECT i + 1 FROM n WHERE i < $1)
        INSERT INTO components SELECT 'm' || i, 'm' || i, 1, 1, 0, 0, 0, 0, 2048 FROM n"
}

# gm0 is of a.img, which is ACTIVE, of b.img, which is INACTIVE, and of c.img, to which two of three sectors were
# copied; its syncid is 5, and that of b.img 4. gm1 is of d.img alone. e.img is an image beside them.
if command -v sqlite3 >/dev/null; then
    put_three states 3
    batch 'k2 label --mid 8 --did 1 gm1 d.img\n'
    expect 'a mirror beside the three' 0 'k2 ok 2' ''
    put_image "$bench/images/e.img" e bare
    keep_bench
    expect_state 'a copy that has nothing' "UPDATE components SET sync_offset = 0 WHERE prov = 'c.img'"
    expect_state 'a copy that lacks the last sector' "UPDATE components SET sync_offset = 1024 WHERE prov = 'c.img'"
    expect_no_state 'a copy that lacks none' "UPDATE components SET sync_offset = 1536 WHERE prov = 'c.img'"
    expect_state 'an INACTIVE component of the same syncid' "UPDATE components SET syncid = 5 WHERE prov = 'b.img'"
    expect_state 'an INACTIVE component of syncid 0' "UPDATE components SET syncid = 0 WHERE prov = 'b.img'"
    expect_no_state 'an INACTIVE component that is ahead' "UPDATE components SET syncid = 6 WHERE prov = 'b.img'"
    expect_no_state 'an ACTIVE component that is behind' "UPDATE components SET syncid = 4 WHERE prov = 'a.img'"
    expect_no_state 'an ACTIVE component that is ahead' "UPDATE components SET syncid = 6 WHERE prov = 'a.img'"
    expect_no_state 'a copy that is behind' "UPDATE components SET syncid = 4 WHERE prov = 'c.img'"
    expect_no_state 'a mirror whose only component is INACTIVE' "UPDATE components SET dflags = 8 WHERE prov = 'd.img'"
    expect_no_state 'a mirror whose only component is filled' "UPDATE components SET dflags = 2 WHERE prov = 'd.img'"
    expect_no_state 'a mirror without components' "DELETE FROM components WHERE prov = 'd.img'"
    expect_no_state 'a mirror of no data' "UPDATE mirrors SET mediasize = 0 WHERE name = 'gm1'"
    expect_state 'a mirror of one sector' "UPDATE mirrors SET mediasize = 512 WHERE name = 'gm1'"
    expect_no_state 'a mirror of all sectors' "UPDATE mirrors SET mediasize = 2048 WHERE name = 'gm1'"
    expect_state 'a component of the most sectors' "UPDATE components SET provsize = 536870912 WHERE prov = 'd.img'"
    expect_no_state 'a component of one sector more' "UPDATE components SET provsize = 536871424 WHERE prov = 'd.img'"
    expect_no_state 'a component of too few sectors' "UPDATE components SET provsize = 1536 WHERE prov = 'd.img'"
    expect_no_state 'a mirror that counts fewer' "UPDATE mirrors SET total = 2 WHERE name = 'gm0'"
    expect_no_state 'a mirror that counts seventeen' "UPDATE mirrors SET total = 17 WHERE name = 'gm1'"
    expect_state 'a mirror that counts sixteen' "UPDATE mirrors SET total = 16 WHERE name = 'gm1'"
    expect_state 'sixty-four mirrors' "$(many_more 62)"
    expect_no_state 'a sixty-fifth mirror' "$(many_more 63)"

    # Values that no command writes, and writes that no command leaves.
    unreadable='F6 registry unreadable'
    expect_left 'a flag of no meaning' "$unreadable" "UPDATE components SET dflags = 4 WHERE prov = 'a.img'"
    expect_left 'a genid of 33 bits' "$unreadable" "UPDATE mirrors SET genid = 4294967296 WHERE name = 'gm0'"
    expect_left 'a write of no kind' "$unreadable" "INSERT INTO intents VALUES (1, 9, 'a.img', '', 0, 0)"
    expect_left 'metadata of no component' "$unreadable" "INSERT INTO intents VALUES (1, 1, 'e.img', '', 0, 0)"
    expect_left 'metadata of no image' "$unreadable" "INSERT INTO intents VALUES (1, 1, 'f.img', '', 0, 0)"

    # A component of no mirror is told otherwise: its row refers to one, and a file that lacks it isn't opened.
    expect_left 'a component of no mirror' 'F2 store' \
        "PRAGMA foreign_keys = OFF; UPDATE components SET mirror = 'gm9' WHERE prov = 'b.img'"
else
    skip 'records that break a rule' 'there is no sqlite3'
fi

# ---- one edit at a time, of each column and table

if has_python 'registries that are edited'; then
    if python3 -c 'import sqlite3' 2>/dev/null; then
        run_script faults/records_of_no_state.py "$gmbench" "$work" "$top/examples/first-schema.sqlite"
    else
        skip 'registries that are edited' 'there is no SQLite for python3 here'
    fi
fi
finish
