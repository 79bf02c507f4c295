# A registry of the first schema, which is carried over, shown or stopped.
. "$helpers/rights.sh"
. "$helpers/python.sh"

# ---- a registry of the first schema, whose tables have none for the bytes of patches

# It holds what examples/pending.sqlite holds: the removal of b.img from gm0 was accepted, and nothing of it written.
older() {
    put_bench "$1" pending-a pending-b
    cp "$top/examples/first-schema.sqlite" "$registry"
}
# Whether the registry is as it was, byte for byte, and nothing lies beside it.
expect_untouched() {
    expect_same "$1" "$registry" "$top/examples/first-schema.sqlite"
    expect_none "$1: no log" "$registry-wal"
}
pending="$(lines 'clear b.img: member\nmetadata of a.img: member')"

older shown
for look in status list; do
    at_bench $look --read-only
    [ "$status" = 0 ] && pass "$look shows it as it is" || fail "$look shows it as it is" "status $status"
done
at_bench status --read-only
expect 'what it holds' 0 "$of_one" '2 writes are pending'
at_bench pending
expect 'what is pending in it' 0 "$pending" ''
expect_untouched 'it is only shown'

at_bench recover
expect 'an opening carries it over, and then what is pending' 0 'recovered 2' ''
at_bench recover
expect 'nothing is left to be done' 0 'recovered 0' ''
at_bench status
expect 'it holds what it held' 0 "$of_one" ''
batch 'k3 remove gm0 b.img\nk9 destroy gm0\n'
expect 'it goes on as any' 0 "$(lines 'k3 repeated 3\nk9 ok 4')" ''
if command -v sqlite3 >/dev/null; then
    older carried
    at_bench recover
    cp "$registry" "$work/registry-of-carried"
    fresh_bench new
    batch "$label"
    for made in "$work/registry-of-carried" "$registry"; do
        sqlite3 "$made" 'SELECT rowid, type, name, tbl_name, sql FROM sqlite_schema ORDER BY rowid'
        sqlite3 "$made" 'SELECT * FROM about; SELECT count(*) FROM patches; PRAGMA integrity_check'
    done >"$work/both"
    lines=$(($(wc -l <"$work/both") / 2))
    head -n "$lines" "$work/both" >"$work/of-carried"
    tail -n "$lines" "$work/both" >"$work/of-new"
    expect_same 'its tables are those of a new one' "$work/of-carried" "$work/of-new"
    grep -qx '1|2' "$work/of-new" && pass 'its number is 2' || fail 'its number is 2' "$(cat "$work/of-new")"

    # Other numbers, and tables that don't go with their number, are left as they are.
    for change in 'UPDATE about SET schema_no = 2' 'UPDATE about SET schema_no = 3' 'UPDATE about SET schema_no = 0' \
        'CREATE TABLE patches(one INTEGER PRIMARY KEY CHECK (one = 1), bytes BLOB NOT NULL) STRICT' \
        'CREATE TABLE patches(one INTEGER PRIMARY KEY, bytes BLOB)' 'DELETE FROM about' 'DROP TABLE intents' \
        'CREATE TABLE other(a INTEGER) STRICT'; do
        older "other-$((other = ${other:-0} + 1))"
        sqlite3 "$registry" "$change"
        cp "$registry" "$work/changed"
        at_bench recover
        expect "a registry changed by '$change'" 3 '' 'gmbench: F6 registry unreadable'
        expect_same "'$change' is left" "$registry" "$work/changed"
    done
else
    skip 'the tables of a registry that was carried over' 'there is no sqlite3'
fi

# An image that something pending needs is away: the registry may be carried over, and nothing else is done.
older away
mv "$bench/images/b.img" "$work/b.img"
at_bench recover
expect 'an image is away' 3 '' 'gmbench: F5 absent b.img'
mv "$work/b.img" "$bench/images/b.img"
at_bench pending
expect 'all is pending still' 0 "$pending" ''
at_bench recover
expect 'it is there again' 0 'recovered 2' ''

# A medium that can't be written.
older read
expect_as_reader 'what is pending in it, to a user who may only read' "$pending" \
    pending --registry "$registry" --shelf "$bench/images"

# ---- the same, stopped at each write and sync of any file, twice

if has_python 'a registry that is carried over'; then
    if command -v cc >/dev/null && cc -O1 -fPIC -shared -o "$work/stopped_calls.so" "$tests/faults/stopped_calls.c" \
        2>"$work/complaints"; then
        older stopped
        run_script faults/older_registry.py "$gmbench" "$work/stopped_calls.so" "$work" "$bench"
    else
        skip 'a registry that is carried over' 'there is no C compiler here'
    fi
fi
finish
