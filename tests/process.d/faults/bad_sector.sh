# A bad sector of an image that a pending copy takes from: what is told of it, and how one goes on.
. "$helpers/bench.sh"

# Runs a command at the bench, whose a.img has a bad sector.
at_bad_bench() {
    LD_PRELOAD=$work/bad_sector.so BAD_IMAGE=/images/a.img BAD_SECTOR=1 at_bench "$@"
}

if ! command -v cc >/dev/null || ! cc -O1 -fPIC -shared -o "$work/bad_sector.so" "$tests/faults/bad_sector.c" 2>"$work/said"
then
    skip 'a bad sector' 'there is no C compiler here'
elif ! command -v sqlite3 >/dev/null; then
    skip 'a bad sector' 'there is no sqlite3'
else
    # A copy of gm0 is pending, and none of gm1.
    fresh_bench bad-sector
    put_image "$bench/images/c.img" c bare
    batch "$label${insert}k3 label --mid 8 --did 1 gm1 c.img\n"
    sqlite3 "$registry" "INSERT INTO intents VALUES (1, 3, 'b.img', 'a.img', 0, 3), (2, 1, 'b.img', '', 0, 0)"
    at_bad_bench recover
    expect 'a recovery from a bad sector' 3 '' 'gmbench: F3 disk'
    at_bad_bench recover --explain
    expect 'which sector it is, and who waits' 3 '' "gmbench: F3 disk
F3: a.img can't be read or written
F3: sector 1 of a.img can't be read
F3: gm0 waits for a pending write: status --read-only shows it
F3: if a.img stays so, move b.img away: then recover --without b.img --key KEY gives it up"
    at_bad_bench batch <<'END'
k4 configure --balance prefer gm1
END
    expect 'another mirror waits too' 3 '' 'gmbench: F3 disk'
    at_bad_bench status --read-only
    expect 'both are shown meanwhile' 0 "$of_two
$(lines 'gm1             COMPLETE 1/1\n  c.img           ACTIVE')" '2 writes are pending'
    mv "$bench/images/b.img" "$bench/b.img"
    at_bad_bench recover --without b.img --key lost1
    expect 'the target is given up' 0 "$(lines 'lost1 ok 4\nrecovered 2')" ''
    at_bad_bench do k4 configure --balance prefer gm1
    expect 'then the other mirror is changed' 0 'k4 ok 5' ''
fi
finish
