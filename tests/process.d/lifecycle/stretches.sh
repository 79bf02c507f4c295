# Stretches: how long each is, where it begins, and what is told of it.
. "$helpers/records.sh"

# ---- stretches: how many sectors each has, where it begins, and what the component says after it

# Whether a component of so many sectors is filled by stretches that end there, and has the data then. The bench is
# named by the number.
expect_stretches() {
    sectors=$1
    shift
    fresh_bench "stretches-of-$sectors"
    put_told a.img "$sectors" s
    put_told b.img "$sectors" t
    asked='k1 clear a.img\nk2 clear b.img\nk3 label --mid 7 --did 1 gm0 a.img\nk4 insert --did 2 gm0 b.img\n'
    answered='k1 ok 1\nk2 ok 2\nk3 ok 3\nk4 ok 4'
    number=4
    for end; do
        number=$((number + 1))
        asked="${asked}k$number advance gm0 b.img\n"
        answered="$answered\nk$number ok $number copied $end of $sectors"
    done
    batch "${asked}k99 advance gm0 b.img\n"
    expect "the stretches of $sectors end at $*" 1 "$(lines "$answered\nk99 refused 22")" ''
    expect_same_data "all $sectors are copied" "$bench/images/a.img" "$bench/images/b.img" $((sectors * 512))
}

expect_stretches 1 1
expect_stretches 255 255
expect_stretches 256 256
expect_stretches 512 256 512
expect_stretches 513 256 512 513

# A component that has 7 of 300 sectors. Somebody else changes the last of these, which isn't copied again.
fresh_bench in-the-midst
put_told a.img 300 s did=1 mediasize=153600 provsize=154112
put_told b.img 300 s did=2 mediasize=153600 provsize=154112 dflags=2 offset=3584
head -c 150016 /dev/zero | tr '\0' t | dd of="$bench/images/b.img" bs=512 seek=7 conv=notrunc 2>/dev/null
batch 'k1 adopt gm0 a.img b.img\n'
expect 'a component that has 7 sectors' 0 'k1 ok 1' ''
printf u | dd of="$bench/images/b.img" bs=1 seek=3583 conv=notrunc 2>/dev/null
expect_step 'a stretch begins where the last one ended' \
    'k2 advance gm0 b.img' 'k2 ok 2 copied 263 of 300' 'b.img' <<'END'
gm0 DEGRADED 7 2 0 1 load 4096 NONE 153600
a.img ACTIVE 1 0 1 NONE 0 154112 no
b.img SYNCHRONIZING 2 0 1 SYNCHRONIZING 134656 154112 no
END
{
    head -c 3583 /dev/zero | tr '\0' s
    printf u
    head -c 131072 /dev/zero | tr '\0' s
    head -c 18944 /dev/zero | tr '\0' t
} >"$work/wanted-data"
expect_same_data 'the sectors of that stretch alone are copied' "$work/wanted-data" "$bench/images/b.img" 153600
expect_told 'a dump of what it has' b.img 'gm0 7 2 2 0 1 0 4096 load 153600 134656 NONE SYNCHRONIZING (none) 154112'

# The last sector of as many as an image may have.
fresh_bench last-of-all
if command -v sqlite3 >/dev/null; then
    for letter in a b; do
        rm "$bench/images/$letter.img"
        dd if=/dev/zero of="$bench/images/$letter.img" bs=512 count=1 seek=1048575 2>/dev/null
    done
    batch "$label$insert"
    expect 'images of 1,048,576 sectors' 0 "$(lines 'k1 ok 1\nk2 ok 2')" ''
    sqlite3 "$registry" "UPDATE components SET sync_offset = 536869888 WHERE prov = 'b.img'"
    printf z | dd of="$bench/images/a.img" bs=512 seek=1048574 conv=notrunc 2>/dev/null
    expect_step 'a stretch of the last of them' \
        'k3 advance gm0 b.img' 'k3 ok 3 copied 1048575 of 1048575' 'b.img' <<'END'
gm0 COMPLETE 7 2 0 1 load 4096 NONE 536870400
a.img ACTIVE 1 0 1 NONE 0 536870912 no
b.img ACTIVE 2 0 1 NONE 0 536870912 no
END
    for letter in a b; do
        tail -c 1024 "$bench/images/$letter.img" | head -c 512 >"$work/last-$letter"
    done
    expect_same 'the last sector of data is copied' "$work/last-a" "$work/last-b"
    rm "$bench/images/a.img" "$bench/images/b.img"
else
    skip 'the last sector of as many as there may be' 'there is no sqlite3'
fi

# ---- components that are filled though their mirror fills none by itself

fresh_bench forced
put_told a.img 257 s mflags=1 did=1 mediasize=131584 provsize=132096
put_told b.img 257 t mflags=1 did=2 mediasize=131584 provsize=132096 dflags=2
batch 'k1 adopt gm0 a.img b.img\nk2 advance gm0 b.img\nk2 rebuild gm0 b.img\n'
expect 'one that waits is not filled until it is rebuilt' 1 "$(lines 'k1 ok 1\nk2 refused 22\nk2 ok 2')" ''
expect_step 'it stays forced while it lacks a sector' 'k3 advance gm0 b.img' 'k3 ok 3 copied 256 of 257' 'b.img' <<'END'
gm0 DEGRADED 7 2 0 1 load 4096 NOAUTOSYNC 131584
a.img ACTIVE 1 0 1 NONE 0 132096 no
b.img SYNCHRONIZING 2 0 1 SYNCHRONIZING,FORCE_SYNC 131072 132096 no
END
expect_step 'it is forced no more once it has all' 'k4 advance gm0 b.img' 'k4 ok 4 copied 257 of 257' 'b.img' <<'END'
gm0 COMPLETE 7 2 0 1 load 4096 NOAUTOSYNC 131584
a.img ACTIVE 1 0 1 NONE 0 132096 no
b.img ACTIVE 2 0 1 NONE 0 132096 no
END

# ---- where a stretch isn't copied from

# b.img is filled from a.img, the only one that is ACTIVE, though all others have a greater priority.
fresh_bench no-sources
put_told a.img 3 x all=4 did=1
put_told b.img 3 t all=4 did=2 dflags=2 priority=255
put_told c.img 3 y all=4 did=3 dflags=8 priority=9
put_told d.img 3 w all=4 did=4 dflags=2 priority=9 offset=1024
head -c 1024 /dev/zero | tr '\0' x | dd of="$bench/images/d.img" conv=notrunc 2>/dev/null
batch 'k1 adopt gm0 a.img b.img c.img d.img\nk2 advance gm0 b.img\n'
expect 'a stretch beside components that are not ACTIVE' 0 "$(lines 'k1 ok 1\nk2 ok 2 copied 3 of 3')" ''
expect_same_data 'it comes from the one that is' "$bench/images/a.img" "$bench/images/b.img" 1536
expect_records 'their priorities stay' <<'END'
gm0 DEGRADED 7 4 0 1 load 4096 NONE 1536
a.img ACTIVE 1 0 1 NONE 0 2048 no
b.img ACTIVE 2 255 1 NONE 0 2048 no
c.img INACTIVE 3 9 1 INACTIVE 0 2048 no
d.img SYNCHRONIZING 4 9 1 SYNCHRONIZING 1024 2048 no
END
finish
