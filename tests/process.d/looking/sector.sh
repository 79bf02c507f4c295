# The bytes of a sector, what a dump says of each field, and each fault.
. "$helpers/bench.sh"

# ---- what the last sector of an image says

sectors=$work/sectors
mkdir "$sectors"
put_image "$sectors/a.img" a fresh
run dump --shelf "$sectors" a.img
expect 'a dump of an only component' 0 "$said_by_one" ''
put_image "$sectors/b.img" b pending-b
run dump --shelf "$sectors" b.img
expect 'a dump of a component to be filled' 0 "$(dumped 2 2 SYNCHRONIZING be5271165f1a7a14a9e895ab15f9552c)" ''
overwrite "$sectors/b.img" 100 '\001'
run dump --shelf "$sectors" b.img
expect 'a flipped bit' 1 'fault 3' ''
overwrite "$sectors/a.img" 16 '\005\000\000\000'
run dump --shelf "$sectors" a.img
expect 'another version comes before the hash' 1 'fault 2' ''
rehash "$sectors/a.img"
run dump --shelf "$sectors" a.img
expect 'another version with its hash' 1 'fault 2' ''
overwrite "$sectors/a.img" 16 '\004'
run dump --shelf "$sectors" a.img
expect 'the hash of another version' 1 'fault 3' ''
rehash "$sectors/a.img"
run dump --shelf "$sectors" a.img
expect 'a hash that was mended' 0 "$said_by_one" ''

# ---- the bytes of a sector

# A fresh mirror's only component, field by field; the MD5 is what another program says of the bytes before it.
{
    # magic, version, name
    printf 'GEOM::MIRROR\000\000\000\000'
    printf '\004\000\000\000'
    printf 'gm0\000\000\000\000\000\000\000\000\000\000\000\000\000'
    # mid, did and all, genid, syncid and priority
    printf '\007\000\000\000'
    printf '\001\000\000\000\001'
    printf '\000\000\000\000'
    printf '\001\000\000\000\000'
    # slice, balance, mediasize, sectorsize, sync_offset
    printf '\000\020\000\000'
    printf '\002'
    printf '\000\006\000\000\000\000\000\000'
    printf '\000\002\000\000'
    printf '\000\000\000\000\000\000\000\000'
    # mflags, dflags, provider, provsize
    printf '\000\000\000\000\000\000\000\000'
    printf '\000\000\000\000\000\000\000\000'
    printf '\000\000\000\000\000\000\000\000\000\000\000\000\000\000\000\000'
    printf '\000\010\000\000\000\000\000\000'
    # md5, and zeros after it
    printf '\260\310\322\152\233\207\003\315\375\204\271\324\204\026\065\061'
    head -c 377 /dev/zero
} >"$work/wanted-sector"
expect_same 'the example is the sector that was written by hand' "$top/examples/fresh.sector" "$work/wanted-sector"
fresh_bench by-the-byte
batch "$label"
expect 'a label writes a sector' 0 'k1 ok 1' ''
tail -c 512 "$bench/images/a.img" >"$work/written"
expect_same 'it is the sector that was written by hand' "$work/written" "$work/wanted-sector"
{
    head -c 1536 /dev/zero
    head -c 135 "$work/wanted-sector"
    head -c 377 /dev/zero | tr '\0' '\245'
} >"$sectors/h.img"
run dump --shelf "$sectors" h.img
expect 'a dump passes over what stands behind the hash' 0 "$said_by_one" ''

# ---- what a sector says

# A list of bytes at places of a sector, each with the one line that a dump says otherwise for them; beside that line it
# has another MD5, which is what md5sum says.
expect_said() {
    cat >"$work/list"
    wrong=
    while IFS='|' read -r edits line; do
        put_edited "$sectors/e.img" e $edits
        hash=$(dd if="$sectors/e.img" bs=1 skip=1536 count=119 2>/dev/null | md5sum | cut -c 1-32)
        dumped 1 1 NONE "$hash" | sed "s/^${line%%:*}: .*/$line/" >"$work/wanted-output"
        run dump --shelf "$sectors" e.img
        if [ "$status" != 0 ] || [ -s "$work/complaints" ]; then
            wrong=${wrong:-"'$edits': status $status, '$(head -n 1 "$work/output")'"}
        elif ! cmp -s "$work/output" "$work/wanted-output"; then
            wrong=${wrong:-"'$edits' is not just '$line': $(diff "$work/output" "$work/wanted-output" | grep '^[<>]')"}
        fi
    done <"$work/list"
    [ -z "$wrong" ] && pass "$1" || fail "$1" "$wrong"
}

expect_said 'a dump says names of 1 to 15 characters' <<'END'
20 a\000\000|name: a
20 \055\000\000|name: -
20 a.img|name: a.img
20 Disk_2-b.9|name: Disk_2-b.9
20 123456789012345|name: 123456789012345
95 a|provider: a
95 a.img|provider: a.img
95 fifteen-letters|provider: fifteen-letters
END
expect_said 'a dump says numbers, of which the least byte stands first' <<'END'
36 \000|mid: 0
36 \001\002\003\004|mid: 67305985
36 \377\377\377\377|mid: 4294967295
40 \000\001|did: 256
40 \377\377\377\377|did: 4294967295
44 \000|all: 0
44 \377|all: 255
45 \001\000\000\200|genid: 2147483649
45 \377\377\377\377|genid: 4294967295
49 \000\000\001|syncid: 65536
49 \377\377\377\377|syncid: 4294967295
53 \377|priority: 255
54 \000\000|slice: 0
54 \377\377\377\377|slice: 4294967295
59 \000\000\000\000\001|mediasize: 4294967296
59 \377\377\377\377\377\377\377\377|mediasize: 18446744073709551615
71 \000\004|sync_offset: 1024
71 \377\377\377\377\377\377\377\377|sync_offset: 18446744073709551615
111 \000\000|provsize: 0
111 \377\377\377\377\377\377\377\377|provsize: 18446744073709551615
END
expect_said 'a dump says balances and flags by their names' <<'END'
58 \000|balance: none
58 \001|balance: round-robin
58 \002|balance: load
58 \003|balance: split
58 \004|balance: prefer
79 \001|mflags: NOAUTOSYNC
79 \002|mflags: NOFAILSYNC
79 \003|mflags: NOAUTOSYNC,NOFAILSYNC
87 \001|dflags: DIRTY
87 \002|dflags: SYNCHRONIZING
87 \004|dflags: FORCE_SYNC
87 \010|dflags: INACTIVE
87 \006|dflags: SYNCHRONIZING,FORCE_SYNC
87 \017|dflags: DIRTY,SYNCHRONIZING,FORCE_SYNC,INACTIVE
END

# ---- the faults of a sector

# A list of bytes at places of a sector, each with the one line that a dump prints then. The sector has the MD5 of its
# bytes, or keeps the one that it had.
expect_faults() {
    cat >"$work/list"
    wrong=
    while IFS='|' read -r edits line; do
        put_image "$sectors/e.img" e fresh
        edit_sector "$sectors/e.img" $edits
        [ "$2" = kept ] || rehash "$sectors/e.img"
        run dump --shelf "$sectors" e.img
        if [ "$status" != 1 ] || [ "$(cat "$work/output")" != "$line" ] || [ -s "$work/complaints" ]; then
            wrong=${wrong:-"'$edits': status $status, '$(head -n 1 "$work/output")', and not '$line'"}
        fi
    done <"$work/list"
    [ -z "$wrong" ] && pass "$1" || fail "$1" "$wrong"
}

expect_faults 'a field that can not be used is told' mended <<'END'
0 g|fault 1
12 x|fault 1
15 \001|fault 1
16 \000|fault 2
16 \005|fault 2
19 \001|fault 2
20 \000\000\000|fault 4
20 \000|fault 4
20 /|fault 4
21 \040|fault 4
20 \303\244|fault 4
23 !|fault 4
24 x|fault 4
35 x|fault 4
20 sixteen-letters-|fault 4
95 gpt/disk0|fault 5
95 a\040b|fault 5
95 \303\244|fault 5
96 x|fault 5
110 x|fault 5
95 sixteen-letters-|fault 5
58 \005|fault 6
58 \377|fault 6
79 \004|fault 7
86 \200|fault 7
87 \020|fault 7
94 \200|fault 7
67 \001|fault 8
68 \000|fault 8
68 \004|fault 8
70 \001|fault 8
END
expect_faults 'of several faults the least is told' mended <<'END'
67 \001 87 \020|fault 7
67 \001 79 \004|fault 7
67 \001 87 \020 58 \005|fault 6
67 \001 87 \020 58 \005 110 x|fault 5
67 \001 87 \020 58 \005 110 x 24 x|fault 4
67 \001 87 \020 58 \005 110 x 24 x 16 \005|fault 2
67 \001 87 \020 58 \005 110 x 24 x 16 \005 0 g|fault 1
END
expect_faults 'a hash that is wrong is told behind the version, and before what else is' kept <<'END'
0 g|fault 1
16 \005|fault 2
16 \005 0 g|fault 1
23 !|fault 3
24 x 110 x 58 \005 87 \020 67 \001|fault 3
END
for place in 20 35 36 40 44 45 49 53 54 58 59 67 71 79 87 95 110 111 118 119 126 127 134; do
    printf '%s\n' "$place \\245|fault 3"
done >"$work/flips"
expect_faults 'a byte that is wrong, of each field and of the hash' kept <"$work/flips"

# ---- sectors that are compared

# A byte that is wrong at either end of each 64.
wrong=
for place in 0 63 64 127 128 191 192 255 256 319 320 383 384 447 448 511; do
    overwrite "$bench/images/a.img" $place '\245'
    at_bench audit
    [ "$status" = 1 ] && [ "$(cat "$work/output")" = a.img ] || wrong=${wrong:-"at $place: status $status"}
    dd if="$work/wanted-sector" of="$bench/images/a.img" bs=512 seek=3 conv=notrunc 2>/dev/null
done
[ -z "$wrong" ] && pass 'an audit tells a wrong byte wherever it stands' ||
    fail 'an audit tells a wrong byte wherever it stands' "$wrong"
at_bench audit
expect 'an audit of the sector that was written by hand' 0 '' ''
finish
