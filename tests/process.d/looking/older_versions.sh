# Last sectors of versions 2 and 3: their bytes, what a dump says of each field, and each fault.
. "$helpers/bench.sh"

# ---- last sectors of versions 2 and 3

# What a dump says of an only component in an older version, whose sector has this hash.
dumped_older() {
    dumped 1 1 NONE "$2" | sed "s/^version: 4/version: $1/; ${3:-}"
}

sectors=$work/sectors
mkdir "$sectors"
put_image "$sectors/a.img" a fresh
make_older "$sectors/a.img" 2
tail -c 512 "$sectors/a.img" >"$work/made"
expect_same 'the example of version 2 has the fields of the fresh one' "$top/examples/version-2.sector" "$work/made"
run dump --shelf "$sectors" a.img
expect 'a dump of version 2, which tells no size of the image' 0 \
    "$(dumped_older 2 7db178c1fb62c407959876f477891425 's/^provsize: .*/provsize: 0/')" ''
put_image "$sectors/b.img" b fresh
make_older "$sectors/b.img" 3
run dump --shelf "$sectors" b.img
expect 'a dump of version 3' 0 "$(dumped_older 3 628b56e8c9859b81c759162d054b4078)" ''

# After its hash version 2 may have anything.
dd if=/dev/zero bs=385 count=1 2>/dev/null | tr '\0' '\245' |
    dd of="$sectors/a.img" bs=1 seek=$((1536 + 127)) conv=notrunc 2>/dev/null
run dump --shelf "$sectors" a.img
expect 'a dump of version 2 passes over what stands behind its hash' 0 \
    "$(dumped_older 2 7db178c1fb62c407959876f477891425 's/^provsize: .*/provsize: 0/')" ''

# ---- bytes of one version under the number of another

# What a dump says of the sector of a fresh mirror in a version, but for these bytes, with the MD5 of so many bytes.
expect_version() {
    put_image "$sectors/c.img" c fresh
    overwrite "$sectors/c.img" 16 "\\00$2"
    edited=$sectors/c.img
    edit_sector "$edited" $4
    rehash "$edited" "$3"
    run dump --shelf "$sectors" c.img
    if [ "$5" = read ]; then
        [ "$status" = 0 ] && grep -q "^version: $2\$" "$work/output" && pass "$1" || fail "$1" "status $status"
    else
        expect "$1" 1 "$5" ''
    fi
}

expect_version 'version 2 is read' 2 111 '' read
expect_version 'version 2 with the hash at the place of the others' 2 119 '' 'fault 3'
expect_version 'version 3 is read' 3 119 '' read
expect_version 'version 3 with the hash at the place of version 2' 3 111 '' 'fault 3'
expect_version 'version 4 with the hash at the place of version 2' 4 111 '' 'fault 3'
expect_version 'version 1' 1 119 '' 'fault 2'
expect_version 'version 1 with the hash at the place of version 2' 1 111 '' 'fault 2'
expect_version 'version 5' 5 119 '' 'fault 2'
expect_version 'version 0' 0 119 '' 'fault 2'
expect_version 'a version whose first byte is 2' 2 111 '17 \001' 'fault 2'
expect_version 'a version whose last byte is 3' 0 119 '19 \003' 'fault 2'
expect_version 'NOAUTOSYNC in version 2' 2 111 '79 \001' read
expect_version 'NOFAILSYNC in version 2' 2 111 '79 \002' 'fault 7'
expect_version 'NOFAILSYNC in version 3' 3 119 '79 \002' 'fault 7'
expect_version 'both flags in version 3' 3 119 '79 \003' 'fault 7'
expect_version 'both flags in version 4' 4 119 '79 \003' read
expect_version 'all flags of a component in version 2' 2 111 '87 \017' read
expect_version 'a flag of a component without a name in version 2' 2 111 '87 \020' 'fault 7'
expect_version 'a balance over 4 in version 2' 2 111 '58 \005' 'fault 6'
expect_version 'another sector size in version 2' 2 111 '68 \004' 'fault 8'
expect_version 'a provider that is no label in version 2' 2 111 '95 a/b' 'fault 5'
expect_version 'a name that is no label in version 3' 3 119 '20 a/b' 'fault 4'
expect_version 'of several faults of version 2 the least' 2 111 '58 \005 79 \002 68 \004' 'fault 6'

# ---- what they tell together

put_image "$sectors/c.img" c fresh
run taste --shelf "$sectors"
expect 'a taste of three versions' 0 'gm0             mid 7 genid 0 syncid 1
  a.img           ACTIVE
  b.img           ACTIVE
  c.img           ACTIVE
  source: a.img' ''
overwrite "$sectors/a.img" 111 '\001'
overwrite "$sectors/b.img" 111 '\001'
run taste --shelf "$sectors"
expect 'a taste of a hash of version 2 and a size of version 3 that are wrong' 1 'gm0             mid 7 genid 0 syncid 1
  c.img           ACTIVE
  source: c.img
left out:
  a.img           fault 3
  b.img           fault 3' ''
rehash "$sectors/b.img"
run taste --shelf "$sectors"
expect 'version 3 tells the size of its image, and version 2 none' 1 'gm0             mid 7 genid 0 syncid 1
  c.img           ACTIVE
  source: c.img
left out:
  a.img           fault 3
  b.img           tells another size' ''
finish
