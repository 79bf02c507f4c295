# Mirrors whose images are of versions 2 and 3.
. "$helpers/records.sh"

# ---- mirrors that are found on images of versions 2 and 3

# What is written is version 4: the sector of a fresh mirror comes back from version 2, byte for byte.
fresh_bench second
put_image "$bench/images/a.img" a fresh
make_older "$bench/images/a.img" 2
batch 'k1 adopt gm0 a.img\n'
expect 'a mirror of version 2 is adopted' 0 'k1 ok 1' ''
tail -c 512 "$bench/images/a.img" >"$work/written"
expect_same 'its sector is that of version 4' "$work/written" "$top/examples/fresh.sector"
at_bench audit
expect 'an audit of it' 0 '' ''
batch 'k1 adopt gm0 a.img\nk2 insert --did 2 gm0 b.img\nk3 advance gm0 b.img\n'
expect 'it is used as any other' 0 "$(lines 'k1 repeated 1\nk2 ok 2\nk3 ok 3 copied 3 of 3')" ''

# Two of version 2 and 4, with the same data.
fresh_bench second-and-fourth
batch "$label${insert}k3 advance gm0 b.img\n"
forget_registry
cp "$bench/images/a.img" "$work/fourth-a"
make_older "$bench/images/a.img" 2
expect_step 'versions 2 and 4 are one mirror' 'k1 adopt gm0 a.img b.img' 'k1 ok 1' 'a.img b.img' <<'END'
gm0 COMPLETE 7 2 0 1 load 4096 NONE 1536
a.img ACTIVE 1 0 1 NONE 0 2048 no
b.img ACTIVE 2 0 1 NONE 0 2048 no
END
expect_same 'the older one is what it was in version 4' "$bench/images/a.img" "$work/fourth-a"

# Three of all versions: one that is being filled, and one that is out of use.
put_versions() {
    forget_registry
    put_told a.img 3 x all=3 did=1 syncid=2
    put_told b.img 3 x all=3 did=2 syncid=2 dflags=2 offset=512
    put_told c.img 3 y all=3 did=3 dflags=8
    cp "$bench/images/"* "$work/fourth-three"
    make_older "$bench/images/b.img" 2
    make_older "$bench/images/c.img" 3
}
mkdir "$work/fourth-three"
fresh_bench three
put_versions
expect_step 'versions 2, 3 and 4 are one mirror' 'k1 adopt gm0 a.img b.img c.img' 'k1 ok 1' 'a.img b.img c.img' <<'END'
gm0 DEGRADED 7 3 0 2 load 4096 NONE 1536
a.img ACTIVE 1 0 2 NONE 0 2048 no
b.img SYNCHRONIZING 2 0 2 SYNCHRONIZING 512 2048 no
c.img INACTIVE 3 0 1 INACTIVE 0 2048 no
END
expect_same 'the one that is being filled is what it was in version 4' "$bench/images/b.img" "$work/fourth-three/b.img"
expect_same 'and so is the one that is out of use' "$bench/images/c.img" "$work/fourth-three/c.img"

# A sector of version 2 tells no size, so that it doesn't leave its image out on another one.
fresh_bench moved
put_told a.img 3 x did=1 all=1
make_older "$bench/images/a.img" 2
head -c 512 /dev/zero >>"$bench/images/a.img"
dd if="$bench/images/a.img" of="$bench/images/a.img" bs=512 skip=3 seek=4 count=1 conv=notrunc 2>/dev/null
expect_step 'version 2 on a longer image' 'k1 adopt gm0 a.img' 'k1 ok 1' 'a.img' <<'END'
gm0 COMPLETE 7 1 0 1 load 4096 NONE 1536
a.img ACTIVE 1 0 1 NONE 0 2560 no
END

# Those that can't be adopted stay as they are.
fresh_bench unfit
put_image "$bench/images/a.img" a fresh
overwrite "$bench/images/a.img" 79 '\002'
make_older "$bench/images/a.img" 3
batch 'k1 adopt gm0 a.img\nk2 label --mid 7 --did 1 gm0 a.img\nk3 clear a.img\n'
expect 'version 3 with a flag of version 4' 1 "$(lines 'k1 refused 26\nk2 refused 10\nk3 ok 1')" ''
put_image "$bench/images/a.img" a fresh
make_older "$bench/images/a.img" 2
cp "$bench/images/a.img" "$work/unfit-a"
batch 'k4 label --mid 7 --did 1 gm0 a.img\nk5 adopt gm1 a.img\n'
expect 'an image of version 2 carries metadata, and of one name' 1 "$(lines 'k4 refused 10\nk5 refused 26')" ''
expect_same 'it is as it was' "$bench/images/a.img" "$work/unfit-a"
finish
