# How many mirrors and components there may be, and how long an image.
. "$helpers/lists.sh"
. "$helpers/records.sh"

# ---- how many mirrors and components there may be, and how long an image

fresh_bench limits
for n in $(seq 1 65); do
    put_image "$bench/images/n$n.img" n bare
    echo "k$n label --mid $n --did 1 m$n n$n.img|k$n ok $n"
done | sed 's/^k65 \(.*\)|.*/k65 \1|k65 refused 15/' >"$work/labels"
{
    cat "$work/labels"
    cat <<'END'
k65 label --mid 65 --did 1 m1 n65.img|k65 refused 6
k65 label --mid 64 --did 1 m65 n65.img|k65 refused 7
k65 insert --did 2 m64 n65.img|k65 ok 65
k66 destroy m1|k66 ok 66
k67 label --mid 65 --did 1 m65 n1.img|k67 ok 67
END
} >"$work/labels-and-more"
expect_list 'there are sixty-four mirrors, and no more' 1 <"$work/labels-and-more"

# One of sixteen components, and one of fifteen.
fresh_bench seventeen
others=
for n in 02 03 04 05 06 07 08 09 10 11 12 13 14 15 16; do
    put_told "c$n.img" 3 x all=16 did="${n#0}"
    others="$others c$n.img"
done
put_told a.img 3 x all=16 did=1
batch "k1 adopt gm0 a.img$others\n"
expect 'a mirror of sixteen' 0 'k1 ok 1' ''
expect_list 'there are sixteen components, and no more' 1 <<'END'
k2 insert --did 99 gm0 b.img|k2 refused 14
k2 insert --did 1 gm0 b.img|k2 refused 13
k2 remove gm0 c02.img|k2 ok 2
k3 insert --did 99 gm0 b.img|k3 ok 3
k4 insert --did 98 gm0 c02.img|k4 refused 14
END

# Sixteen are counted, of which one is lost.
rm "$bench/images/b.img"
expect_list 'one that is lost is counted' 1 <<'END'
k4 lost gm0 b.img|k4 ok 4
k5 insert --did 99 gm0 c02.img|k5 refused 14
k5 forget gm0|k5 ok 5
k6 insert --did 99 gm0 c02.img|k6 ok 6
END

# There is room for 100,000 commands. One that was accepted before is answered still.
if command -v sqlite3 >/dev/null; then
    fresh_bench commands
    batch "$label"
    put_accepted 1 99999
    expect_list 'there is room for 100,000 commands, and no more' 1 <<'END'
k2 insert --did 2 gm0 b.img|k2 ok 100000
k3 advance gm0 b.img|k3 refused 4
k/3 advance gm0 b.img|? refused 2
k1 destroy gm0|k1 refused 3
k3 destroy gm9|k3 refused 4
k2 insert --did 2 gm0 b.img|k2 repeated 100000
n99999 forget gm9|n99999 repeated 99999
END
else
    skip 'a registry of 100,000 commands' 'there is no sqlite3'
fi

# Images of one sector more than there may be, of just as many, and of one. Some carry metadata as well.
put_sized() {
    rm -f "$bench/images/$1"
    dd if="$3" of="$bench/images/$1" bs=512 seek=$(($2 - 1)) 2>/dev/null
}
fresh_bench lengths-of-images
told_sector did=2 provsize=0 >"$work/sector"
head -c 512 /dev/zero >"$work/bare-sector"
put_sized long.img 1048577 "$work/bare-sector"
put_sized long-told.img 1048577 "$work/sector"
put_sized longest.img 1048576 "$work/bare-sector"
put_sized one.img 1 "$work/bare-sector"
put_sized one-told.img 1 "$work/sector"
batch "$label"
expect 'a mirror beside images of all lengths' 0 'k1 ok 1' ''
cp "$registry" "$work/kept-registry"
touch -t 200001010000 "$work/before" "$bench/images/"*
expect_list 'an image that is too long or too short is refused' 1 <<'END'
k2 label --mid 8 --did 1 gm1 long.img|k2 refused 28
k2 label --mid 8 --did 1 gm1 one.img|k2 refused 28
k2 label --mid 8 --did 1 gm1 long-told.img|k2 refused 10
k2 label --mid 8 --did 1 gm1 one-told.img|k2 refused 10
k2 insert --did 2 gm0 long.img|k2 refused 28
k2 insert --did 2 gm0 long-told.img|k2 refused 10
k2 insert --did 2 gm0 one.img|k2 refused 11
k2 clear long.img|k2 refused 28
k2 clear long-told.img|k2 refused 28
k2 clear one.img|k2 refused 28
k2 clear one-told.img|k2 refused 28
END
find "$bench/images" -type f -newer "$work/before" >"$work/written"
expect_same 'no image is written then' "$work/written" /dev/null
expect_same 'nor is the registry' "$registry" "$work/kept-registry"
batch 'k2 label --mid 8 --did 1 gm1 longest.img\nk3 destroy gm0\nk4 adopt gm0 long-told.img\n'
expect 'the longest image is taken' 1 "$(lines 'k2 ok 2\nk3 ok 3\nk4 refused 28')" ''
expect_records 'the record of the longest' <<'END'
gm1 COMPLETE 8 1 0 1 load 4096 NONE 536870400
longest.img ACTIVE 1 0 1 NONE 0 536870912 no
END
rm -f "$bench/images/long"*
finish
