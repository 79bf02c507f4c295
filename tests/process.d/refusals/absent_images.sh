# Mirrors of which an image is away, or has another size.
. "$helpers/lists.sh"
. "$helpers/records.sh"

# ---- a mirror of which an image is away, or has another size than is registered

# The commands that wait for such an image, of which many are refused for a greater number as well.
cat >"$work/waiting-lines" <<'END'
k2 insert --did 9 gm0 d.img|k2 refused 8
k2 insert --did 1 gm0 d.img|k2 refused 8
k2 remove gm0 a.img|k2 refused 8
k2 remove gm0 b.img|k2 refused 8
k2 deactivate gm0 a.img|k2 refused 8
k2 deactivate gm0 c.img|k2 refused 8
k2 activate gm0 a.img|k2 refused 8
k2 activate gm0 b.img|k2 refused 8
k2 forget gm0|k2 refused 8
k2 rebuild gm0 a.img|k2 refused 8
k2 rebuild gm0 c.img|k2 refused 8
k2 configure --prov a.img --priority 1 gm0|k2 refused 8
k2 configure --balance prefer gm0|k2 refused 8
k2 configure gm0|k2 refused 8
k2 destroy gm0|k2 refused 8
k2 lost gm0 b.img|k2 refused 8
k2 advance gm0 a.img|k2 refused 8
k2 advance gm0 c.img|k2 refused 8
k2 remove gm1 a.img|k2 refused 5
k2 insert --did 9 gm0 a.img|k2 refused 8
END

put_three absent 3
for image in a.img c.img; do
    mv "$bench/images/$image" "$bench/$image"
    expect_list "commands wait while $image is away" 1 <"$work/waiting-lines"
    {
        cat "$bench/$image"
        tail -c 512 "$bench/$image"
    } >"$bench/images/$image"
    expect_list "commands wait while $image is longer" 1 <"$work/waiting-lines"
    tail -c 1536 "$bench/$image" >"$bench/images/$image"
    expect_list "commands wait while $image is shorter" 1 <"$work/waiting-lines"
    mv "$bench/$image" "$bench/images/$image"
    expect_kept "what waits for $image changes no byte"
done

# Of a component that is lost the size doesn't matter, nor of one of another mirror.
tail -c 1536 "$work/kept-images/c.img" >"$bench/images/c.img"
batch 'k2 label --mid 8 --did 1 gm1 d.img\nk3 destroy gm1\n'
expect 'another mirror does not wait' 0 "$(lines 'k2 ok 2\nk3 ok 3')" ''
expect_step 'a component of another size is lost' 'k4 lost gm0 c.img' 'k4 ok 4' 'a.img b.img' <<'END'
gm0 DEGRADED 7 3 1 5 load 4096 NONE 1536
a.img ACTIVE 1 0 5 NONE 0 2048 no
b.img INACTIVE 2 0 4 INACTIVE 0 2048 no
END
finish
