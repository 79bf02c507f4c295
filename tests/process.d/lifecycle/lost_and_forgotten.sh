# Components that are lost, away or there, and that are forgotten.
. "$helpers/lists.sh"
. "$helpers/records.sh"

# ---- components that are lost

fresh_bench lost
batch "$label$insert"
mv "$bench/images/b.img" "$bench/b.img"
batch 'k3 forget gm0
k3 lost gm0 b.img b.img
k3 lost gm0 a.img b.img
k3 lost gm0 a.img
k3 lost gm1 b.img
k3 lost gm0
k3 lost gm0 b.img c.img
'
expect 'a loss that is refused' 1 "$(lines 'k3 refused 8\nk3 refused 12\nk3 refused 17\nk3 refused 8\nk3 refused 5\nk3 refused 1
k3 refused 12')" ''
batch 'k3 lost gm0 b.img\nk3 lost gm0 b.img\nk4 lost gm0 b.img\n'
expect 'an image that is away is lost' 1 "$(lines 'k3 ok 3\nk3 repeated 3\nk4 refused 12')" ''
at_bench status
expect 'a status behind a loss' 0 "$(lines 'gm0             DEGRADED 1/2\n  a.img           ACTIVE')" ''
run dump --shelf "$bench/images" a.img
expect 'a dump behind a loss' 0 "$(dumped 1 2 NONE 699c01bf5ecc50a843ff5246fd1830bf | sed 's/^genid: .*/genid: 1/')" ''
mv "$bench/b.img" "$bench/images/b.img"
put_image "$work/wanted-b" b pending-b
expect_same 'the lost image is as it was' "$bench/images/b.img" "$work/wanted-b"
batch 'k5 remove gm0 a.img\nk5 forget gm0\nk6 forget gm0\nk6 remove gm0 a.img\n'
expect 'a loss is forgotten once' 1 "$(lines 'k5 refused 16\nk5 ok 4\nk6 refused 20\nk6 refused 17')" ''
run dump --shelf "$bench/images" a.img
expect 'a dump behind it' 0 "$(dumped 1 1 NONE 623e5012cb4b200392f8e074ffae1313 | sed 's/^genid: .*/genid: 1/')" ''
expect_same 'the lost image still is as it was' "$bench/images/b.img" "$work/wanted-b"
batch 'k7 insert --did 2 gm0 b.img\nk7 clear b.img\nk8 insert --did 2 gm0 b.img\n'
expect 'a lost image is cleared and comes back' 1 "$(lines 'k7 refused 10\nk7 ok 5\nk8 ok 6')" ''
at_bench status
expect 'a status of it as it comes back' 0 "$of_two" ''

# ---- components of several that are lost, while their images are there

put_three losing 3
expect_step 'one that is lost is left untouched' 'k2 lost gm0 b.img' 'k2 ok 2' 'a.img c.img' <<'END'
gm0 DEGRADED 7 3 1 5 load 4096 NONE 1536
a.img ACTIVE 1 0 5 NONE 0 2048 no
c.img SYNCHRONIZING 3 0 5 SYNCHRONIZING 1024 2048 no
END
expect_list 'nothing is added or taken out while one is lost' 1 <<'END'
k3 insert --did 9 gm0 d.img|k3 refused 16
k3 remove gm0 c.img|k3 refused 16
k3 remove gm0 a.img|k3 refused 16
END
expect_step 'another loss counts again' 'k3 lost gm0 c.img' 'k3 ok 3' 'a.img' <<'END'
gm0 DEGRADED 7 3 2 5 load 4096 NONE 1536
a.img ACTIVE 1 0 5 NONE 0 2048 no
END
put_back
expect_step 'several that are lost at once count once' 'k2 lost gm0 c.img b.img' 'k2 ok 2' 'a.img' <<'END'
gm0 DEGRADED 7 3 1 5 load 4096 NONE 1536
a.img ACTIVE 1 0 5 NONE 0 2048 no
END
put_back
expect_list 'what is no component, or the last ACTIVE one, is not lost' 1 <<'END'
k2 lost gm1 b.img|k2 refused 5
k2 lost gm0 d.img|k2 refused 12
k2 lost gm0 e.img|k2 refused 12
k2 lost gm0 b.img b.img|k2 refused 12
k2 lost gm0 b.img a.img|k2 refused 17
END
expect_kept 'a loss that is refused changes no byte'

# The greatest genid is reached, and not passed.
fresh_bench last-genid
put_told a.img 3 x all=3 did=1 genid=4294967294
put_told b.img 3 x all=3 did=2 genid=4294967294
put_told c.img 3 x all=3 did=3 genid=4294967294
batch 'k1 adopt gm0 a.img b.img c.img\n'
expect 'a mirror whose genid may rise once more' 0 'k1 ok 1' ''
expect_list 'a genid rises to the greatest number, and no more' 1 <<'END'
k2 lost gm0 c.img|k2 ok 2
k3 lost gm0 b.img|k3 refused 24
k3 lost gm0 a.img b.img|k3 refused 17
END
expect_records 'the records of the greatest genid' <<'END'
gm0 DEGRADED 7 3 4294967295 1 load 4096 NONE 1536
a.img ACTIVE 1 0 1 NONE 0 2048 no
b.img ACTIVE 2 0 1 NONE 0 2048 no
END
finish
