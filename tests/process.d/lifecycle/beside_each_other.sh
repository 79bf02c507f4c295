# Several mirrors, which keep apart.
. "$helpers/lists.sh"
. "$helpers/records.sh"

# ---- mirrors beside each other, which stand in order of their names and keep apart

fresh_bench neighbours
put_image "$bench/images/aa.img" d bare
put_image "$bench/images/c.img" c bare
put_told e.img 3 x name=gm5
batch 'k1 label --mid 8 --did 1 gm1 c.img\nk2 label --mid 7 --did 1 gm0 b.img\n'
expect 'a mirror that is made behind another' 0 "$(lines 'k1 ok 1\nk2 ok 2')" ''
expect_step 'it stands before it, and so do its components' 'k3 insert --did 2 gm0 a.img' 'k3 ok 3' 'a.img b.img' <<'END'
gm0 DEGRADED 7 2 0 1 load 4096 NONE 1536
a.img SYNCHRONIZING 2 0 1 SYNCHRONIZING 0 2048 no
b.img ACTIVE 1 0 1 NONE 0 2048 no
gm1 COMPLETE 8 1 0 1 load 4096 NONE 1536
c.img ACTIVE 1 0 1 NONE 0 2048 no
END
expect_step 'one is made between them' 'k4 label --mid 9 --did 1 gm00 aa.img' 'k4 ok 4' 'aa.img' <<'END'
gm0 DEGRADED 7 2 0 1 load 4096 NONE 1536
a.img SYNCHRONIZING 2 0 1 SYNCHRONIZING 0 2048 no
b.img ACTIVE 1 0 1 NONE 0 2048 no
gm00 COMPLETE 9 1 0 1 load 4096 NONE 1536
aa.img ACTIVE 1 0 1 NONE 0 2048 no
gm1 COMPLETE 8 1 0 1 load 4096 NONE 1536
c.img ACTIVE 1 0 1 NONE 0 2048 no
END
keep_bench
expect_list 'a component of one is none of another' 1 <<'END'
k5 insert --did 9 gm0 c.img|k5 refused 9
k5 label --mid 10 --did 1 gm2 c.img|k5 refused 9
k5 clear c.img|k5 refused 9
k5 remove gm0 c.img|k5 refused 12
k5 deactivate gm1 a.img|k5 refused 12
k5 rebuild gm00 a.img|k5 refused 12
k5 configure --prov aa.img --priority 1 gm1|k5 refused 12
k5 lost gm0 a.img c.img|k5 refused 12
k5 advance gm1 a.img|k5 refused 12
k5 label --mid 9 --did 1 gm2 a.img|k5 refused 7
END
expect_kept 'what is refused there changes no byte'
expect_step 'a component of one is taken out' 'k5 remove gm0 a.img' 'k5 ok 5' 'a.img b.img' <<'END'
gm0 COMPLETE 7 1 0 1 load 4096 NONE 1536
b.img ACTIVE 1 0 1 NONE 0 2048 no
gm00 COMPLETE 9 1 0 1 load 4096 NONE 1536
aa.img ACTIVE 1 0 1 NONE 0 2048 no
gm1 COMPLETE 8 1 0 1 load 4096 NONE 1536
c.img ACTIVE 1 0 1 NONE 0 2048 no
END
expect_step 'one is dropped' 'k6 destroy gm00' 'k6 ok 6' 'aa.img' <<'END'
gm0 COMPLETE 7 1 0 1 load 4096 NONE 1536
b.img ACTIVE 1 0 1 NONE 0 2048 no
gm1 COMPLETE 8 1 0 1 load 4096 NONE 1536
c.img ACTIVE 1 0 1 NONE 0 2048 no
END
expect_step 'an image of none is cleared' 'k7 clear e.img' 'k7 ok 7' 'e.img' <<'END'
gm0 COMPLETE 7 1 0 1 load 4096 NONE 1536
b.img ACTIVE 1 0 1 NONE 0 2048 no
gm1 COMPLETE 8 1 0 1 load 4096 NONE 1536
c.img ACTIVE 1 0 1 NONE 0 2048 no
END
finish
