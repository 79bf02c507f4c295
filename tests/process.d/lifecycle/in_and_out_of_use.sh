# Components that go out of use, come back, and are filled anew.
. "$helpers/lists.sh"
. "$helpers/records.sh"

# ---- components that are taken out of use, and that are to be filled anew

fresh_bench out-of-use
put_image "$bench/images/c.img" c bare
batch "$label"
batch 'k2 deactivate gm0 a.img\n'
expect 'an only component stays in use' 1 'k2 refused 17' ''
batch "$insert"
expect 'a component beside it' 0 'k2 ok 2' ''
batch 'k3 deactivate gm0 b.img\n'
expect 'that one goes out of use' 0 'k3 ok 3' ''
at_bench status
expect 'a status while it is out of use' 0 "$(lines \
    'gm0             DEGRADED 1/2\n  a.img           ACTIVE\n  b.img           INACTIVE')" ''
batch 'k4 deactivate gm0 b.img
k4 deactivate gm0 a.img
k4 rebuild gm0 b.img
k4 activate gm0 a.img
k4 activate gm0 c.img
k4 activate gm0 b.img
'
expect 'what is refused while it is out of use, and what takes it back' 1 "$(lines \
    'k4 refused 18\nk4 refused 17\nk4 refused 21\nk4 refused 19\nk4 refused 12\nk4 ok 4')" ''
at_bench status
expect 'a status once it is back' 0 "$of_two" ''

# A mirror that doesn't fill its components by itself.
fresh_bench by-hand
batch "k1 label --mid 7 --did 1 --autosync off gm0 a.img\n$insert"
expect 'a mirror that is filled by hand' 0 "$(lines 'k1 ok 1\nk2 ok 2')" ''
at_bench status
expect 'a status of a component that waits' 0 "$(lines \
    'gm0             DEGRADED 1/2\n  a.img           ACTIVE\n  b.img           STALE 0 of 3')" ''
batch 'k3 rebuild gm0 a.img\nk3 forget gm0\nk3 rebuild gm0 b.img\n'
expect 'a component that waits is rebuilt alone' 1 "$(lines 'k3 refused 17\nk3 refused 20\nk3 ok 3')" ''
at_bench status
expect 'a status while that one is filled' 0 "$of_two" ''

# ---- components of several that go out of use, come back, and are filled anew

put_three keeping 3
expect_records 'three components in different states' <<'END'
gm0 DEGRADED 7 3 0 5 load 4096 NONE 1536
a.img ACTIVE 1 0 5 NONE 0 2048 no
b.img INACTIVE 2 0 4 INACTIVE 0 2048 no
c.img SYNCHRONIZING 3 0 5 SYNCHRONIZING 1024 2048 no
END
expect_step 'one that goes out of use keeps its syncid, and those in use go ahead' \
    'k2 deactivate gm0 c.img' 'k2 ok 2' 'a.img b.img c.img' <<'END'
gm0 DEGRADED 7 3 0 6 load 4096 NONE 1536
a.img ACTIVE 1 0 6 NONE 0 2048 no
b.img INACTIVE 2 0 4 INACTIVE 0 2048 no
c.img INACTIVE 3 0 5 INACTIVE 0 2048 no
END
put_back
expect_step 'one that comes back has the syncid of the mirror, and nothing of its data' \
    'k2 activate gm0 b.img' 'k2 ok 2' 'b.img' <<'END'
gm0 DEGRADED 7 3 0 5 load 4096 NONE 1536
a.img ACTIVE 1 0 5 NONE 0 2048 no
b.img SYNCHRONIZING 2 0 5 SYNCHRONIZING 0 2048 no
c.img SYNCHRONIZING 3 0 5 SYNCHRONIZING 1024 2048 no
END
put_back
expect_step 'one that is rebuilt begins anew' 'k2 rebuild gm0 c.img' 'k2 ok 2' 'c.img' <<'END'
gm0 DEGRADED 7 3 0 5 load 4096 NONE 1536
a.img ACTIVE 1 0 5 NONE 0 2048 no
b.img INACTIVE 2 0 4 INACTIVE 0 2048 no
c.img SYNCHRONIZING 3 0 5 SYNCHRONIZING,FORCE_SYNC 0 2048 no
END

put_back
expect_list 'what is no component, or in no such state, is refused' 1 <<'END'
k2 deactivate gm1 a.img|k2 refused 5
k2 deactivate gm0 d.img|k2 refused 12
k2 deactivate gm0 a.img|k2 refused 17
k2 deactivate gm0 b.img|k2 refused 18
k2 activate gm1 b.img|k2 refused 5
k2 activate gm0 d.img|k2 refused 12
k2 activate gm0 a.img|k2 refused 19
k2 activate gm0 c.img|k2 refused 19
k2 forget gm1|k2 refused 5
k2 forget gm0|k2 refused 20
k2 rebuild gm1 c.img|k2 refused 5
k2 rebuild gm0 d.img|k2 refused 12
k2 rebuild gm0 a.img|k2 refused 17
k2 rebuild gm0 b.img|k2 refused 21
k2 advance gm1 c.img|k2 refused 5
k2 advance gm0 e.img|k2 refused 8
k2 advance gm0 d.img|k2 refused 12
k2 advance gm0 b.img|k2 refused 21
k2 advance gm0 a.img|k2 refused 22
END
expect_kept 'what is refused of them changes no byte'

# Two components that were lost are counted until they are forgotten.
put_three counting 5
expect_step 'as many are counted as are registered' 'k2 forget gm0' 'k2 ok 2' 'a.img b.img c.img' <<'END'
gm0 DEGRADED 7 3 0 5 load 4096 NONE 1536
a.img ACTIVE 1 0 5 NONE 0 2048 no
b.img INACTIVE 2 0 4 INACTIVE 0 2048 no
c.img SYNCHRONIZING 3 0 5 SYNCHRONIZING 1024 2048 no
END

# The greatest syncid is reached, and not passed.
fresh_bench last-syncid
put_told a.img 3 x did=1 syncid=4294967294
put_told b.img 3 x did=2 syncid=4294967294
batch 'k1 adopt gm0 a.img b.img\n'
expect 'a mirror whose syncid may rise once more' 0 'k1 ok 1' ''
expect_list 'a syncid rises to the greatest number, and no more' 1 <<'END'
k2 deactivate gm0 b.img|k2 ok 2
k3 activate gm0 b.img|k3 ok 3
k4 advance gm0 b.img|k4 ok 4 copied 3 of 3
k5 deactivate gm0 b.img|k5 refused 23
k5 deactivate gm0 a.img|k5 refused 23
END
expect_records 'the records of the greatest syncid' <<'END'
gm0 COMPLETE 7 2 0 4294967295 load 4096 NONE 1536
a.img ACTIVE 1 0 4294967295 NONE 0 2048 no
b.img ACTIVE 2 0 4294967295 NONE 0 2048 no
END
finish
