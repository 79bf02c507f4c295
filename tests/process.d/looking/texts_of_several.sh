# What status, list and taste print of several mirrors.
. "$helpers/bench.sh"

# ---- what status and list print of two mirrors

# fifteen-letters is adopted: c.img is hardcoded, and has the first two of three sectors, which are those of b.img.
fresh_bench two-mirrors
images=$bench/images
put_edited "$images/b.img" d 20 fifteen-letters 36 '\010' 40 '\377\377\377\377' 44 '\002' 79 '\003'
put_edited "$images/c.img" d 20 fifteen-letters 36 '\010' 40 '\011' 44 '\002' 53 '\377' 71 '\000\004' 79 '\003' \
    87 '\006' 95 c.img
batch "${label}k2 adopt fifteen-letters b.img c.img\n"
expect 'a mirror is made beside one that is adopted' 0 "$(lines 'k1 ok 1\nk2 ok 2')" ''
at_bench status
expect 'a status of both' 0 'fifteen-letters DEGRADED 1/2
  b.img           ACTIVE
  c.img           SYNCHRONIZING 2 of 3
gm0             COMPLETE 1/1
  a.img           ACTIVE' ''
at_bench list
expect 'a list of both' 0 "Mirror: fifteen-letters
State: DEGRADED
Mid: 8
All: 2
Genid: 0
Syncid: 1
Balance: load
Slice: 4096
Flags: NOAUTOSYNC,NOFAILSYNC
Mediasize: 1536
Components: 2
- b.img
  State: ACTIVE
  Did: 4294967295
  Priority: 0
  Syncid: 1
  Flags: NONE
  Offset: 0
  Provsize: 2048
  Hardcoded: no
- c.img
  State: SYNCHRONIZING
  Did: 9
  Priority: 255
  Syncid: 1
  Flags: SYNCHRONIZING,FORCE_SYNC
  Offset: 1024
  Provsize: 2048
  Hardcoded: yes

$list_of_one" ''

# ---- what a list says of each value of a label

# A block of a mirror that was labelled: its name, mid, balance, slice and flags, and of its component the name, the did
# and whether it was hardcoded.
labelled() {
    whole_lines "$list_of_one" | sed "
        s/^Mirror: .*/Mirror: $1/
        s/^Mid: .*/Mid: $2/
        s/^Balance: .*/Balance: $3/
        s/^Slice: .*/Slice: $4/
        s/^Flags: .*/Flags: $5/
        s/^- .*/- $6/
        s/^  Did: .*/  Did: $7/
        s/^  Hardcoded: .*/  Hardcoded: $8/"
}

fresh_bench values
put_image "$bench/images/A_1" A bare
put_image "$bench/images/gm0" g bare
batch 'k1 label --mid 0 --did 4294967295 --balance prefer --slice 1 --autosync off --failsync on gm0 a.img
k2 label --mid 4294967295 --did 0 --balance round-robin --slice 4294967295 --failsync off fifteen-letters A_1
k3 label --mid 1 --did 2 --balance split --slice 512 --autosync off --failsync off --hardcode on a.img gm0
k4 label --mid 7 --did 1 --balance load --slice 4096 --autosync on --failsync on --hardcode off b.img b.img
'
expect 'labels of many values' 0 "$(lines 'k1 ok 1\nk2 ok 2\nk3 ok 3\nk4 ok 4')" ''
at_bench list
expect 'a list has a block for each, with an empty line between' 0 "$(
    labelled a.img 1 split 512 NOAUTOSYNC,NOFAILSYNC gm0 2 yes
    echo
    labelled b.img 7 load 4096 NONE b.img 1 no
    echo
    labelled fifteen-letters 4294967295 round-robin 4294967295 NOFAILSYNC A_1 0 no
    echo
    labelled gm0 0 prefer 1 NOAUTOSYNC a.img 4294967295 no
)" ''

# ---- names in byte order

fresh_bench byte-order
for name in - 0 A Z _ a a. aa b; do
    put_image "$bench/images/$name" x bare
done
put_image "$bench/images/c.img" c bare
batch 'k1 label --mid 1 --did 1 aa aa\nk2 label --mid 2 --did 1 _ _\nk3 label --mid 3 --did 1 0 0
k4 label --mid 4 --did 1 b b\nk5 label --mid 5 --did 1 . c.img\nk6 label --mid 6 --did 1 Z Z
k7 label --mid 7 --did 1 a a\nk8 label --mid 8 --did 1 - -\nk9 label --mid 9 --did 1 a. a.
k10 label --mid 10 --did 1 A A\n'
expect 'names of each kind of character' 0 "$(for n in 1 2 3 4 5 6 7 8 9 10; do echo "k$n ok $n"; done)" ''
at_bench status
grep -v '^ ' "$work/output" | sed 's/ .*//' | tr '\n' ' ' >"$work/names"
printf '%s ' - . 0 A Z _ a a. aa b >"$work/wanted-names"
expect_same 'mirrors stand in byte order of their names' "$work/names" "$work/wanted-names"
batch 'd1 destroy -\nd2 destroy 0\nd3 destroy A\nd4 destroy Z\nd5 destroy _\nd6 destroy a\nd7 destroy a.\nd8 destroy aa
i1 insert --did 2 b aa\ni2 insert --did 3 b -\ni3 insert --did 4 b a.\ni4 insert --did 5 b Z\ni5 insert --did 6 b 0
i6 insert --did 7 b a\ni7 insert --did 8 b _\ni8 insert --did 9 b A\n'
expect 'components of such names' 0 "$(
    n=10
    for key in d1 d2 d3 d4 d5 d6 d7 d8 i1 i2 i3 i4 i5 i6 i7 i8; do
        n=$((n + 1))
        echo "$key ok $n"
    done
)" ''
at_bench status
grep SYNC "$work/output" | sed 's/^  //; s/ .*//' | tr '\n' ' ' >"$work/names"
printf '%s ' - 0 A Z _ a a. aa >"$work/wanted-names"
expect_same 'components stand in byte order of their names' "$work/names" "$work/wanted-names"

# ---- all that a taste prints at once

# The greatest numbers and the longest names, each state of an image, those that say DIRTY, each way to be left out, and what
# is no image.
images=$work/tasted-at-once
mkdir "$images"
set -- 20 fifteen-letters 36 '\377\377\377\377' 49 '\000'
put_edited "$images/a.img" a "$@" 53 '\011'
put_edited "$images/fifteen-letter2" f "$@" 45 '\001' 53 '\011' 87 '\011'
put_edited "$images/z" z "$@" 45 '\001' 53 '\011' 59 '\000\000' 71 '\377\377\377\377\377\377\377\377' \
    79 '\001' 87 '\002'
put_edited "$images/b.img" b 45 '\002'
put_edited "$images/c.img" c 45 '\002' 53 '\003' 87 '\001'
put_edited "$images/d.img" d 45 '\002' 53 '\310' 71 '\000\004' 87 '\003'
put_image "$images/e.img" e bare
put_edited "$images/f.img" f 16 '\005'
put_edited "$images/g.img" g 68 '\004'
put_edited "$images/h.img" h 95 a.img
put_edited "$images/i.img" i 111 '\000\004'
put_edited "$images/j.img" j 20 gm1 87 '\001'
put_edited "$images/k.img" k 20 gm1 40 '\002' 87 '\001'
put_image "$images/two words" t bare
run taste --shelf "$images"
expect 'a taste of each state, and of each way to be left out' 1 "fifteen-letters mid 4294967295 genid 1 syncid 0
  a.img           BROKEN
  fifteen-letter2 INACTIVE DIRTY
  z               STALE 36028797018963967 of 0
  source: (none)
gm0             mid 7 genid 2 syncid 1
  b.img           ACTIVE
  c.img           ACTIVE DIRTY
  d.img           SYNCHRONIZING 2 of 3 DIRTY
  source: c.img
gm1             mid 7 genid 0 syncid 1
  j.img           ACTIVE DIRTY
  k.img           ACTIVE DIRTY
  source: j.img, but none is sure: each ACTIVE one is DIRTY
left out:
  e.img           no metadata
  f.img           fault 2
  g.img           fault 8
  h.img           names another image
  i.img           tells another size
passed over:
  'two words'     name with other characters" ''
set --
finish
