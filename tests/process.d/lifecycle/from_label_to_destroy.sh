# Mirrors that are made, grow and end, with each option.
. "$helpers/bench.sh"

# ---- what commands are answered, and what they leave

# A mirror from beginning to end in one batch.
fresh_bench commands
at_bench status
expect 'a status before any command' 0 'no mirrors' ''
at_bench list
expect 'a list before any command' 0 'no mirrors' ''
batch "${label}${insert}k3 remove gm0 b.img\nk4 destroy gm0\n${insert}k5 destroy gm0\n"
expect 'a mirror comes and goes in one batch' 1 "$(lines \
    'k1 ok 1\nk2 ok 2\nk3 ok 3\nk4 ok 4\nk2 repeated 2\nk5 refused 5')" ''
expect_images 'it leaves bare sectors' bare bare
at_bench status
expect 'a status behind that batch' 0 'no mirrors' ''
at_bench list
expect 'a list behind that batch' 0 'no mirrors' ''

# What an insertion added is taken away, and what is shown of the mirror is what was shown before.
fresh_bench removed
batch "$label$insert"
run dump --shelf "$bench/images" a.img
expect 'a dump of the first of two' 0 "$said" ''
run dump --shelf "$bench/images" b.img
expect 'a dump of the second of two' 0 "$(dumped 2 2 SYNCHRONIZING be5271165f1a7a14a9e895ab15f9552c)" ''
batch 'k3 remove gm0 b.img\n'
expect 'the second is removed' 0 'k3 ok 3' ''
at_bench status
expect 'a status behind a removal' 0 "$of_one" ''
at_bench list
expect 'a list behind a removal' 0 "$list_of_one" ''
run dump --shelf "$bench/images" a.img
expect 'a dump behind a removal' 0 "$said_by_one" ''
run dump --shelf "$bench/images" b.img
expect 'a dump of what was removed' 1 'fault 1' ''

# An image has two sectors at least.
fresh_bench small
head -c 512 /dev/zero >"$bench/images/one.img"
head -c 1024 /dev/zero >"$bench/images/two.img"
head -c 512 /dev/zero >"$work/wanted-one"
batch 'k1 label --mid 8 --did 1 gm1 one.img\nk1 label --mid 8 --did 1 gm1 two.img\n'
expect 'an image of one sector, and one of two' 1 "$(lines 'k1 refused 28\nk1 ok 1')" ''
expect_same 'the image of one sector is left' "$bench/images/one.img" "$work/wanted-one"
run dump --shelf "$bench/images" two.img
expect 'a dump of two sectors' 0 "$(dumped 1 1 NONE dacf9069338c5122178fee54211e616e | sed '
    s/^name: .*/name: gm1/
    s/^mid: .*/mid: 8/
    s/^mediasize: .*/mediasize: 512/
    s/^provsize: .*/provsize: 1024/')" ''
at_bench status
expect 'a status of two sectors' 0 "$(lines 'gm1             COMPLETE 1/1\n  two.img         ACTIVE')" ''

# Each option of a label and an insertion, with a value that isn't the one it has unless it is given.
fresh_bench options
given='--balance round-robin --slice 1 --autosync off --failsync off --hardcode on'
batch "k1 label --mid 4294967295 --did 0 $given gm0 a.img
k2 insert --did 4294967295 --priority 255 --hardcode on gm0 b.img
"
expect 'each option is taken' 0 "$(lines 'k1 ok 1\nk2 ok 2')" ''
at_bench list
expect 'a list of each option' 0 'Mirror: gm0
State: DEGRADED
Mid: 4294967295
All: 2
Genid: 0
Syncid: 1
Balance: round-robin
Slice: 1
Flags: NOAUTOSYNC,NOFAILSYNC
Mediasize: 1536
Components: 2
- a.img
  State: ACTIVE
  Did: 0
  Priority: 0
  Syncid: 1
  Flags: NONE
  Offset: 0
  Provsize: 2048
  Hardcoded: yes
- b.img
  State: STALE
  Did: 4294967295
  Priority: 255
  Syncid: 1
  Flags: SYNCHRONIZING
  Offset: 0
  Provsize: 2048
  Hardcoded: yes' ''
finish
