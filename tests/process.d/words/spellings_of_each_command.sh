# Other words of the same command, for each command and option; names that begin with a hyphen.
. "$helpers/lists.sh"

# ---- the words of each command, spelled in other ways

# A batch in which each command is carried out, by its canonical words; a second one, which spells them again.
fresh_bench every-command
put_image "$bench/images/c.img" c bare
put_image "$bench/images/d.img" d bare
digits=$(head -c 1024 /dev/zero | tr '\0' 7)
expect_list 'the canonical words of each command' 0 <<END
k1 label --mid 7 --did 1 --balance load --slice 4096 --autosync on --failsync on --hardcode off gm0 a.img|k1 ok 1
k2 insert --did 2 --priority 0 --hardcode off gm0 b.img|k2 ok 2
k3 advance gm0 b.img|k3 ok 3 copied 3 of 3
k4 deactivate gm0 b.img|k4 ok 4
k5 activate gm0 b.img|k5 ok 5
k6 rebuild gm0 b.img|k6 ok 6
k7 remove gm0 b.img|k7 ok 7
k8 insert --did 2 --priority 0 --hardcode off gm0 b.img|k8 ok 8
k9 advance gm0 b.img|k9 ok 9 copied 3 of 3
k10 insert --did 3 --priority 255 --hardcode on gm0 c.img|k10 ok 10
k11 insert --did 4294967295 --priority 1 --hardcode off gm0 d.img|k11 ok 11
k12 lost gm0 c.img b.img d.img|k12 ok 12
k13 forget gm0|k13 ok 13
k14 clear d.img|k14 ok 14
k15 destroy gm0|k15 ok 15
k16 adopt gm0 c.img b.img|k16 ok 16
k17 advance gm0 c.img|k17 ok 17 copied 3 of 3
k18 patch --first 2 --data $digits gm0|k18 ok 18
END
keep_bench
expect_list 'other words of each command' 0 <<END
k1 label --mid 7 --did 1 gm0 a.img --|k1 repeated 1
k1 label gm0 --did 1 a.img --mid 7 --slice 4096|k1 repeated 1
k1 label --mid=7 --did=1 --balance=load gm0 a.img|k1 repeated 1
k1 label --mid +7 --did 001 --slice +04096 gm0 a.img|k1 repeated 1
k2 insert --did 2 gm0 b.img|k2 repeated 2
k2 insert gm0 --priority=+0 b.img --did 2|k2 repeated 2
k2 insert --hardcode=off --did=2 -- gm0 b.img|k2 repeated 2
k3 advance -- gm0 b.img|k3 repeated 3
k3 advance gm0 -- b.img|k3 repeated 3
k3 advance gm0 b.img --|k3 repeated 3
k4 deactivate -- gm0 b.img|k4 repeated 4
k4 deactivate gm0 -- b.img|k4 repeated 4
k4 deactivate gm0 b.img --|k4 repeated 4
k5 activate -- gm0 b.img|k5 repeated 5
k5 activate gm0 -- b.img|k5 repeated 5
k5 activate gm0 b.img --|k5 repeated 5
k6 rebuild -- gm0 b.img|k6 repeated 6
k6 rebuild gm0 -- b.img|k6 repeated 6
k6 rebuild gm0 b.img --|k6 repeated 6
k7 remove -- gm0 b.img|k7 repeated 7
k7 remove gm0 -- b.img|k7 repeated 7
k7 remove gm0 b.img --|k7 repeated 7
k10 insert gm0 c.img --hardcode on --priority 0255 --did +3|k10 repeated 10
k11 insert gm0 --did 4294967295 d.img --priority=1|k11 repeated 11
k12 lost -- gm0 c.img b.img d.img|k12 repeated 12
k12 lost gm0 -- c.img b.img d.img|k12 repeated 12
k12 lost gm0 c.img -- b.img d.img|k12 repeated 12
k12 lost gm0 c.img b.img d.img --|k12 repeated 12
k13 forget -- gm0|k13 repeated 13
k13 forget gm0 --|k13 repeated 13
k14 clear -- d.img|k14 repeated 14
k14 clear d.img --|k14 repeated 14
k15 destroy -- gm0|k15 repeated 15
k15 destroy gm0 --|k15 repeated 15
k16 adopt -- gm0 c.img b.img|k16 repeated 16
k16 adopt gm0 -- c.img b.img|k16 repeated 16
k16 adopt gm0 c.img -- b.img|k16 repeated 16
k16 adopt gm0 c.img b.img --|k16 repeated 16
k18 patch gm0 --data $digits --first +02|k18 repeated 18
k18 patch --data=$digits --first=2 -- gm0|k18 repeated 18
END
expect_list 'words of other commands' 1 <<END
k2 insert --did 2 --priority 1 gm0 b.img|k2 refused 3
k2 insert --did 2 --hardcode on gm0 b.img|k2 refused 3
k2 insert --did 2 b.img gm0|k2 refused 3
k3 advance b.img gm0|k3 refused 3
k3 rebuild gm0 b.img|k3 refused 3
k4 activate gm0 b.img|k4 refused 3
k4 deactivate gm0 help|k4 refused 3
k5 deactivate gm0 b.img|k5 refused 3
k5 activate gm0 c.img|k5 refused 3
k6 advance gm0 b.img|k6 refused 3
k7 remove gm0 deactivate|k7 refused 3
k7 remove remove b.img|k7 refused 3
k12 lost gm0 b.img c.img d.img|k12 refused 3
k12 lost gm0 c.img b.img|k12 refused 3
k12 lost gm0 c.img b.img d.img d.img|k12 refused 3
k12 lost gm0 lost c.img help a.img|k12 refused 3
k13 forget fifteen-letters|k13 refused 3
k13 destroy gm0|k13 refused 3
k14 clear help|k14 refused 3
k15 forget gm0|k15 refused 3
k16 adopt gm0 b.img c.img|k16 refused 3
k16 adopt gm0 c.img|k16 refused 3
k16 adopt gm0 c.img b.img b.img|k16 refused 3
k16 lost gm0 c.img b.img|k16 refused 3
k18 patch --first 1 --data $digits gm0|k18 refused 3
k18 patch --first 2 --data ${digits%7}8 gm0|k18 refused 3
k18 patch --first 2 --data $digits gm1|k18 refused 3
END
expect_kept 'words of commands that were answered change no byte'

# ---- the options of a configure

fresh_bench each-option
batch "${label}k2 configure --balance split gm0\nk3 configure --slice 512 gm0\nk4 configure --autosync off gm0
k5 configure --failsync off gm0\nk6 configure --hardcode on gm0\nk7 configure --prov a.img --priority 255 gm0\n"
expect 'each option of a configure alone' 0 "$(for n in 1 2 3 4 5 6 7; do echo "k$n ok $n"; done)" ''
at_bench list
expect 'a list of them' 0 "$(whole_lines "$list_of_one" | sed '
    s/^Balance: .*/Balance: split/
    s/^Slice: .*/Slice: 512/
    s/^Flags: .*/Flags: NOAUTOSYNC,NOFAILSYNC/
    s/^  Priority: .*/  Priority: 255/
    s/^  Hardcoded: .*/  Hardcoded: yes/')" ''
batch 'k8 configure --slice 4294967295 --failsync on gm0
k9 configure --balance load --slice 1 --autosync on --hardcode off --prov a.img --priority 0 gm0\n'
expect 'several at once' 0 "$(lines 'k8 ok 8\nk9 ok 9')" ''
at_bench list
expect 'a list behind them' 0 "$(whole_lines "$list_of_one" | sed 's/^Slice: .*/Slice: 1/')" ''
keep_bench
expect_list 'other words of a configure' 0 <<'END'
k2 configure gm0 --balance split|k2 repeated 2
k2 configure --balance=split -- gm0|k2 repeated 2
k3 configure --slice=+0512 gm0|k3 repeated 3
k3 configure gm0 --slice 512 --|k3 repeated 3
k4 configure --autosync=off gm0|k4 repeated 4
k5 configure gm0 --failsync off|k5 repeated 5
k6 configure --hardcode=on gm0 --|k6 repeated 6
k7 configure --priority 255 gm0 --prov a.img|k7 repeated 7
k7 configure --prov=a.img --priority=0255 gm0|k7 repeated 7
k8 configure --failsync on --slice 4294967295 gm0|k8 repeated 8
k9 configure --priority 0 --prov a.img --hardcode off gm0 --autosync on --slice 1 --balance load|k9 repeated 9
END
expect_list 'words of another configure' 1 <<'END'
k2 configure --balance load gm0|k2 refused 3
k2 configure --balance round-robin gm0|k2 refused 3
k2 configure --balance split --slice 4096 gm0|k2 refused 3
k2 configure --balance split gm1|k2 refused 3
k3 configure --slice 513 gm0|k3 refused 3
k4 configure --autosync on gm0|k4 refused 3
k4 configure --failsync off gm0|k4 refused 3
k5 configure --failsync on gm0|k5 refused 3
k6 configure --hardcode off gm0|k6 refused 3
k7 configure --prov b.img --priority 255 gm0|k7 refused 3
k7 configure --prov a.img --priority 254 gm0|k7 refused 3
k8 configure --failsync on gm0|k8 refused 3
END
expect_kept 'words of a configure change no byte'

# ---- names that begin with a hyphen, and names that are words of commands

fresh_bench hyphens
for name in -a.img --help -- - help; do
    put_image "$bench/images/$name" h bare
done
expect_list 'names that begin with a hyphen stand behind two' 1 <<'END'
k1 label --mid 7 --did 1 -gm0 -a.img|k1 refused 1
k1 label --mid 7 --did 1 gm0 -a.img|k1 refused 1
k1 label --mid 7 --did 1 -- -gm0 -a.img|k1 ok 1
k2 insert --did 2 -- -gm0 --help|k2 ok 2
k3 insert --did 3 -- -gm0 --|k3 ok 3
k4 configure --prov -a.img --priority 1 -- -gm0|k4 refused 1
k4 configure --prov=-a.img --priority 1 -gm0|k4 refused 1
k4 configure --prov=-a.img --priority 1 -- -gm0|k4 ok 4
k5 destroy -gm0|k5 refused 1
k5 destroy --gm0|k5 refused 1
k5 destroy -- -- -gm0|k5 refused 1
END
at_bench status
expect 'a status of such names' 0 '-gm0            DEGRADED 1/3
  --              SYNCHRONIZING 0 of 3
  --help          SYNCHRONIZING 0 of 3
  -a.img          ACTIVE' ''
expect_list 'their mirror comes to its end' 0 <<'END'
k5 remove -- -gm0 --help|k5 ok 5
k6 lost -- -gm0 --|k6 ok 6
k7 destroy -- -gm0|k7 ok 7
k8 label --mid 7 --did 1 - -|k8 ok 8
k9 label --mid 8 --did 1 label help|k9 ok 9
END
at_bench status
expect 'a status of a hyphen, and of words of commands' 0 '-               COMPLETE 1/1
  -               ACTIVE
label           COMPLETE 1/1
  help            ACTIVE' ''
finish
