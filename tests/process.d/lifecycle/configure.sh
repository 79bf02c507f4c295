# What is set of a mirror and its components, and what stays.
. "$helpers/lists.sh"
. "$helpers/records.sh"

# ---- a mirror and its components that are set otherwise

fresh_bench configured
batch "$label"
batch 'k2 configure gm0
k2 configure --prov b.img --priority 5 gm0
k2 configure --priority 3 gm0
k2 configure --prov a.img gm0
k2 configure --balance none gm0
k2 configure --slice 0 gm0
k2 configure --balance load --balance load gm0
k2 configure --balance load
k2 configure --balance load gm1
k2 configure --prov c.img --priority 5 gm0
'
expect 'a configure that is refused' 1 "$(lines 'k2 refused 25\nk2 refused 12\nk2 refused 1\nk2 refused 1\nk2 refused 1
k2 refused 1\nk2 refused 1\nk2 refused 1\nk2 refused 5\nk2 refused 8')" ''
expect_images 'it changes no image' fresh bare
at_bench list
expect 'nor what is listed' 0 "$list_of_one" ''
batch 'k2 configure --hardcode on gm0\n'
expect 'a name is hardcoded' 0 'k2 ok 2' ''
run dump --shelf "$bench/images" a.img
expect 'a dump of it' 0 "$(dumped 1 1 NONE 997e49e199db7cf1fe7822adbce8f89c | sed 's/^provider: .*/provider: a.img/')" ''
batch 'k3 configure --balance prefer --slice 1 --autosync off --failsync off --hardcode off --prov a.img --priority 255 gm0\n'
expect 'all is set at once' 0 'k3 ok 3' ''
run dump --shelf "$bench/images" a.img
expect 'a dump of what was set' 0 "$(dumped 1 1 NONE 197586f417798403383f72d5d9006ced | sed '
    s/^priority: .*/priority: 255/
    s/^slice: .*/slice: 1/
    s/^balance: .*/balance: prefer/
    s/^mflags: .*/mflags: NOAUTOSYNC,NOFAILSYNC/')" ''
at_bench list
expect 'a list of what was set' 0 "$(whole_lines "$list_of_one" | sed '
    s/^Balance: .*/Balance: prefer/
    s/^Slice: .*/Slice: 1/
    s/^Flags: .*/Flags: NOAUTOSYNC,NOFAILSYNC/
    s/^  Priority: .*/  Priority: 255/')" ''
batch 'k3 configure gm0 --priority 255 --prov a.img --hardcode off --failsync off --autosync off --slice 1 --balance prefer
k3 configure --balance prefer gm0
k4 configure --autosync on gm0
'
expect 'the same settings in another order' 1 "$(lines 'k3 repeated 3\nk3 refused 3\nk4 ok 4')" ''
at_bench list
expect 'what is not given stays' 0 "$(whole_lines "$list_of_one" | sed '
    s/^Balance: .*/Balance: prefer/
    s/^Slice: .*/Slice: 1/
    s/^Flags: .*/Flags: NOFAILSYNC/
    s/^  Priority: .*/  Priority: 255/')" ''

# A component that isn't filled unless it is asked for.
fresh_bench stale
batch "${label}k2 configure --autosync off gm0\nk3 insert --did 2 gm0 b.img\n"
expect 'a mirror that fills nothing by itself' 0 "$(lines 'k1 ok 1\nk2 ok 2\nk3 ok 3')" ''
at_bench status
expect 'a status of a stale component' 0 "$(whole_lines "$of_two" | sed 's/SYNCHRONIZING/STALE/')" ''
batch 'k5 rebuild gm0 b.img\n'
expect 'it is rebuilt' 0 'k5 ok 4' ''
at_bench status
expect 'a status of it while it is filled' 0 "$of_two" ''


# ---- what is set of a mirror of several components, and what stays

# Whether the next configure with these options writes all images, and makes this balance, slice and flags of the
# mirror, while its components stay but for the state of c.img.
expect_mirror_set() {
    number=$((number + 1))
    expect_step "$1 sets $2" "k$number configure $1 gm0" "k$number ok $number" 'a.img b.img c.img' <<END
gm0 DEGRADED 7 3 0 5 $2 1536
a.img ACTIVE 1 0 5 NONE 0 2048 no
b.img INACTIVE 2 0 4 INACTIVE 0 2048 no
c.img $3 3 0 5 SYNCHRONIZING 1024 2048 no
END
}

# Each flag is set and taken away, by itself and beside the other.
put_three configuring 3
number=1
expect_mirror_set '--failsync off' 'load 4096 NOFAILSYNC' SYNCHRONIZING
expect_mirror_set '--failsync on' 'load 4096 NONE' SYNCHRONIZING
expect_mirror_set '--autosync off' 'load 4096 NOAUTOSYNC' STALE
expect_mirror_set '--failsync off' 'load 4096 NOAUTOSYNC,NOFAILSYNC' STALE
expect_mirror_set '--autosync on' 'load 4096 NOFAILSYNC' SYNCHRONIZING
expect_mirror_set '--autosync off' 'load 4096 NOAUTOSYNC,NOFAILSYNC' STALE
expect_mirror_set '--failsync on' 'load 4096 NOAUTOSYNC' STALE
put_back
number=1
expect_mirror_set '--balance prefer --slice 512' 'prefer 512 NONE' SYNCHRONIZING

# What is set of components, and several settings at once.
put_back
expect_step 'one component is given a priority' \
    'k2 configure --prov b.img --priority 3 gm0' 'k2 ok 2' 'a.img b.img c.img' <<'END'
gm0 DEGRADED 7 3 0 5 load 4096 NONE 1536
a.img ACTIVE 1 0 5 NONE 0 2048 no
b.img INACTIVE 2 3 4 INACTIVE 0 2048 no
c.img SYNCHRONIZING 3 0 5 SYNCHRONIZING 1024 2048 no
END
put_back
expect_step 'all names are hardcoded' 'k2 configure --hardcode on gm0' 'k2 ok 2' 'a.img b.img c.img' <<'END'
gm0 DEGRADED 7 3 0 5 load 4096 NONE 1536
a.img ACTIVE 1 0 5 NONE 0 2048 yes
b.img INACTIVE 2 0 4 INACTIVE 0 2048 yes
c.img SYNCHRONIZING 3 0 5 SYNCHRONIZING 1024 2048 yes
END
put_back
batch 'k2 configure --balance prefer --slice 1024 --autosync off --failsync off --prov a.img --priority 9 gm0\n'
expect 'nothing of a mirror is as it was made' 0 'k2 ok 2' ''
expect_step 'what is not given stays, of the mirror and of each component' \
    'k3 configure --balance split --hardcode on --prov c.img --priority 255 gm0' 'k3 ok 3' 'a.img b.img c.img' <<'END'
gm0 DEGRADED 7 3 0 5 split 1024 NOAUTOSYNC,NOFAILSYNC 1536
a.img ACTIVE 1 9 5 NONE 0 2048 yes
b.img INACTIVE 2 0 4 INACTIVE 0 2048 yes
c.img STALE 3 255 5 SYNCHRONIZING 1024 2048 yes
END
expect_told 'a dump of the ACTIVE one' a.img 'gm0 7 1 3 0 5 9 1024 split 1536 0 NOAUTOSYNC,NOFAILSYNC NONE a.img 2048'
expect_told 'a dump of the INACTIVE one' b.img \
    'gm0 7 2 3 0 4 0 1024 split 1536 0 NOAUTOSYNC,NOFAILSYNC INACTIVE b.img 2048'
expect_told 'a dump of the STALE one' c.img \
    'gm0 7 3 3 0 5 255 1024 split 1536 1024 NOAUTOSYNC,NOFAILSYNC SYNCHRONIZING c.img 2048'

# Names that are hardcoded in part.
fresh_bench partly-hardcoded
put_told a.img 3 x did=1
put_told b.img 3 x did=2 provider=b.img
batch 'k1 adopt gm0 a.img b.img\n'
expect_records 'one name of two is hardcoded' <<'END'
gm0 COMPLETE 7 2 0 1 load 4096 NONE 1536
a.img ACTIVE 1 0 1 NONE 0 2048 no
b.img ACTIVE 2 0 1 NONE 0 2048 yes
END
expect_step 'no name is hardcoded any more' 'k2 configure --hardcode off gm0' 'k2 ok 2' 'a.img b.img' <<'END'
gm0 COMPLETE 7 2 0 1 load 4096 NONE 1536
a.img ACTIVE 1 0 1 NONE 0 2048 no
b.img ACTIVE 2 0 1 NONE 0 2048 no
END

put_three configuring-refused 3
expect_list 'settings of no mirror, of no component, or none' 1 <<'END'
k2 configure --prov a.img --priority 1 gm1|k2 refused 5
k2 configure gm1|k2 refused 5
k2 configure --prov e.img --priority 1 gm0|k2 refused 8
k2 configure --prov d.img --priority 1 gm0|k2 refused 12
k2 configure gm0|k2 refused 25
END
expect_kept 'settings that are refused change no byte'
finish
