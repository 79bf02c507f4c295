# The many ways to spell one label, and what is another command, or none.
. "$helpers/lists.sh"

# ---- words that are a command, and which are the same one

fresh_bench spellings
batch "$label"
expect 'a command that is spelled again' 0 'k1 ok 1' ''
keep_bench

expect_words_of_key 'a command has many spellings' 0 'repeated 1' 'its spellings' <<'END'
label --mid 7 --did 1 gm0 a.img
label --did 1 --mid 7 --slice 4096 gm0 a.img
label --mid +7 --did 1 gm0 a.img
label --mid 007 --did +01 gm0 a.img
label --mid 00000000000000000000000000000007 --did 1 gm0 a.img
label --mid=7 --did=1 gm0 a.img
label --mid=+7 --did 1 --slice=04096 gm0 a.img
label gm0 a.img --mid 7 --did 1
label gm0 --mid 7 a.img --did 1
label --mid 7 gm0 --did 1 a.img
label gm0 --did=1 a.img --mid=7
label --mid 7 --did 1 --balance load gm0 a.img
label --mid 7 --did 1 --autosync on --failsync on --hardcode off gm0 a.img
label --hardcode off gm0 --failsync on a.img --autosync on --slice 4096 --balance load --did 1 --mid 7
label --mid 7 --did 1 -- gm0 a.img
label --mid 7 gm0 --did 1 -- a.img
END

expect_words_of_key 'another value is another command' 1 'refused 3' 'other commands' <<'END'
label --mid 8 --did 1 gm0 a.img
label --mid 0 --did 1 gm0 a.img
label --mid 4294967295 --did 1 gm0 a.img
label --mid 7 --did 4294967295 gm0 a.img
label --mid 7 --did 0 gm0 a.img
label --mid 7 --did 1 --slice 1 gm0 a.img
label --mid 7 --did 1 --slice 4294967295 gm0 a.img
label --mid 7 --did 1 --balance prefer gm0 a.img
label --mid 7 --did 1 --balance round-robin gm0 a.img
label --mid 7 --did 1 --balance split gm0 a.img
label --mid 7 --did 1 --autosync off gm0 a.img
label --mid 7 --did 1 --failsync off gm0 a.img
label --mid 7 --did 1 --hardcode on gm0 a.img
label --mid 7 --did 1 gm0 b.img
label --mid 7 --did 1 a.img gm0
label --mid 7 --did 1 gm1 a.img
label --mid 7 --did 1 GM0 a.img
label --mid 7 --did 1 ._-gm09AZaz-_. a.img
label --mid 7 --did 1 fifteen-letters a.img
insert --did 1 gm0 a.img
insert --did 1 --priority 0 gm0 a.img
insert --did 1 --priority 255 --hardcode on gm0 a.img
insert --did 1 --priority +0255 gm0 a.img
remove gm0 a.img
clear a.img
destroy gm0
configure gm0
configure --hardcode on --prov a.img --priority 255 gm0
lost gm0 a.img a.img
END

# ---- words that are none

# A digit seven of another script.
other_seven=$(printf '\331\247')

expect_words_of_key 'a number has its bounds' 1 'refused 1' 'other numbers' <<END
label --mid 4294967296 --did 1 gm0 a.img
label --mid 7 --did 4294967296 gm0 a.img
label --mid 7 --did 18446744073709551617 gm0 a.img
label --mid 7 --did 1 --slice 0 gm0 a.img
label --mid 7 --did 1 --slice +000 gm0 a.img
label --mid 7 --did 1 --slice 4294967296 gm0 a.img
insert --did 4294967296 gm0 a.img
insert --did 1 --priority 256 gm0 a.img
insert --did 1 --priority 65537 gm0 a.img
insert --did 1 --priority=-1 gm0 a.img
label --mid -7 --did 1 gm0 a.img
label --mid=-7 --did 1 gm0 a.img
label --mid=-0 --did 1 gm0 a.img
label --mid= --did 1 gm0 a.img
label --mid=+ --did 1 gm0 a.img
label --mid + --did 1 gm0 a.img
label --mid ++7 --did 1 gm0 a.img
label --mid 7_0 --did 1 gm0 a.img
label --mid 0x7 --did 1 gm0 a.img
label --mid 7.0 --did 1 gm0 a.img
label --mid 1e1 --did 1 gm0 a.img
label --mid $other_seven --did 1 gm0 a.img
configure --slice 0 gm0
configure --prov a.img --priority 256 gm0
END

expect_words_of_key 'other words are no command' 1 'refused 1' 'other words' <<'END'
label --mid 7 gm0 a.img
label --did 1 gm0 a.img
label --mid 7 --did 1 gm0
label --mid 7 --did 1
label --mid 7 --did 1 gm0 a.img b.img
label --mid 7 --mid 7 --did 1 gm0 a.img
label --mid 7 --did 1 --balance load --balance load gm0 a.img
label --mid 7 --did 1 gm0 a.img --mid
label --mid --did 1 gm0 a.img
label --mid 7 --did 1 --balance none gm0 a.img
label --mid 7 --did 1 --balance Load gm0 a.img
label --mid 7 --did 1 --autosync yes gm0 a.img
label --mid 7 --did 1 --failsync ON gm0 a.img
label --mid 7 --did 1 --hardcode= gm0 a.img
label --mid 7 --did 1 --hardcode gm0 a.img
label --mid 7 --did 1 --priority 0 gm0 a.img
label -mid 7 --did 1 gm0 a.img
label --mi 7 --did 1 gm0 a.img
label --MID 7 --did 1 gm0 a.img
label mid 7 did 1 gm0 a.img
label --mid 7 --did 1 gm/0 a.img
label --mid 7 --did 1 gm0 dir/a.img
label --mid 7 --did 1 a-name-of-16-let a.img
--mid 7 --did 1 label gm0 a.img
insert gm0 a.img
insert --did 1 --slice 4096 gm0 a.img
remove gm0
remove gm0 a.img b.img
clear
clear gm0 a.img
destroy gm0 gm1
destroy --help
destroy gm0 -
configure
configure --prov a.img gm0
configure --priority 3 gm0
configure --balance none gm0
configure --balance load --balance load gm0
lost gm0
lost gm0 --hardcode on
END
finish
