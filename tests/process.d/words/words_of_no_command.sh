# For each command, words that it doesn't have.
. "$helpers/lists.sh"

# ---- words that no command has

# Words after the key of a command that was carried out: had they a meaning they would be another command, refusal 3.
fresh_bench mistakes
batch "$label"
expect 'a command under whose key wrong words stand' 0 'k1 ok 1' ''
keep_bench

# A list of words after each of these commands' own.
behind_each() {
    cat >"$work/names-behind"
    for command in $1; do
        sed "s|^|$command |; s| *\$||" "$work/names-behind"
    done >"$work/of-each"
}

behind_each 'remove deactivate activate rebuild advance' <<'END'

gm0
gm0 a.img b.img
gm0 -a.img
-gm0 a.img
--did 1 gm0 a.img
gm0 a.img --hardcode on
gm0 a.img --help
gm/0 a.img
gm0 sixteen-letters-
sixteen-letters- a.img
END
expect_words_of_key 'commands on a component have two names' 1 'refused 1' 'other names of components' <"$work/of-each"

behind_each 'forget destroy' <<'END'

gm0 a.img
-gm0
--mid 7 gm0
gm0 --help
gm0 --hardcode on
gm0 -- --
gm/0
sixteen-letters-
END
expect_words_of_key 'commands on a mirror have its name' 1 'refused 1' 'other names of mirrors' <"$work/of-each"

behind_each 'lost adopt' <<'END'

gm0
gm0 b/img
gm0 b.img a/img
gm0 b.img sixteen-letters-
gm/0 b.img
gm0 -b.img
gm0 b.img -a.img
-gm0 b.img
gm0 b.img --hardcode on
--prov b.img gm0
gm0 b.img --help
END
expect_words_of_key 'commands on several have one name at least' 1 'refused 1' 'other names of several' <"$work/of-each"

behind_each configure <<'END'

--balance load
gm0 gm1
gm/0
-gm0
--prov a.img gm0
--priority 1 gm0
--prov a.img --priority 256 gm0
--prov a.img --priority -1 gm0
--prov a/img --priority 1 gm0
--prov= --priority 1 gm0
--slice 0 gm0
--slice 4294967296 gm0
--slice= gm0
--balance none gm0
--autosync maybe gm0
--failsync ON gm0
--hardcode true gm0
--balance load --balance load gm0
--prov a.img --prov b.img --priority 1 gm0
--autosync gm0
--mid 7 gm0
--help gm0
END
expect_words_of_key 'a configure has options of its own' 1 'refused 1' 'other options' <"$work/of-each"

# Digits of one sector, and of more sectors than there may be.
digits=$(head -c 1024 /dev/zero | tr '\0' f)
many=$(head -c 66560 /dev/zero | tr '\0' 0)
behind_each patch <<END

gm0
--first 0 gm0
--data $digits gm0
--first 0 --data gm0
--first 0 --data= gm0
--first 0 --data $digits
--first 0 --data $digits gm0 a.img
--first 0 --data $digits gm/0
--first 0 --data $digits -gm0
--first --data $digits gm0
--first -1 --data $digits gm0
--first 4294967296 --data $digits gm0
--first 0x0 --data $digits gm0
--first 0 --data ${digits%f} gm0
--first 0 --data ${digits%ff} gm0
--first 0 --data ${digits}f gm0
--first 0 --data ${digits}ff gm0
--first 0 --data ${digits%f}F gm0
--first 0 --data ${digits%f}g gm0
--first 0 --data 0x${digits%ff} gm0
--first 0 --data ${digits%f}ä gm0
--first 0 --data $many gm0
--first 0 --first 0 --data $digits gm0
--first 0 --data $digits --data $digits gm0
--first 0 --data $digits --mid 7 gm0
--first 0 --data $digits --help gm0
END
expect_words_of_key 'a patch has a first sector, and sectors as digits' 1 'refused 1' 'other words of a patch' <"$work/of-each"

expect_words_of_key 'values of no kind' 1 'refused 1' 'other values' <<'END'
label --mid 7 --did 1 --hardcode true gm0 a.img
label --mid 7 --did 1 --slice 1 --slice 2 gm0 a.img
label --mid 7 --did 1 gm0 a.img --slice
insert --did 2 --priority -1 gm0 b.img
insert --did 2 --priority gm0 b.img
insert --did 2 --mid 7 gm0 b.img
insert --did 2 gm0 b.img c.img
insert --did 2 b.img
clear gpt/disk0
clear ä
clear sixteen-letters-
clear a.img b.img
clear -a.img
END

expect_words_of_key 'words that begin no command' 1 'refused 1' 'words of no command' <<'END'
help
--help
-h
--version
-V
help label
label --help
label -h
destroy -h
destroy --version
Destroy gm0
destr gm0
destroyed gm0
Activate gm0 a.img
reactivate gm0 a.img
list gm0
status
dump a.img
-- destroy gm0
gm0 destroy
END
finish
