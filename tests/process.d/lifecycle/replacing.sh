# An image in the place of another: in which order, under which keys, and when it isn't done.
. "$helpers/bench.sh"

# An empty image of four sectors at that bench.
add_image() {
    head -c 2048 /dev/zero >"$bench/images/$1"
}

# A bench whose mirror has a.img and b.img, both ACTIVE, and an image c.img beside them.
filled_bench() {
    fresh_bench "$1"
    add_image c.img
    batch "${label}${insert}k3 advance gm0 b.img\n"
}

# Whether the last run was refused with this line, and complained with these words.
expect_refused() {
    [ "$status" = 1 ] && [ "$(cat "$work/output")" = "$2" ] && grep -qF -- "$3" "$work/complaints" && pass "$1" ||
        fail "$1" "status $status, '$(cat "$work/output")', '$(cat "$work/complaints")'"
}

filled='c.img 100%: 1.5 of 1.5 KiB'

# ---- an image that is there

filled_bench there
at_bench replace gm0 b.img c.img
expect 'an image is replaced' 0 "$(lines 'g000004 ok 4\ngm0 c.img ACTIVE\ng000004.2 ok 6')" "$filled"
at_bench status
expect 'the mirror then' 0 "$(lines 'gm0             COMPLETE 2/2\n  a.img           ACTIVE\n  c.img           ACTIVE')" ''
expect_same_data 'the new one has the data' "$bench/images/a.img" "$bench/images/c.img" 1536
keep_bench
at_bench replace gm0 b.img c.img
expect 'the same again has nothing to replace' 1 'g000007 not done' \
    'g000007: c.img is ACTIVE in gm0 already, and b.img isn'"'"'t in it: nothing is replaced'
at_bench replace gm0 typo.img c.img
expect_refused 'nor has an old image that is mistyped' 'g000007 not done' "typo.img isn't in it: nothing is replaced"
expect_kept 'nothing was written'
at_bench replace --key g000004 gm0 b.img c.img
expect 'under its key it is told again' 0 "$(lines 'g000004 repeated 4\ngm0 c.img ACTIVE\ng000004.2 repeated 6')" \
    "$(lines 'g000004: done before, as number 4; nothing is done now\ng000004.2: done before, as number 6; nothing is done now')"

filled_bench by-key
at_bench replace --key r1 --quiet gm0 b.img c.img
expect 'under a key that is given' 0 "$(lines 'r1 ok 4\ngm0 c.img ACTIVE\nr1.2 ok 6')" ''
add_image d.img
at_bench replace --key r1 gm0 c.img d.img
expect_refused 'other images under it' 'r1 refused 3' 'the key was accepted for another command'

# What was begun by hand goes on.
filled_bench begun
at_bench insert gm0 c.img
at_bench replace --quiet gm0 b.img c.img
expect 'one that is inserted already' 0 "$(lines 'gm0 c.img ACTIVE\ng000005.2 ok 6')" ''
at_bench replace --quiet --key g000005 gm0 b.img c.img
expect 'under its key that is told again too' 0 "$(lines 'gm0 c.img ACTIVE\ng000005.2 repeated 6')" \
    'g000005.2: done before, as number 6; nothing is done now'

# ---- an image that is gone

filled_bench gone
rm "$bench/images/b.img"
at_bench replace --quiet gm0 b.img c.img
expect 'an image that is gone' 0 "$(lines 'g000004 ok 4\ng000004.2 ok 5\ng000004.3 ok 6\ngm0 c.img ACTIVE')" ''
at_bench status
expect 'the mirror without it' 0 "$(lines 'gm0             COMPLETE 2/2\n  a.img           ACTIVE\n  c.img           ACTIVE')" ''

# It stopped after its first command: only the key says that it had begun.
filled_bench given-up
rm "$bench/images/b.img"
batch 'r1 lost gm0 b.img\n'
at_bench replace --quiet gm0 b.img c.img
expect_refused 'without the key it is unknown' 'refused 12' 'one that was stopped goes on with --key and its first key'
at_bench replace --quiet --key r1 gm0 b.img c.img
expect 'with the key it goes on' 0 "$(lines 'r1 repeated 4\nr1.2 ok 5\nr1.3 ok 6\ngm0 c.img ACTIVE')" \
    'r1: done before, as number 4; nothing is done now'

# ---- an image that is there, and ruined

# A replacement of b.img, which isn't usable, isn't done unless it is forced: it complains of just these lines.
expect_given_up() {
    cp "$bench/images/b.img" "$work/ruined"
    keep_bench
    at_bench replace --quiet gm0 b.img c.img
    expect "$1: it isn't given up unasked" 1 'g000004 not done' "$(lines "$2\ng000004: $forced")"
    expect_kept "$1: nothing is written"
    at_bench replace --quiet --unchecked gm0 b.img c.img
    expect "$1: nor if the images aren't looked at" 1 'g000004 not done' "$(lines "$2\ng000004: $forced")"
    at_bench replace --quiet --force gm0 b.img c.img
    expect "$1: it is if that is forced" 0 "$(lines 'g000004 ok 4\ng000004.2 ok 5\ng000004.3 ok 6\ngm0 c.img ACTIVE')" ''
    at_bench status
    expect "$1: the mirror then" 0 "$(lines 'gm0             COMPLETE 2/2\n  a.img           ACTIVE\n  c.img           ACTIVE')" ''
    expect_same "$1: the old image isn't written" "$bench/images/b.img" "$work/ruined"
    expect_same_data "$1: the new one has the data" "$bench/images/a.img" "$bench/images/c.img" 1536
}
forced='--force does it anyway'
mended='g000004: mend b.img writes that sector again, if the data are right'
filled_bench short
truncate -s 512 "$bench/images/b.img"
expect_given_up 'cut short' 'g000004: b.img is 512 bytes long, and not 2048: it is given up as lost'
at_bench insert gm0 b.img
expect_refused 'its name is free' 'g000008 refused 11' 'b.img has 512 bytes'
filled_bench long
truncate -s 2560 "$bench/images/b.img"
expect_given_up 'too long' 'g000004: b.img is 2560 bytes long, and not 2048: it is given up as lost'
filled_bench zeros
overwrite "$bench/images/b.img" 0 "$(printf '%512s' | sed 's/ /\\000/g')"
expect_given_up 'zeros in its last sector' \
    "g000004: b.img has no metadata in its last sector: it is given up as lost
$mended"
filled_bench no-metadata
overwrite "$bench/images/b.img" 0 X
expect_given_up 'no metadata' "g000004: b.img has no metadata in its last sector: it is given up as lost
$mended"
filled_bench damaged-old
overwrite "$bench/images/b.img" 100 X
expect_given_up 'damaged metadata' "g000004: b.img has damaged metadata in its last sector: it is given up as lost
$mended"
fresh_bench short-filling
add_image c.img
batch "${label}${insert}k3 configure --slice 512 gm0\n"
truncate -s 512 "$bench/images/b.img"
expect_given_up 'one that is being filled' 'g000004: b.img is 512 bytes long, and not 2048: it is given up as lost'
filled_bench short-inactive
batch 'k4 deactivate gm0 b.img\n'
truncate -s 512 "$bench/images/b.img"
at_bench replace --quiet --force --key r1 gm0 b.img c.img
expect 'one that is INACTIVE' 0 "$(lines 'r1 ok 5\nr1.2 ok 6\nr1.3 ok 7\ngm0 c.img ACTIVE')" ''
at_bench replace --quiet --key r1 gm0 b.img c.img
expect 'under its key it is told again' 0 "$(lines 'r1 repeated 5\nr1.2 repeated 6\nr1.3 repeated 7\ngm0 c.img ACTIVE')" \
    "$(lines 'r1: done before, as number 5; nothing is done now\nr1.2: done before, as number 6; nothing is done now
r1.3: done before, as number 7; nothing is done now')"

# One that was stopped isn't asked about again.
filled_bench short-stopped
truncate -s 512 "$bench/images/b.img"
batch 'r1 lost gm0 b.img\n'
at_bench replace --quiet --key r1 gm0 b.img c.img
expect 'one that was stopped goes on' 0 "$(lines 'r1 repeated 4\nr1.2 ok 5\nr1.3 ok 6\ngm0 c.img ACTIVE')" \
    'r1: done before, as number 4; nothing is done now'

# The only one that is ACTIVE isn't given up.
filled_bench short-active
batch 'k4 deactivate gm0 b.img\n'
truncate -s 512 "$bench/images/a.img"
keep_bench
at_bench replace gm0 a.img c.img
expect_refused 'the only ACTIVE one, cut short' "$(lines 'g000005 not done\na.img another size')" "hasn't the size that is registered"
at_bench replace --force gm0 a.img c.img
expect_refused 'nor if that is forced' "$(lines 'g000005 not done\na.img another size')" "hasn't the size that is registered"
at_bench replace --force --unchecked gm0 a.img c.img
expect_refused 'nor if it is not looked at' 'g000005 refused 8' "a.img, a component of gm0, isn't on the shelf with its 4 sectors"
expect_kept 'nothing is written of it'

# Another image of the mirror is damaged too.
filled_bench both-damaged
batch 'k4 insert --did 3 gm0 c.img\nk5 advance gm0 c.img\n'
add_image d.img
truncate -s 512 "$bench/images/b.img"
overwrite "$bench/images/a.img" 0 X
keep_bench
at_bench replace gm0 b.img d.img
expect_refused 'beside another one that is damaged' "$(lines 'g000006 not done\na.img no metadata')" 'a.img is another file'
expect_kept 'nothing is given up beside it'

# ---- an answer that is lost

filled_bench full-output
timeout 20 "$gmbench" replace --quiet --registry "$registry" --shelf "$bench/images" gm0 b.img c.img >/dev/full \
    2>"$work/complaints"
grep -qxF 'g000004 was done, as number 4' "$work/complaints" && pass 'a command whose answer is lost was done' ||
    fail 'a command whose answer is lost was done' "$(cat "$work/complaints")"
at_bench replace --quiet gm0 b.img c.img
expect 'after a lost answer the same words go on' 0 "$(lines 'gm0 c.img ACTIVE\ng000005.2 ok 6')" ''

# ---- a mirror without room

full_bench() {
    fresh_bench "$1"
    add_image c.img
    batch "$label"
    for n in 2 3 4 5 6 7 8 9 10 11 12 13 14 15 16; do
        add_image "m$n.img"
        batch "i$n insert --did $n gm0 m$n.img\n"
    done
}

full_bench full-ruined
truncate -s 512 "$bench/images/m5.img"
at_bench replace --quiet --force gm0 m5.img c.img
expect 'where sixteen are in it, and the old one is cut short' 0 \
    "$(lines 'g000017 ok 17\ng000017.2 ok 18\ng000017.3 ok 19\ngm0 c.img ACTIVE')" ''
full_bench full
at_bench replace --quiet gm0 m5.img c.img
expect 'where sixteen are in it' 0 "$(lines 'g000017 ok 17\ng000017.2 ok 18\ngm0 c.img ACTIVE')" \
    'gm0 has 16 components, the most: m5.img is removed first'
at_bench replace --quiet gm0 a.img m5.img
expect_refused 'but not so that one copy is left' 'g000020 not done' \
    'c.img alone would be ACTIVE, while others aren'"'"'t filled: sync first'

# ---- what isn't done

filled_bench refused
add_image d.img
batch 'k4 label --mid 8 --did 1 gm1 d.img\n'
keep_bench
at_bench replace gm9 b.img c.img
expect_refused 'a mirror that is not there' 'refused 5' 'gm9'
at_bench replace gm0 x.img c.img
expect_refused 'an image that is not in it' 'refused 12' 'x.img'
at_bench replace gm0 d.img c.img
expect_refused 'an image of another mirror' 'refused 12' 'd.img'
at_bench replace gm0 b.img d.img
expect_refused 'a new image of another mirror' 'g000005 refused 9' 'd.img is a component of a mirror already'
at_bench replace gm0 b.img x.img
expect_refused 'a new image that is not there' 'g000005 refused 8' "x.img isn't on the shelf"
at_bench replace --key "$(printf '%031d' 0)" gm0 b.img c.img
expect_refused 'a key from which none follows' "$(printf '%031d' 0) not done" 'this one gets .2 and .3 after it'
at_bench replace gm0 b.img b.img
expect_refused 'an image by itself' 'g000005 not done' 'OLD and NEW are the same image'
at_bench replace gm0 b.img
expect_words 'no new image'
at_bench replace gm0 b.img 'c/img'
expect_words 'a name that is none'
expect_kept 'nothing was written'

# The new image holds data.
filled_bench full-image
put_image "$bench/images/c.img" c bare
at_bench replace gm0 b.img c.img
expect_refused 'an image that holds data' 'g000004 not done' 'c.img holds data, first in sector 0'
at_bench replace --force --quiet gm0 b.img c.img
expect 'unless they are not wanted' 0 "$(lines 'g000004 ok 4\ngm0 c.img ACTIVE\ng000004.2 ok 6')" ''

# ---- what a later command would be refused for, before the first is handed in

# Whether the last run did nothing, because this command of it would be refused, with this number and sentence.
expect_foreseen() {
    expect_refused "$1" "$2 not done" "$2: $3 would be refused, so nothing is done"
    grep -qxF "$4" "$work/complaints" && pass "$1: it says why" || fail "$1: it says why" "$(cat "$work/complaints")"
    expect_kept "$1: nothing is written"
}

# The old image is gone: it isn't given up for a new one that is mistyped.
filled_bench mistyped
rm "$bench/images/b.img"
keep_bench
at_bench replace gm0 b.img typo.img
expect_foreseen 'a new image that is mistyped' g000004 insert "g000004.3: refused 8: typo.img isn't on the shelf"
at_bench replace --quiet gm0 b.img c.img
expect 'the right one then takes its place' 0 "$(lines 'g000004 ok 4\ng000004.2 ok 5\ng000004.3 ok 6\ngm0 c.img ACTIVE')" ''

filled_bench mistyped-active
batch 'k4 deactivate gm0 a.img\n'
rm "$bench/images/b.img"
keep_bench
at_bench replace gm0 b.img c.img
expect_foreseen 'an old image that is the last' g000005 lost 'g000005: refused 17: no ACTIVE component of gm0 would be left'

# The mirror is full: the old image isn't wiped for a new one that it can't have.
full_bench full-refused
head -c 1536 /dev/zero >"$bench/images/small.img"
add_image d.img
batch 'k17 label --mid 8 --did 1 gm1 d.img\n'
put_image "$bench/images/e.img" e bare
keep_bench
at_bench replace gm0 m5.img typo.img
expect_foreseen 'sixteen, and a new image that is mistyped' g000018 insert "g000018.2: refused 8: typo.img isn't on the shelf"
at_bench replace gm0 m5.img small.img
expect_foreseen 'sixteen, and one that is too small' g000018 insert \
    'g000018.2: refused 11: small.img has 1536 bytes; the data of gm0 and one sector more need 2048'
at_bench replace gm0 m5.img d.img
expect_foreseen 'sixteen, and one of another mirror' g000018 insert \
    'g000018.2: refused 9: d.img is a component of a mirror already'
at_bench replace gm0 m5.img e.img
expect_refused 'sixteen, and one that holds data' 'g000018 not done' 'g000018: e.img holds data, first in sector 0'
expect_kept 'sixteen, and one that holds data: nothing is written'
batch 'k18 configure --autosync off gm0\n'
keep_bench
at_bench replace gm0 m5.img c.img
expect_refused 'sixteen, and none is filled by itself' 'g000019 not done' \
    'g000019: c.img would be STALE: configure --autosync on gm0 lets it be filled'
expect_kept 'sixteen, and none is filled by itself: nothing is written'

# A key that follows from the first has another command.
taken='refused 3: the key was accepted for another command'
filled_bench taken
batch 'r.2 configure --autosync on gm0\nr.3 configure --autosync on gm0\n'
keep_bench
at_bench replace --key r gm0 b.img c.img
expect_foreseen 'a second key of another command' r remove "r.2: $taken"
filled_bench taken-third
batch 'r.3 configure --autosync on gm0\n'
rm "$bench/images/b.img"
keep_bench
at_bench replace --key r gm0 b.img c.img
expect_foreseen 'a third key of another command' r insert "r.3: $taken"
filled_bench taken-before
batch 'r.2 remove gm0 b.img\nk5 insert --did 2 gm0 b.img\nk6 advance gm0 b.img\n'
keep_bench
at_bench replace --key r gm0 b.img c.img
expect_foreseen 'a second key of a removal before' r remove "r.2: $taken"

# The registry takes fewer commands than that needs.
if command -v sqlite3 >/dev/null; then
    filled_bench few
    put_accepted 3 99998
    keep_bench
    at_bench replace gm0 b.img c.img
    expect 'too few commands are left' 1 'g099999 not done' \
        'g099999: this takes 3 commands, and the registry takes 2 more'
    expect_kept 'too few commands are left: nothing is written'
else
    skip 'too few commands' 'there is no sqlite3(1) here'
fi

# What a later command takes away is asked about before the first is handed in.
holds='c.img holds data, first in sector 0: a sync writes over all of it'
alone="c.img alone would be ACTIVE, while others aren't filled: sync first"
filled_bench gone-and-data
rm "$bench/images/b.img"
put_image "$bench/images/c.img" c bare
keep_bench
at_bench replace gm0 b.img c.img
expect 'a new image with data, while the old one is gone' 1 'g000004 not done' "$(lines "g000004: $holds\ng000004: $forced")"
expect_kept 'nothing was given up'
at_bench replace --force --quiet gm0 b.img c.img
expect 'its data unless they are not wanted' 0 \
    "$(lines 'g000004 ok 4\ng000004.2 ok 5\ng000004.3 ok 6\ngm0 c.img ACTIVE')" ''
fresh_bench last-and-data
put_image "$bench/images/c.img" c bare
batch "${label}${insert}"
keep_bench
at_bench replace gm0 a.img c.img
expect 'all that the commands take away is told at once' 1 'g000003 not done' \
    "$(lines "g000003: $holds\ng000003: $alone\ng000003: $forced")"
expect_kept 'nothing was inserted'

# ---- a new image that is INACTIVE

filled_bench inactive
batch 'k4 insert --did 3 gm0 c.img\nk5 advance gm0 c.img\nk6 deactivate gm0 c.img\n'
keep_bench
at_bench replace gm0 b.img c.img
expect 'one that is INACTIVE' 1 'gm0 c.img INACTIVE' 'c.img is INACTIVE: activate lets it be filled'
expect_kept 'an INACTIVE one stays so'
at_bench activate gm0 c.img
at_bench replace --quiet gm0 b.img c.img
expect 'after that it takes the place' 0 "$(lines 'gm0 c.img ACTIVE\ng000008.2 ok 9')" ''

# ---- a new image that is ACTIVE already

active_bench() {
    filled_bench "$1"
    batch 'r1 insert --did 3 gm0 c.img\nk5 advance gm0 c.img\n'
}
already='c.img is ACTIVE in gm0 already: b.img is taken out, and nothing is put in its place'

active_bench active
keep_bench
at_bench replace gm0 b.img c.img
expect_refused 'one that is ACTIVE before it begins' 'g000006 not done' "g000006: $already"
grep -qx 'g000006: --force does it anyway' "$work/complaints" && pass 'it says how it is done' ||
    fail 'it says how it is done' "$(cat "$work/complaints")"
at_bench replace --key r2 gm0 b.img c.img
expect_refused 'under a key that is new' 'r2 not done' "r2: $already"
expect_kept 'nothing was written'
at_bench replace --force gm0 b.img c.img
expect 'unless that is forced' 0 "$(lines 'gm0 c.img ACTIVE\ng000006.2 ok 6')" ''

# One that was stopped before its last command.
active_bench last
at_bench replace --key r1 gm0 b.img c.img
expect 'with its first key it goes on' 0 "$(lines 'r1 repeated 4\ngm0 c.img ACTIVE\nr1.2 ok 6')" \
    'r1: done before, as number 4; nothing is done now'

# Types this answer when it asks whether this old image is replaced, with this sentence.
answer() {
    printf '"%s" replace --quiet --registry "%s" --shelf "%s" gm0 %s c.img >"%s"; echo "$?" >"%s"\n' "$gmbench" \
        "$registry" "$bench/images" "$3" "$work/output" "$work/ended" >"$work/typed"
    printf "$1" | script -qec "sh $work/typed" /dev/null >"$work/terminal" 2>/dev/null
    status=$(cat "$work/ended")
    grep -qF "$4" "$work/terminal" && grep -qF 'go on? (yes or no)' "$work/terminal" && pass "$2: a terminal is asked" ||
        fail "$2: a terminal is asked" "$(cat "$work/terminal")"
    : >"$work/complaints"
}
if command -v script >/dev/null; then
    active_bench asked
    keep_bench
    answer 'no\n' no b.img "$already"
    expect 'after no' 1 'g000006 not done' ''
    expect_kept 'nothing is written after no'
    answer 'yes\n' yes b.img "$already"
    expect 'after yes' 0 "$(lines 'gm0 c.img ACTIVE\ng000006.2 ok 6')" ''

    # Of two things that are lost it is asked once.
    fresh_bench asked-once
    put_image "$bench/images/c.img" c bare
    batch "${label}${insert}"
    answer 'yes\n' once a.img 'c.img alone would be ACTIVE'
    expect 'after one yes' 0 "$(lines 'g000003 ok 3\ngm0 c.img ACTIVE\ng000003.2 ok 5')" ''
else
    skip 'a question at a terminal' 'there is no script(1) here'
fi

# The new image waits for a rebuild, so the old one stays.
filled_bench waits
batch 'k4 configure --autosync off gm0\n'
at_bench replace gm0 b.img c.img
expect_refused 'one that has to be rebuilt' "$(lines 'g000005 ok 5\ngm0 c.img STALE')" 'c.img is STALE: rebuild lets it be filled'
at_bench rebuild gm0 c.img
at_bench replace --quiet gm0 b.img c.img
expect 'after that it goes on' 0 "$(lines 'gm0 c.img ACTIVE\ng000007.2 ok 8')" ''

# Another image of the mirror isn't as it is registered.
filled_bench damaged
damage "$bench/images/a.img" 1600 x
at_bench replace gm0 b.img c.img
expect_refused 'another image that is damaged' "$(lines 'g000004 not done\na.img damaged')" 'a.img is another file or was overwritten'
finish
