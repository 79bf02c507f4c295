# What `do` looks at before a command: images in its way, and what would be lost.
. "$helpers/bench.sh"
. "$helpers/rights.sh"

# ---- images that aren't as they are registered stand in the way of a command of their mirror

all_the_same='--unchecked does it anyway'
overwritten='is another file or was overwritten: bring the right one back, mend it, replace it, or give it up by lost'

# A bench whose mirror gm0 has a.img and b.img, both ACTIVE, beside blank images c.img and d.img.
fresh_mirror() {
    fresh_bench "$1"
    batch "$label${insert}k3 advance gm0 b.img\n"
    truncate -s 2048 "$bench/images/c.img" "$bench/images/d.img"
}

# Whether the last command wasn't done, by these images, and for these reasons.
expect_not_done() {
    expect "$1" 1 "$(lines "$2 not done\n$3")" "$4"
    expect_kept "$1: nothing was written"
}

fresh_mirror replaced
cp "$bench/images/c.img" "$bench/images/a.img"
keep_bench
for words in 'deactivate gm0 b.img' 'insert --did 3 gm0 c.img' 'remove gm0 b.img' 'configure --slice 512 gm0' 'forget gm0' \
    'patch --first 0 --data 00 gm0' 'destroy gm0'; do
    case $words in patch*) words="patch --first 0 --data $(head -c 1024 /dev/zero | tr '\0' 0) gm0" ;; esac
    at_bench do k9 $words
    expect_not_done "a file of zeros under a member's name: ${words%% *}" k9 'a.img no metadata' \
        "k9: a.img $overwritten
k9: $all_the_same"
done
at_bench sync
expect 'sync passes it over' 1 'a.img' "$(cat "$work/complaints")"
expect_kept 'sync: nothing was written'
at_bench do k3 advance gm0 b.img
expect 'a key that was accepted is answered without a look' 0 'k3 repeated 3' \
    'k3: done before, as number 3; nothing is done now'
at_bench do k3 destroy gm0
expect 'one that another command has as well' 1 'k3 refused 3' 'k3: refused 3: the key was accepted for another command'
at_bench do k9 lost gm0 a.img
expect 'it can be given up' 0 'k9 ok 4' ''
at_bench do k10 deactivate gm0 b.img
expect 'then commands go on' 1 'k10 refused 17' 'k10: refused 17: no ACTIVE component of gm0 would be left'

fresh_mirror unchecked
cp "$bench/images/c.img" "$bench/images/a.img"
at_bench do --unchecked k9 deactivate gm0 b.img
expect 'a command that is handed in all the same' 0 'k9 ok 4' ''

fresh_mirror several
rm "$bench/images/a.img"
truncate -s 4096 "$bench/images/b.img"
keep_bench
at_bench do k9 configure --slice 512 gm0
expect_not_done 'each image is named' k9 "$(lines 'a.img absent\nb.img another size')" \
    "k9: a.img isn't in the folder: bring it back, or give it up by lost
k9: b.img hasn't the size that is registered: bring the right one back, replace it, or give it up by lost
k9: $all_the_same"
at_bench do k9 label --mid 8 --did 1 gm1 c.img
expect 'another mirror goes on' 0 'k9 ok 4' ''

# ---- a member, or the registry, that comes from a backup

fresh_mirror older
cp "$bench/images/b.img" "$work/backup"
cp "$registry" "$work/old-registry"
batch 'k4 deactivate gm0 b.img\nk5 activate gm0 b.img\nk6 advance gm0 b.img\n'
cp "$bench/images/b.img" "$work/newest"
cp "$work/backup" "$bench/images/b.img"
keep_bench
at_bench do k9 configure --slice 512 gm0
expect_not_done 'a member from a backup' k9 'b.img older' \
    "k9: b.img is older than the registry: bring the newer one back, or give this one up by lost
k9: $all_the_same"
cp "$work/newest" "$bench/images/b.img"
cp "$work/old-registry" "$registry"
keep_bench
newer='is newer than the registry, which is an old one: find the newest, or adopt the images'
at_bench do k9 configure --slice 512 gm0
expect_not_done 'a registry from a backup' k9 "$(lines 'a.img newer\nb.img newer')" \
    "k9: a.img $newer
k9: b.img $newer
k9: $all_the_same"

# ---- a batch that looks before each command

fresh_mirror batch
printf 'k4 label --mid 8 --did 1 gm1 c.img\nk5 configure --slice 512 gm0\nk6 destroy gm1\n' >"$work/lines"
rm "$bench/images/b.img"
at_bench batch --audit <"$work/lines"
expect 'it ends at the first command that an image stands in the way of' 1 \
    "$(lines 'k4 ok 4\nk5 not done\nb.img absent')" ''
at_bench batch --audit --explain <"$work/lines"
expect 'and says why' 1 "$(lines 'k4 repeated 4\nk5 not done\nb.img absent')" \
    "k5: b.img isn't in the folder: bring it back, or give it up by lost
k5: without --audit it is done anyway"
at_bench batch <"$work/lines"
expect 'without the option it goes on' 1 "$(lines 'k4 repeated 4\nk5 refused 8\nk6 ok 5')" ''

# ---- what would be lost

forced='--force does it anyway'

# Whether nothing was done under a key of its own, because of this, and --force carries it out.
asked=0
expect_forced() {
    asked=$((asked + 1))
    key=f$asked
    title=$1
    said=$2
    shift 2
    keep_bench
    at_bench do $key "$@"
    expect "$title" 1 "$key not done" "$key: $said
$key: $forced"
    expect_kept "$title: nothing was written"
    at_bench do --force $key "$@"
    [ "$status" = 0 ] && pass "$title: --force" || fail "$title: --force" "status $status, $(cat "$work/output" "$work/complaints")"
}

fresh_mirror lost
at_bench do --force k4 destroy gm0
truncate -s 2048 "$bench/images/full.img" "$bench/images/blank.img" "$bench/images/data.img"
printf x | dd of="$bench/images/full.img" bs=1 seek=2047 conv=notrunc 2>/dev/null
printf x | dd of="$bench/images/data.img" bs=1 seek=700 conv=notrunc 2>/dev/null
expect_forced 'a label over data in the last sector' \
    'full.img holds data in its last sector: lengthen it by truncate -s +512' label --mid 9 --did 1 gm1 full.img
at_bench do k5 label --mid 10 --did 1 gm2 data.img
expect 'a label of an image with other data' 0 'k5 ok 6' ''
truncate -s 2048 "$bench/images/other.img"
printf x | dd of="$bench/images/other.img" bs=1 seek=700 conv=notrunc 2>/dev/null
expect_forced 'an insert of an image with data' \
    'other.img holds data, first in sector 1: a sync writes over all of it' insert --did 2 gm2 other.img
at_bench do k6 insert --did 3 gm2 blank.img
expect 'an insert of a blank image' 0 'k6 ok 8' ''
printf 'SQLite format 3\0' >"$bench/images/store.img"
truncate -s 4096 "$bench/images/store.img"
expect_forced 'an insert of a database' 'store.img is a database of SQLite, a registry perhaps' \
    insert --did 4 gm2 store.img

fresh_mirror there
expect_forced 'a loss of an image that is there' 'b.img is there, and as it is registered: remove takes it out' \
    lost gm0 b.img

if has_another_user; then
    fresh_mirror unreadable
    chmod -R a+rwX "$bench"
    chmod 600 "$bench/images/b.img"
    run_as_another do --registry "$registry" --shelf "$bench/images" k9 lost gm0 b.img
    skip_without_program 'a loss of an image that may not be read' ||
        expect 'a loss of an image that may not be read' 0 'k9 ok 4' ''
else
    skip 'a loss of an image that may not be read' 'there is no other user here'
fi

fresh_mirror copies
batch 'k4 insert --did 3 gm0 c.img\n'
expect_forced 'a component that leaves one copy, while another is being filled' \
    "a.img alone would be ACTIVE, while others aren't filled: sync first" deactivate gm0 b.img

fresh_mirror destroyed
expect_forced 'a mirror of two components that is destroyed' \
    'the mirror has 2 components, and the metadata of all are cleared' destroy gm0

fresh_mirror adopted
cp "$bench/images/b.img" "$work/backup"
batch 'k4 deactivate gm0 b.img\n'
cp "$work/backup" "$bench/images/b.img"
forget_registry
at_bench status
expect_forced 'an image that is adopted without a newer one of its mirror' \
    'a.img is of the same mirror and newer: adopt it too, or its data are lost' adopt gm0 b.img

# ---- at a terminal it asks

if command -v script >/dev/null; then
    fresh_mirror asked
    # Types this answer when the program asks.
    answer() {
        printf '%s' "timeout --foreground 60 \"$gmbench\" do --registry \"$registry\" --shelf \"$bench/images\" k9 destroy gm0" >"$work/typed"
        printf ' >"%s"; echo "$?" >"%s"\n' "$work/output" "$work/ended" >>"$work/typed"
        printf "$1" | script -qec "sh $work/typed" /dev/null >"$work/terminal" 2>/dev/null
        status=$(cat "$work/ended")
        grep -q 'go on? (yes or no)' "$work/terminal" && pass "$2: it asks" || fail "$2: it asks" "$(cat "$work/terminal")"
        : >"$work/complaints"
    }
    keep_bench
    answer 'no\n' 'no'
    expect 'no' 1 'k9 not done' ''
    answer '\n' 'an empty line'
    expect 'an empty line' 1 'k9 not done' ''
    expect_kept 'it wrote nothing'
    answer 'yes\n' 'yes'
    expect 'yes' 0 'k9 ok 4' ''
else
    skip 'a question at a terminal' 'there is no script'
fi
finish
