# Batches with `--guarded`: what would lose something isn't carried out, unless its line says `--force`.
. "$helpers/bench.sh"

# A bench whose mirror gm0 has a.img and b.img, both ACTIVE, beside blank images c.img and d.img, and data.img with data.
guarded_mirror() {
    fresh_bench "$1"
    batch "$label${insert}k3 advance gm0 b.img\n"
    truncate -s 2048 "$bench/images/c.img" "$bench/images/d.img" "$bench/images/data.img"
    printf x | dd of="$bench/images/data.img" bs=1 seek=700 conv=notrunc 2>/dev/null
    keep_bench
}

# Hands these lines to a guarded batch at that bench, with these options more.
guarded() {
    printf "$1" >"$work/lines"
    shift
    at_bench batch --guarded "$@" <"$work/lines"
}

forced='--force after the key does it anyway'
full='data.img holds data, first in sector 1: a sync writes over all of it'

# ---- what would be lost

guarded_mirror insert
guarded 'k4 insert --did 3 gm0 data.img\nk5 configure --slice 512 gm0\n'
expect 'an insert of an image with data ends it' 1 'k4 not done' "k4: $full
k4: $forced"
expect_kept 'nothing was written, and no later line was carried out'
guarded 'k4 --force insert --did 3 gm0 data.img\nk5 configure --slice 512 gm0\n'
expect 'with --force after the key it is done' 0 "$(lines 'k4 ok 4\nk5 ok 5')" ''
guarded 'k4 insert --did 3 gm0 data.img\nk4 --force insert --did 3 gm0 data.img\n'
expect 'its key is that of the same line without the word' 0 "$(lines 'k4 repeated 4\nk4 repeated 4')" ''
batch 'k4 insert --did 3 gm0 data.img\n'
expect 'also for a batch without the option' 0 'k4 repeated 4' ''
guarded 'k4 --force destroy gm0\n'
expect 'a key of another command' 1 'k4 refused 3' ''

guarded_mirror blank
guarded 'k4 insert --did 3 gm0 c.img\nk5 deactivate gm0 b.img\n'
expect 'of two copies one is left, while another is being filled' 1 "$(lines 'k4 ok 4\nk5 not done')" \
    "k5: a.img alone would be ACTIVE, while others aren't filled: sync first
k5: $forced"

guarded_mirror destroy
guarded 'k4 destroy gm0\nk5 clear a.img\n'
expect 'a mirror of two components' 1 'k4 not done' \
    "k4: the mirror has 2 components, and the metadata of all are cleared
k4: $forced"
expect_kept 'a mirror of two components: nothing was written'
guarded 'k4 --force destroy gm0\n'
expect 'a mirror of two components: --force' 0 'k4 ok 4' ''

guarded_mirror lost
guarded 'k4 lost gm0 b.img\n'
expect 'a loss of an image that is there' 1 'k4 not done' \
    "k4: b.img is there, and as it is registered: remove takes it out
k4: $forced"
expect_kept 'a loss of an image that is there: nothing was written'
guarded 'k4 --force lost gm0 b.img\n'
expect 'a loss of an image that is there: --force' 0 'k4 ok 4' ''

# ---- what isn't lost, or refused

guarded_mirror others
guarded 'k4 label --mid 8 --did 1 gm1 data.img\n\nk5 insert --did 9 gm7 c.img\nk6 insert --did 9 gm0 a.img\nk7 nothing\n?\n'
expect 'what loses nothing is done, and what is refused is refused' 1 \
    "$(lines 'k4 ok 4\nk5 refused 5\nk6 refused 9\nk7 refused 1\n? refused 1')" ''
guarded 'k8 --force insert --did 9 gm7 c.img\nk8 --force\n--force destroy gm0\nk8 destroy --force gm0\nk9 -- --force destroy gm0\n'
expect 'the word forces only right after a key' 1 \
    "$(lines 'k8 refused 5\nk8 refused 1\n--force not done')" \
    "--force: the mirror has 2 components, and the metadata of all are cleared
--force: $forced"
guarded 'k8 destroy --force gm0\nk9 --force --force destroy gm0\n! --force destroy gm0\n'
expect 'in another place it is a word as any' 1 "$(lines 'k8 refused 1\nk9 refused 1\n? refused 2')" ''
guarded 'k8 --force insert --did 9 gm7 c.img\nk8 --force destroy gm0\r\n' --explain
expect 'a forced line is explained as any' 1 "$(lines 'k8 refused 5\nk8 refused 1')" \
    "k8: refused 5: no mirror is named gm7
k8: refused 1: the line ends with CR LF, not with LF alone"

# ---- images in the way

guarded_mirror audited
rm "$bench/images/b.img"
keep_bench
guarded 'k4 --force destroy gm0\nk5 label --mid 8 --did 1 gm1 c.img\n' --explain
expect 'an image stands in the way, forced or not' 1 "$(lines 'k4 not done\nb.img absent')" \
    "k4: b.img isn't in the folder: bring it back, or give it up by lost
k4: without --guarded it is done anyway"
expect_kept 'an image stands in the way: nothing was written'
guarded 'k4 lost gm0 b.img\n'
expect 'an image that is gone is given up' 0 'k4 ok 4' ''

# ---- without the option

guarded_mirror plain
batch 'k4 --force destroy gm0\nk5 insert --did 3 gm0 data.img\n'
expect 'without the option the word makes no command, and nothing is asked' 1 "$(lines 'k4 refused 1\nk5 ok 4')" ''
put_back
printf 'k4 --force destroy gm0\nk5 insert --did 3 gm0 data.img\n' >"$work/lines"
at_bench batch --audit <"$work/lines"
expect 'nor by --audit' 1 "$(lines 'k4 refused 1\nk5 ok 4')" ''
put_back
guarded 'k4 lost gm7 a.img\nk5 destroy gm0\n' --stop
expect '--stop ends it at what is refused' 1 'k4 refused 5' ''
finish
