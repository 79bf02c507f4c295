# A registry that is renewed: the same mirrors, and none of the commands.
. "$helpers/bench.sh"
. "$helpers/python.sh"

# What a renewal prints of so many mirrors and commands, with this number at the old one's name.
renewed() {
    case $1 in
        1) echo '1 mirror is in the new registry' ;;
        *) echo "$1 mirrors are in the new registry" ;;
    esac
    case $2 in
        1) echo "$registry.$3 keeps the old one, with 1 command; its key is forgotten" ;;
        *) echo "$registry.$3 keeps the old one, with $2 commands; their keys are forgotten" ;;
    esac
}

# Keeps what the registry says of its mirrors, and then tells whether it says the same.
keep_list() {
    at_bench list
    cp "$work/output" "$work/kept-list"
}
expect_list() {
    at_bench list
    expect_same "$1" "$work/output" "$work/kept-list"
}

# What lies beside the registry, in a line.
beside() {
    (cd "$bench" && ls | grep -v '^images$' | paste -sd ' ' -)
}
expect_beside() {
    [ "$(beside)" = "$2" ] && pass "$1" || fail "$1" "there are $(beside)"
}
expect_images_kept() {
    other=$(diff -r "$bench/images" "$work/kept-images" 2>&1) && pass "$1" || fail "$1" "$other"
}

# ---- the same mirrors, and every byte of the images

two_mirrors all
keep_list
keep_bench
at_bench renew
expect 'a renewal of two mirrors' 0 "$(renewed 2 2 1)" ''
expect_images_kept 'the images have every byte'
expect_same 'the old registry is kept' "$registry.1" "$work/kept-registry"
expect_list 'the mirrors are the same'
expect_beside 'nothing else is left' 'registry registry-wal registry.1'
at_bench audit
expect 'the images are as they are registered' 0 '' ''
at_bench check --data --quiet
tail -n 2 "$work/output" | grep -q '^commands 2 of 100000, ' && pass 'the new one has a command for each mirror' ||
    fail 'the new one has a command for each mirror' "$(cat "$work/output")"
batch 'g000001 adopt gm0 a.img b.img\nk1 configure --slice 8192 gm1\n'
expect 'its keys are its own, and old ones are free' 0 "$(lines 'g000001 repeated 1\nk1 ok 3')" ''
at_bench renew --json
expect 'once more, as JSON' 0 "{\"commands\":3,\"kept\":\"$registry.2\",\"mirrors\":2}" ''

fresh_bench one
batch "$label"
at_bench renew
expect 'one mirror and one command' 0 "$(renewed 1 1 1)" ''

# A component that is being filled keeps its place, one that is out of use its own counter, and a mirror counts what it lost.
fresh_bench places
for one in a b c d; do
    put_long_image "$bench/images/$one.img" $one
done
batch "$label${insert}k3 advance gm0 b.img\nk4 insert --did 3 --priority 9 gm0 c.img\nk5 advance gm0 c.img\nk6 advance gm0 c.img
k7 insert --did 4 --hardcode on gm0 d.img\nk8 deactivate gm0 c.img\nk9 configure --slice 8192 --balance prefer gm0\n"
rm "$bench/images/d.img"
batch 'k10 lost gm0 d.img\n'
[ "$status" = 0 ] && pass 'a bench with a component in each state' || fail 'a bench with a component in each state' "$(cat "$work/output")"
keep_list
keep_bench
at_bench renew
expect 'a renewal of components in each state' 0 "$(renewed 1 10 1)" ''
expect_list 'each is as it was'
expect_images_kept 'and each image'
fresh_bench none
at_bench recover
at_bench renew
expect 'a registry without mirrors' 0 "$(lines '0 mirrors are in the new registry')
$registry.1 keeps the old one, with 0 commands; their keys are forgotten" ''

# ---- its name, mode and link

fresh_bench access
batch "$label"
chmod 640 "$registry"
at_bench renew
[ "$(stat -c %a "$registry" "$registry.1" | paste -sd ' ' -)" = '640 640' ] && pass 'both files have the old mode' ||
    fail 'both files have the old mode' "$(stat -c '%n %a' "$bench"/registry*)"
mkdir "$bench/real"
mv "$registry" "$bench/real/file"
rm -f "$registry"-wal "$registry.1"
ln -s real/file "$registry"
at_bench renew
expect 'a registry by a link' 0 "$(lines '1 mirror is in the new registry')
$(readlink -f "$bench")/real/file.1 keeps the old one, with 1 command; its key is forgotten" ''
[ -L "$registry" ] && pass 'the link stays' || fail 'the link stays' "$(ls -l "$bench")"
at_bench status
expect 'and leads to the new one' 0 "$of_one" ''

# ---- what isn't renewed

filled() {
    fresh_bench "$1"
    batch "$label${insert}k3 advance gm0 b.img\n"
    keep_bench
}
filled absent
mv "$bench/images/b.img" "$bench/away"
mv "$work/kept-images/b.img" "$work/kept-b"
at_bench renew
expect 'an image that is away' 1 "$(lines 'not done\nb.img absent')" \
    'not all images are as they are registered: check says what to do'
expect_kept 'nothing is written then'
at_bench renew --json
expect 'the same as JSON' 1 '{"answer":"not done","images":[{"image":"b.img","standing":"absent"}]}' \
    'not all images are as they are registered: check says what to do'
filled rotten
damage "$bench/images/b.img" 600 z
cp "$bench/images/b.img" "$work/kept-images/b.img"
at_bench renew
expect 'data that differ' 1 'not done' 'the images of gm0 show other than is registered: see scrub and check --data'
expect_kept 'nothing is written then either'
expect_beside 'and nothing is left' 'registry registry-wal'
filled used
(exec 3>>"$bench/images/b.img"; exec sleep 60) &
holder=$!
sleep 0.3
at_bench renew
expect 'an image in use' 1 'not done' "b.img is open for writing by process $holder (sleep): end that first
--force renews anyway"
expect_kept 'it isn'"'"'t written'
at_bench renew --force
expect 'an image in use, if that is forced' 0 "$(renewed 1 3 1)" ''
kill "$holder"
filled in_the_way
echo mine >"$registry.new"
at_bench renew
expect 'a file of the name that the new one has meanwhile' 3 '' "gmbench: F2 store
F2: another file has a name that a renewal uses: $registry.new, or the same with .kept"
echo mine >"$work/wanted"
expect_same 'it stays' "$registry.new" "$work/wanted"
rm "$registry.new"
run renew --registry "$bench/nothing" --shelf "$bench/images"
expect 'no registry' 3 '' "gmbench: F2 store
F2: there is no registry at $bench/nothing"

# What is pending is carried out first.
stopped_remove pending
at_bench renew
expect 'a registry with pending writes' 0 "$(renewed 1 3 1)" ''
expect_images 'they are carried out' fresh bare

# ---- sixty nights, from 79,500 commands on

# Each night takes 62 commands. On the ninth the registry has 80,000.
if command -v sqlite3 >/dev/null; then
    fresh_bench nights
    for one in a b; do
        head -c 7864832 /dev/zero >"$bench/images/$one.img"
    done
    batch "$label$insert"
    at_bench sync --quiet
    put_accepted 62 79500
    cat >"$bench/night" <<'END'
export GMBENCH_EXISTING=1 GMBENCH_EXPLAIN=1
gmbench audit && gmbench deactivate --key $1.out gm0 b.img && gmbench activate --key $1.in gm0 b.img &&
    gmbench sync --quiet && gmbench check --data --quiet >checked || exit
case $(cat checked) in
    *'renew the registry'*) gmbench renew ;;
esac
END
    nights() {
        cd "$bench" && mkdir bin && ln -s "$gmbench" bin/gmbench || exit
        export PATH="$bench/bin:$PATH" GMBENCH_REGISTRY=registry GMBENCH_SHELF=images
        for night in $(seq 60); do
            sh night "$night" || exit
        done
    }
    (nights) >"$bench/told" 2>&1
    status=$?
    [ "$status" = 0 ] && [ "$(grep -c 'keeps the old one' "$bench/told")" = 1 ] && pass 'sixty nights renew the registry once' ||
        fail 'sixty nights renew the registry once' "status $status, $(tail -n 3 "$bench/told")"
    at_bench check --data --quiet
    [ "$status" = 0 ] && pass 'after them all is well' || fail 'after them all is well' "$(cat "$work/output")"
else
    skip 'sixty nights' 'there is no sqlite3 here'
fi
finish
