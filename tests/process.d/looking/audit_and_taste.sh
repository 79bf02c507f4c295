# Images that somebody else changed, and what images tell without a registry.
. "$helpers/rights.sh"
. "$helpers/under_way.sh"

# ---- an audit of images that somebody else changed

fresh_bench audited
images=$bench/images
batch "$label$insert"
at_bench audit
expect 'an audit of images that are as they are registered' 0 '' ''
keep_bench
overwrite "$images/a.img" 200 '\001'
at_bench audit
expect 'a bit behind the metadata was flipped' 1 'a.img' ''
run dump --shelf "$images" a.img
expect 'a dump does not tell that' 0 "$said" ''
overwrite "$images/a.img" 200 '\000'
overwrite "$images/a.img" 100 '\001'
at_bench audit
expect 'a bit of the metadata was flipped' 1 'a.img' ''
run dump --shelf "$images" a.img
expect 'a dump tells that' 1 'fault 3' ''
overwrite "$images/b.img" 511 '\200'
at_bench audit
expect 'two images were changed' 1 "$(lines 'a.img\nb.img')" ''
overwrite "$images/a.img" 100 '\000'
overwrite "$images/b.img" 511 '\000'
overwrite "$images/a.img" -1536 'b'
at_bench audit
expect 'an audit does not look at data' 0 '' ''
overwrite "$images/a.img" -1536 'a'
mv "$images/b.img" "$bench/b.img"
at_bench audit
expect 'an image is away' 1 'b.img' ''
mv "$images/a.img" "$bench/a.img"
at_bench audit
expect 'all images are away' 1 "$(lines 'a.img\nb.img')" ''
{
    cat "$bench/a.img"
    tail -c 512 "$bench/a.img"
} >"$images/a.img"
mv "$bench/b.img" "$images/b.img"
at_bench audit
expect 'an image grew, and says at its end what it said' 1 'a.img' ''
head -c 1536 "$bench/a.img" >"$images/a.img"
at_bench audit
expect 'an image was cut' 1 'a.img' ''
mv "$bench/a.img" "$images/a.img"
at_bench audit
expect 'an audit of images that were put back' 0 '' ''
expect_kept 'an audit changes neither images nor registry'
begin_batch 'k3 forget gm0\n'
at_bench audit
expect 'an audit while a batch holds the folder' 3 '' "$broken"
end_batch
expect 'the batch goes on' 1 'k3 refused 20' ''
run audit --registry "$work/unmade" --shelf "$work/none"
expect 'an audit of no folder' 3 '' "$broken"
expect_none 'it makes no registry' "$work/unmade"

stopped_remove audited-late
at_bench audit
expect 'an audit after a stop' 0 '' ''
expect_images 'it recovers first' fresh bare

# ---- what images tell without a registry

# Runs the program on that folder, and says whether it is as it was.
taste() {
    rm -rf "$work/kept"
    cp -R "$images" "$work/kept"
    run taste --shelf "$images"
    expect "$1" "$2" "$3" "$4"
    other=$(diff -r "$images" "$work/kept" 2>&1) && pass "$1: nothing is written" || fail "$1: nothing is written" "$other"
}

images=$work/tasted
mkdir "$images"
taste 'a taste of no images' 0 'no mirrors' ''
put_image "$images/k.img" k bare
: >"$images/l.img"
taste 'a taste of images that say nothing' 0 "$(lines 'no mirrors\nleft out:
  k.img           no metadata\n  l.img           no metadata')" ''
put_image "$images/a.img" a pending-a
put_image "$images/b.img" b pending-b
tells_gm0='gm0             mid 7 genid 0 syncid 1
  a.img           ACTIVE
  b.img           SYNCHRONIZING 0 of 3
  source: a.img'
taste 'a taste of a mirror' 0 "$tells_gm0
left out:
  k.img           no metadata
  l.img           no metadata" ''

# Of gm1 d.img was lost and is back, and e.img waits for a rebuild; g.img was hardcoded under another name.
bench=$work/tasted-bench
registry=$bench/registry
mkdir "$bench" "$bench/images"
for name in c d e f; do
    put_image "$bench/images/$name.img" "$name" bare
done
batch 'k1 label --mid 8 --did 1 gm1 c.img
k2 insert --did 2 gm1 d.img
k3 insert --did 3 gm1 e.img
k4 configure --autosync off gm1
k5 lost gm1 d.img
k6 label --mid 9 --did 1 --hardcode on gm2 f.img
'
expect 'mirrors of which one lost a component' 0 "$(lines 'k1 ok 1\nk2 ok 2\nk3 ok 3\nk4 ok 4\nk5 ok 5\nk6 ok 6')" ''
cp "$bench/images/"[cde].img "$images"
cp "$bench/images/f.img" "$images/g.img"
cp "$images/a.img" "$images/f.img"
overwrite "$images/f.img" 100 '\001'
{
    cat "$images/a.img"
    tail -c 512 "$images/a.img"
} >"$images/h.img"
taste 'a taste of two mirrors and of damage' 1 "$tells_gm0
gm1             mid 8 genid 1 syncid 1
  c.img           ACTIVE
  d.img           BROKEN
  e.img           STALE 0 of 3
  source: c.img
left out:
  f.img           fault 3
  g.img           names another image
  h.img           tells another size
  k.img           no metadata
  l.img           no metadata" ''
mv "$images/h.img" "$work/h.img"
mv "$images/f.img" "$work/f.img"
run taste --shelf "$images"
[ "$status" = 1 ] && pass 'another name alone is told' || fail 'another name alone is told' "status $status"
mv "$images/g.img" "$images/f.img"
run taste --shelf "$images"
[ "$status" = 0 ] && pass 'under its own name it is taken' || fail 'under its own name it is taken' "status $status"

# Sectors that were written by hand: two ACTIVE members of which the second has a priority, one of another syncid that is
# INACTIVE, and one with the greatest offset, which never was of a mirror of no size.
images=$work/tasted-by-hand
mkdir "$images"
for name in a b c d; do
    put_image "$images/$name.img" "$name" pending-a
done
overwrite "$images/b.img" 40 '\002'
overwrite "$images/b.img" 53 '\005'
overwrite "$images/c.img" 40 '\003'
overwrite "$images/c.img" 87 '\010'
overwrite "$images/d.img" 40 '\004'
overwrite "$images/d.img" 59 '\000\000\000\000\000\000\000\000'
overwrite "$images/d.img" 71 '\377\377\377\377\377\377\377\377'
overwrite "$images/d.img" 87 '\002'
for name in b c d; do
    rehash "$images/$name.img"
done
taste 'a source by its priority, and the greatest offset' 0 'gm0             mid 7 genid 0 syncid 1
  a.img           ACTIVE
  b.img           ACTIVE
  c.img           INACTIVE
  d.img           SYNCHRONIZING 36028797018963967 of 0
  source: b.img' ''
rm "$images/a.img" "$images/b.img"
taste 'no member has the data' 0 'gm0             mid 7 genid 0 syncid 1
  c.img           INACTIVE
  d.img           SYNCHRONIZING 36028797018963967 of 0
  source: (none)' ''

# ---- folders that can't be used, are held, or may only be read

run taste --shelf "$work/none"
expect 'a taste of no folder' 3 '' "$broken"
mkdir "$work/no-images"
run taste --shelf "$work/no-images"
expect 'a taste of an empty folder' 0 'no mirrors' ''
run taste --shelf "$images/c.img"
expect 'a taste of a file' 3 '' "$broken"
ln "$images/c.img" "$images/again"
run taste --shelf "$images"
expect 'a taste of two names of one file' 3 '' "$broken"
rm "$images/again"
put_hostile_folder
ln "$hostile/of-512" "$hostile/again"
run taste --shelf "$hostile"
expect 'a taste of a hostile folder' 3 '' "$broken"
fresh_bench held-by-a-batch
begin_batch "$label"
run taste --shelf "$bench/images"
expect 'a taste while a batch holds the folder' 0 'gm0             mid 7 genid 0 syncid 1
  a.img           ACTIVE
  source: a.img
left out:
  b.img           no metadata' ''
end_batch
expect 'the batch is not disturbed' 0 'k1 ok 1' ''
images=$bench/images
tells_one='gm0             mid 7 genid 0 syncid 1
  a.img           ACTIVE
  source: a.img
left out:
  b.img           no metadata'
chmod 755 "$work" "$bench"
chmod 444 "$images/a.img" "$images/b.img"
chmod 555 "$images"
expect_as_reader 'a taste of images of mode 0444' "$tells_one" taste --shelf "$images"
chmod 755 "$images"
chmod 644 "$images/a.img" "$images/b.img"
expect_on_read_only_mount 'a taste on a read-only mount' "$tells_one" "$images" taste
finish
