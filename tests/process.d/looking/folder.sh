# Whatever is in a folder, and images that may only be read.
. "$helpers/rights.sh"

# ---- what lies in a folder

put_shelf
put_hostile_folder
run dump --shelf "$hostile" of-0
expect 'an image of 0 bytes' 1 'refused 28' ''
for size in 511 513 1000; do
    run dump --shelf "$hostile" "of-$size"
    expect "a file of $size bytes" 1 'refused 8' ''
done
run dump --shelf "$hostile" of-512
expect 'an image of 512 bytes' 1 'fault 1' ''
if truncate -s 100G "$hostile/sparse" 2>/dev/null; then
    run dump --shelf "$hostile" sparse
    expect 'a sparse image of 100 GB' 1 'fault 1' ''
    rm "$hostile/sparse"
else
    skip 'a sparse image of 100 GB' 'it can not be made here'
fi
run dump --shelf "$hostile" none
expect 'no such image' 1 'refused 8' ''
run dump --shelf "$hostile" fifteen-letters
expect 'a name of 15 characters' 0 "$said" ''
for name in fifo folder link loop; do
    run dump --shelf "$hostile" "$name"
    expect "a $name" 1 'refused 8' ''
done
if [ -c "$hostile/device" ]; then
    run dump --shelf "$hostile" device
    expect 'a device' 1 'refused 8' ''
else
    skip 'a device' 'it can not be made here'
fi
if command -v python3 >/dev/null; then
    run dump --shelf "$hostile" socket
    expect 'a socket' 1 'refused 8' ''
else
    skip 'a socket' 'there is no python3 to make one'
fi
run recover --registry "$work/beside" --shelf "$hostile"
expect 'a recovery over a hostile folder' 0 'recovered 0' ''
run dump --shelf "$hostile/fifteen-letters" a.img
expect 'a file where a folder is wanted' 3 '' "$broken"
run dump --shelf "$work/none" a.img
expect 'no such folder' 3 '' "$broken"
run dump --shelf "$hostile/loop" a.img
expect 'a folder that is a loop' 3 '' "$broken"
ln "$hostile/of-512" "$hostile/again"
run recover --registry "$work/beside" --shelf "$hostile"
expect 'two names of one file' 3 '' "$broken"
run dump --shelf "$hostile" fifteen-letters
expect 'a dump of another image beside them' 0 "$said" ''

# A folder whose path has 4,090 bytes can be listed, but after its name became longer no path leads to the entry in it.
long=$work/a-longer-name
below=$(awk -v count=$((4090 - ${#long})) 'BEGIN { for (i = 0; i < count; i++) printf i % 200 ? "d" : "/" }')
mkdir -p "$work/short$below"
put_image "$work/short$below/image" i bare
run taste --shelf "$work/short$below"
expect 'a folder far below' 0 "$(lines 'no mirrors\nleft out:\n  image           no metadata')" ''
mv "$work/short" "$long"
[ "$(ls "$long$below")" = image ] && pass 'a folder with a path too long for its entry is listed' ||
    fail 'a folder with a path too long for its entry is listed' "$(ls "$long$below" 2>&1)"
run taste --shelf "$long$below"
expect 'an entry that can not be looked at' 3 '' "$broken"
run recover --registry "$work/beside" --shelf "$long$below"
expect 'no opening passes over it' 3 '' "$broken"

# ---- looking needs no right to write

chmod 755 "$work" "$shelf"
chmod 444 "$shelf/a.img"
expect_as_reader 'a dump of an image of mode 0444' "$said" dump --shelf "$shelf" a.img
chmod 644 "$shelf/a.img"
expect_on_read_only_mount 'a dump on a read-only mount' "$said" "$shelf" dump a.img
unchanged 'the image is as it was'
finish
