# A taste: what of a folder is no image, and why.
. "$helpers/bench.sh"

# ---- what of a folder is no image, and why

# What a taste prints of that folder below its mirrors and the images that are left out.
passed_over_is() {
    run taste --shelf "$2"
    sed -n '/^passed over:/,$p' "$work/output" >"$work/passed"
    whole_lines "$3" >"$work/wanted-passed"
    if [ "$status" != 0 ] || [ -s "$work/complaints" ]; then
        fail "$1" "status $status, '$(head -n 1 "$work/complaints")'"
    else
        expect_same "$1" "$work/passed" "$work/wanted-passed"
    fi
}

# A line for each kind of entry, in byte order of names. A device and a socket are told if they can be made.
put_hostile_folder
not_regular=' not a regular file'
[ -c "$hostile/device" ] && device="
  device         $not_regular" || device=
[ -S "$hostile/socket" ] && socket="
  socket         $not_regular" || socket=
run taste --shelf "$hostile"
expect 'a taste of whatever may lie in a folder' 0 "gm0             mid 7 genid 0 syncid 1
  fifteen-letters ACTIVE
  source: fifteen-letters
left out:
  of-0            no metadata
  of-512          no metadata
passed over:$device
  fifo           $not_regular
  folder         $not_regular
  link            a link
  loop            a link
  of-1000         length no multiple of 512
  of-511          length no multiple of 512
  of-513          length no multiple of 512
  sixteen-letters0 name too long$socket
  'two words'     name with other characters
  ä.img           name with other characters
  ?               name with other characters" ''

# A name is told before what has it, and its length before its characters. No character of it reaches a terminal that acts
# upon it, or that turns the direction of others.
images=$work/of-names
mkdir "$images" "$images/a folder" "$images/folder-with-a-long-name"
put_image "$images/a.img" a pending-a
put_image "$images/$(printf 'bell\007')" a pending-a
put_image "$images/$(printf '\033[31mred')" a pending-a
put_image "$images/$(printf 'two\nlines')" a pending-a
put_image "$images/$(printf 'delete\177')" a pending-a
put_image "$images/$(printf 'c1\302\233x')" a pending-a
put_image "$images/$(printf 'right\342\200\256left')" a pending-a
put_image "$images/日本" a pending-a
put_image "$images/sixteen letters0" a pending-a
ln -s a.img "$images/a link"
passed_over_is 'names of other characters' "$images" "passed over:
  ?[31mred        name with other characters
  'a folder'      name with other characters
  'a link'        name with other characters
  bell?           name with other characters
  c1?x            name with other characters
  delete?         name with other characters
  folder-with-a-long-name name too long
  right?left      name with other characters
  'sixteen letters0' name too long
  two?lines       name with other characters
  日本              name with other characters"
rm -r "$images"/*[!g]
passed_over_is 'nothing is told where each file is an image' "$images" ''

# It changes nothing of how a taste ends, nor what is printed above it.
put_edited "$images/b.img" b 16 '\005'
ln -s a.img "$images/link"
run taste --shelf "$images"
expect 'damage, and a link' 1 'gm0             mid 7 genid 0 syncid 1
  a.img           ACTIVE
  source: a.img
left out:
  b.img           fault 2
passed over:
  link            a link' ''
rm "$images/a.img" "$images/b.img"
run taste --shelf "$images"
expect 'no images, and a link' 0 'no mirrors
passed over:
  link            a link' ''

# ---- what SQLite puts beside a database

# Files of no whole sectors: they are told if nothing has the name before the suffix. A registry's own file, and what has
# an image's length beside it, are taken for images without metadata.
images=$work/beside-databases
mkdir "$images" "$images/folder"
head -c 4096 /dev/zero >"$images/registry"
head -c 4096 /dev/zero >"$images/my registry"
head -c 32768 /dev/zero >"$images/registry-shm"
for name in registry-wal registry-journal 'my registry-wal' 'my registry-shm' folder-wal alone-wal registry-walk \
    registry-wal-wal registry- -wal; do
    echo beside >"$images/$name"
done
run taste --shelf "$images"
expect 'files beside databases' 0 "no mirrors
left out:
  registry        no metadata
  registry-shm    no metadata
passed over:
  -wal            length no multiple of 512
  alone-wal       length no multiple of 512
  folder          not a regular file
  'my registry'   name with other characters
  registry-       length no multiple of 512
  registry-walk   length no multiple of 512" ''

# The registry of a bench that lies among its images.
fresh_bench among
registry=$bench/images/registry
batch "$label"
expect 'a batch whose registry lies among the images' 0 'k1 ok 1' ''
passed_over_is 'of a registry nothing is passed over' "$bench/images" ''
finish
