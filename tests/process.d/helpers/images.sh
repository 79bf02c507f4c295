# Images, the bytes of their last sectors, and what a dump says of them.

. "$helpers/expect.sh"

# An image of three sectors, each byte of which is this character, and a last one: a file of examples/, or nothing but
# zeros if it is to be bare.
put_image() {
    head -c 1536 /dev/zero | tr '\0' "$2" >"$1"
    case $3 in
        bare) head -c 512 /dev/zero ;;
        *) cat "$top/examples/$3.sector" ;;
    esac >>"$1"
}

# Writes these bytes at that place of the last sector of an image of four sectors.
overwrite() {
    printf "$3" | dd of="$1" bs=1 seek=$((1536 + $2)) conv=notrunc 2>/dev/null
}

# Gives that sector, after its first 119 bytes or so many, the MD5 that they have.
rehash() {
    hashed=${2:-119}
    hash=$(dd if="$1" bs=1 skip=1536 count="$hashed" 2>/dev/null | md5sum | cut -c 1-32 | sed 's/../0x& /g')
    printf '%b' "$(printf '\\0%03o' $hash)" | dd of="$1" bs=1 seek=$((1536 + hashed)) conv=notrunc 2>/dev/null
}

# Writes bytes at places of that sector: words of a place and its bytes each.
edit_sector() {
    edited=$1
    shift
    while [ $# -gt 1 ]; do
        overwrite "$edited" "$1" "$2"
        shift 2
    done
}

# An image of four sectors whose last one is that of examples/fresh.sector but for such bytes, with the MD5 that it has
# then.
put_edited() {
    put_image "$1" "$2" fresh
    edited=$1
    shift 2
    edit_sector "$edited" "$@"
    rehash "$edited"
}

# Makes that sector one of version 2 or 3: the same fields, of which version 2 lacks the last one, their MD5, and zeros.
make_older() {
    case $2 in
        2) hashed=111 ;;
        *) hashed=119 ;;
    esac
    overwrite "$1" 16 "\\00$2"
    head -c $((512 - hashed)) /dev/zero | dd of="$1" bs=1 seek=$((1536 + hashed)) conv=notrunc 2>/dev/null
    rehash "$1" "$hashed"
}

# What a dump prints of a component of gm0 on an image of four sectors: its number, how many the mirror counts, its flags
# and its hash.
dumped() {
    cat <<END
magic: GEOM::MIRROR
version: 4
name: gm0
mid: 7
did: $1
all: $2
genid: 0
syncid: 1
priority: 0
slice: 4096
balance: load
mediasize: 1536
sectorsize: 512
sync_offset: 0
mflags: NONE
dflags: $3
provider: (none)
provsize: 2048
md5: $4
END
}

# What a dump says of examples/pending-a.sector.
said=$(dumped 1 2 NONE 89060585ba465688be39f3acfd1b26ca)

# What a dump says of an only component.
said_by_one=$(dumped 1 1 NONE b0c8d26a9b8703cdfd84b9d484163531)

# A folder with an image whose last sector carries metadata. No command that a test runs on it may change it.
put_shelf() {
    shelf=$work/shelf
    mkdir "$shelf"
    put_image "$shelf/a.img" a pending-a
    cp "$shelf/a.img" "$work/a.img"
}

# A folder of whatever isn't an image that can be used, beside one that can: files of no whole sectors, names of images that
# are none, a pipe, a folder, links, and a device and a socket if they can be made.
put_hostile_folder() {
    hostile=$work/hostile
    mkdir "$hostile" "$hostile/folder"
    for size in 0 511 512 513 1000; do
        dd if=/dev/zero of="$hostile/of-$size" bs=1 count=$size 2>/dev/null
    done
    for named in fifteen-letters sixteen-letters0 'two words' ä.img "$byte"; do
        put_image "$hostile/$named" a pending-a
    done
    mkfifo "$hostile/fifo"
    ln -s fifteen-letters "$hostile/link"
    ln -s loop "$hostile/loop"
    mknod "$hostile/device" c 1 3 2>/dev/null
    if command -v python3 >/dev/null; then
        (cd "$hostile" && python3 -c 'import socket; socket.socket(socket.AF_UNIX).bind("socket")')
    fi
}

unchanged() {
    expect_same "$1" "$shelf/a.img" "$work/a.img"
}

# An image of 257 sectors of data, of which the last ends in this character, and a last one of zeros.
put_long_image() {
    {
        head -c 131583 /dev/zero | tr '\0' d
        printf '%s' "$2"
        head -c 512 /dev/zero
    } >"$1"
}

# Writes these bytes at that place of an image, in the data.
damage() {
    printf "$3" | dd of="$1" bs=1 seek="$2" conv=notrunc 2>/dev/null
}

# Whether the two images have the same first sectors, so many bytes of them.
expect_same_data() {
    head -c "$4" "$2" >"$work/one"
    head -c "$4" "$3" >"$work/other"
    expect_same "$1" "$work/one" "$work/other"
}
