# What tests of records share: images that tell something by hand, what is registered in a line for each record, and
# steps, each a line of a batch with what it makes of the records and which images it writes.

. "$helpers/bench.sh"

# The bytes of a number, the least first, as printf takes them.
number_bytes() {
    number=$1
    count=$2
    while [ "$count" -gt 0 ]; do
        printf '\\%03o' $((number & 255))
        number=$((number >> 8))
        count=$((count - 1))
    done
}

# A last sector that tells what examples/pending-a.sector tells, but for these fields: of gm0, whose mid is 7, it is
# component 1 of 2, with syncid 1 and three sectors of data.
told_sector() {
    put_image "$work/told" t pending-a
    for field; do
        value=${field#*=}
        case $field in
            name=*) overwrite "$work/told" 20 "$value" ;;
            mid=*) overwrite "$work/told" 36 "$(number_bytes "$value" 4)" ;;
            did=*) overwrite "$work/told" 40 "$(number_bytes "$value" 4)" ;;
            all=*) overwrite "$work/told" 44 "$(number_bytes "$value" 1)" ;;
            genid=*) overwrite "$work/told" 45 "$(number_bytes "$value" 4)" ;;
            syncid=*) overwrite "$work/told" 49 "$(number_bytes "$value" 4)" ;;
            priority=*) overwrite "$work/told" 53 "$(number_bytes "$value" 1)" ;;
            slice=*) overwrite "$work/told" 54 "$(number_bytes "$value" 4)" ;;
            mediasize=*) overwrite "$work/told" 59 "$(number_bytes "$value" 8)" ;;
            offset=*) overwrite "$work/told" 71 "$(number_bytes "$value" 8)" ;;
            mflags=*) overwrite "$work/told" 79 "$(number_bytes "$value" 8)" ;;
            dflags=*) overwrite "$work/told" 87 "$(number_bytes "$value" 8)" ;;
            provider=*) overwrite "$work/told" 95 "$value" ;;
            provsize=*) overwrite "$work/told" 111 "$(number_bytes "$value" 8)" ;;
        esac
    done
    rehash "$work/told"
    tail -c 512 "$work/told"
}

# An image of so many sectors of data, each byte of which is this character, and a last sector that tells these fields.
# A sector that was made before is taken again.
put_told() {
    image=$bench/images/$1
    length=$(($2 * 512))
    letter=$3
    shift 3
    [ -s "$work/sector $*" ] || told_sector "$@" >"$work/sector $*"
    head -c "$length" /dev/zero | tr '\0' "$letter" | cat - "$work/sector $*" >"$image"
}

# gm0 of three components, which was found on images, and counts so many: a.img is ACTIVE, b.img was taken out of use an
# earlier time, and c.img has two sectors of three. d.img is an image beside it. The bench is kept.
put_three() {
    fresh_bench "$1"
    put_told a.img 3 x all="$2" did=1 syncid=5
    put_told b.img 3 y all="$2" did=2 syncid=4 dflags=8
    put_told c.img 3 x all="$2" did=3 syncid=5 dflags=2 offset=1024
    put_image "$bench/images/d.img" d bare
    batch 'k1 adopt gm0 a.img b.img c.img\n'
    keep_bench
}

# What a list tells of that bench, in a line for each record. Of a mirror: its name, state, mid, all, genid, syncid,
# balance, slice, flags and mediasize. Of a component: its name, state, did, priority, syncid, flags, offset, provsize,
# and whether its name is hardcoded.
list_records() {
    at_bench list
    [ "$status" = 0 ] || echo "status $status"
    awk '
        /^Mirror: / || /^- / { if (line != "") print line; line = $2; next }
        /^Components: / || /^$/ { next }
        /^no mirrors$/ { print; next }
        { line = line " " $2 }
        END { if (line != "") print line }' "$work/output"
    cat "$work/complaints"
}

# Whether just these records are registered, which are read from standard input.
expect_records() {
    cat >"$work/wanted-records"
    list_records >"$work/records"
    expect_same "$1" "$work/records" "$work/wanted-records"
}

# Whether a batch of this line is answered so, writes just these images, and leaves the records that are read from
# standard input, on images that tell them. An image was written if its time changed.
expect_step() {
    cat >"$work/wanted-records"
    touch -t 200001010000 "$work/before" "$bench/images/"*
    batch "$2\n"
    leave_out_made "$work/complaints"
    answer=$(cat "$work/output" "$work/complaints")
    ended=$status
    written=$(cd "$bench/images" && find . -type f -newer "$work/before" | sed 's/^..//' | sort | tr '\n' ' ')
    at_bench audit
    audited=$status$(cat "$work/output" "$work/complaints")
    list_records >"$work/records"
    if [ "$ended $answer" != "0 $3" ]; then
        fail "$1" "status $ended, '$answer', and not '$3'"
    elif [ "${written% }" != "$4" ]; then
        fail "$1" "it wrote '${written% }', and not '$4'"
    elif [ "$audited" != 0 ]; then
        fail "$1" "an audit says '$audited'"
    else
        expect_same "$1" "$work/records" "$work/wanted-records"
    fi
}

# Whether a dump of an image of that bench tells these values: its mirror's name, mid, did, all, genid, syncid,
# priority, slice, balance, mediasize, sync_offset, flags of the mirror and of the component, provider and provsize.
expect_told() {
    run dump --shelf "$bench/images" "$2"
    told=$(sed '/^magic: /d; /^version: /d; /^sectorsize: /d; /^md5: /d; s/^[a-z_]*: //' "$work/output" | tr '\n' ' ')
    if [ "$status" = 0 ] && [ "${told% }" = "$3" ]; then
        pass "$1"
    else
        fail "$1" "status $status, '${told% }', and not '$3'"
    fi
}
