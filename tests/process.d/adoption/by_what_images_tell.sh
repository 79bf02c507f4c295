# What is registered by what images tell, and which can't be adopted.
. "$helpers/records.sh"

# ---- what is registered of images that a mirror is found on, by what they tell

# gm0 is found on a.img, which tells that it has three sectors of data, did 1 and syncid 1, and on b.img, which tells
# the same with did 2, and these fields besides.
put_pair() {
    forget_registry
    put_told a.img 3 x did=1
    put_told b.img 3 x did=2 "$@"
}

fresh_bench adoptable
put_told a.img 3 x did=1
put_told b.img 4 x did=2 provsize=0 provider=b.img dflags=1
expect_step 'a longer image, which is hardcoded and dirty' 'k1 adopt gm0 b.img a.img' 'k1 ok 1' 'a.img b.img' <<'END'
gm0 COMPLETE 7 2 0 1 load 4096 NONE 1536
a.img ACTIVE 1 0 1 NONE 0 2048 no
b.img ACTIVE 2 0 1 NONE 0 2560 yes
END
expect_told 'a dump of the longer image' b.img 'gm0 7 2 2 0 1 0 4096 load 1536 0 NONE NONE b.img 2560'

put_pair priority=9 slice=8192
damage "$bench/images/a.img" 1024 y
expect_step 'one that is not the source, and differs from it' 'k1 adopt gm0 b.img a.img' 'k1 ok 1' 'a.img b.img' <<'END'
gm0 DEGRADED 7 2 0 1 load 8192 NONE 1536
a.img SYNCHRONIZING 1 0 1 SYNCHRONIZING 0 2048 no
b.img ACTIVE 2 9 1 NONE 0 2048 no
END

put_pair dflags=8 syncid=0
expect_step 'one that is out of use stays so' 'k1 adopt gm0 b.img a.img' 'k1 ok 1' 'a.img b.img' <<'END'
gm0 DEGRADED 7 2 0 1 load 4096 NONE 1536
a.img ACTIVE 1 0 1 NONE 0 2048 no
b.img INACTIVE 2 0 0 INACTIVE 0 2048 no
END

# One that is being filled, which tells these fields besides, and whose data differ at that byte, has this offset then.
expect_offset() {
    name_of_offset=$1
    offset=$2
    differs=$3
    shift 3
    put_pair "$@"
    [ "$differs" = none ] || damage "$bench/images/b.img" "$differs" y
    case $* in
        *dflags=6*) flags=SYNCHRONIZING,FORCE_SYNC ;;
        *) flags=SYNCHRONIZING ;;
    esac
    expect_step "$name_of_offset" 'k1 adopt gm0 b.img a.img' 'k1 ok 1' 'a.img b.img' <<END
gm0 DEGRADED 7 2 0 1 load 4096 NONE 1536
a.img ACTIVE 1 0 1 NONE 0 2048 no
b.img SYNCHRONIZING 2 0 1 $flags $offset 2048 no
END
}

expect_offset 'an offset is kept up to which the data are those of the source' 1024 1024 dflags=2 offset=1024
expect_offset 'an offset is kept though all data are those of the source' 1024 none dflags=2 offset=1024
expect_offset 'a copy that is forced stays so' 1024 1024 dflags=6 offset=1024
expect_offset 'an offset is dropped before which the data differ' 0 1023 dflags=2 offset=1024
expect_offset 'an offset is dropped of one that is behind' 0 none dflags=2 offset=1024 syncid=0
expect_offset 'an offset is dropped that is within a sector' 0 none dflags=2 offset=1023
expect_offset 'an offset is dropped that is the end of the data' 0 none dflags=2 offset=1536
expect_offset 'one that is behind, and is not said to be filled, begins anew' 0 none syncid=0

# ---- images that aren't those of one mirror that can be adopted

# Whether gm0 can't be adopted if a.img and b.img tell these fields.
expect_unfit() {
    put_told a.img 3 x did=1 $2
    put_told b.img 3 x did=2 $3
    cp "$bench/images/a.img" "$work/unfit-a"
    cp "$bench/images/b.img" "$work/unfit-b"
    batch 'k1 adopt gm0 a.img b.img\n'
    cmp "$bench/images/a.img" "$work/unfit-a" >>"$work/complaints" 2>&1
    cmp "$bench/images/b.img" "$work/unfit-b" >>"$work/complaints" 2>&1
    expect "$1 can not be adopted" 1 'k1 refused 26' ''
}

forget_registry
expect_unfit 'images of two names' '' 'name=gm1'
expect_unfit 'images of two mids' '' 'mid=8'
expect_unfit 'images of two genids' '' 'genid=1'
expect_unfit 'images of two mediasizes' '' 'mediasize=1024'
expect_unfit 'an image that names another' '' 'provider=c.img'
expect_unfit 'an image that tells another size' '' 'provsize=2560'
expect_unfit 'a mirror without data' 'mediasize=0' 'mediasize=0'
expect_unfit 'data that end within a sector' 'mediasize=1535' 'mediasize=1535'
expect_unfit 'data that go into the last sector' 'mediasize=1537' 'mediasize=1537'
expect_unfit 'data that take the last sector' 'mediasize=2048' 'mediasize=2048'
expect_unfit 'data that are beyond all images' 'mediasize=-512' 'mediasize=-512'
expect_unfit 'images that are all out of use' 'dflags=8' 'dflags=8'
expect_unfit 'images that are all being filled' 'dflags=2' 'dflags=2'
expect_unfit 'a source that counts too few' 'all=1' ''
expect_unfit 'a source that counts too many' 'all=17' ''
at_bench status
expect 'none of these is registered' 0 'no mirrors' ''
put_told a.img 3 x did=1 all=1 genid=1
batch 'k1 adopt gm0 a.img\n'
expect 'one that counts itself alone can be adopted' 0 'k1 ok 1' ''

# ---- what of it is registered already

# Whether gm0 on a.img and b.img is refused if this was labelled before.
expect_taken() {
    put_pair
    put_image "$bench/images/c.img" c bare
    cp "$bench/images/b.img" "$work/adopted-b"
    put_image "$bench/images/b.img" x bare
    batch "k1 $3\n"
    cp "$work/adopted-b" "$bench/images/b.img"
    batch 'k2 adopt gm0 a.img b.img\n'
    expect "$1 is registered already" 1 "k2 refused $2" ''
}

expect_taken 'its name' 6 'label --mid 8 --did 1 gm0 c.img'
expect_taken 'its mid' 7 'label --mid 7 --did 1 gm1 c.img'
expect_taken 'one of its images' 9 'label --mid 8 --did 1 gm1 b.img'
expect_taken 'its name and its mid' 6 'label --mid 7 --did 1 gm0 c.img'

# ---- a bar while data are compared, at a terminal

if command -v script >/dev/null; then
    fresh_bench compared
    head -c 4194816 /dev/zero >"$bench/images/a.img"
    head -c 4194816 /dev/zero >"$bench/images/b.img"
    batch "${label}${insert}k3 advance gm0 b.img\n"
    forget_registry
    # The bench's place is named before the key of do.
    for words in 'do PLACE k1 adopt gm0 a.img b.img' 'adopt PLACE --key k1 gm0 a.img b.img'; do
        forget_registry
        place="--registry \"$registry\" --shelf \"$bench/images\""
        echo "\"$gmbench\" ${words%%PLACE*}$place${words#*PLACE} >\"$work/output\"" >"$work/typed"
        script -qec "sh $work/typed" /dev/null </dev/null >"$work/terminal" 2>/dev/null
        grep -q "$(printf '\r\033\[K')b.img [0-9]*% [0-9.]* of 4 MiB" "$work/terminal" && pass "$words: a bar says how far" ||
            fail "$words: a bar says how far" "$(tail -n 3 "$work/terminal")"
        [ "$(cat "$work/output")" = 'k1 ok 1' ] && pass "$words: it is adopted" || fail "$words: it is adopted" "$(cat "$work/output")"
    done
    forget_registry
    at_bench adopt --key k1 gm0 a.img b.img
    expect 'no word of it elsewhere' 0 'k1 ok 1' ''
else
    skip 'a bar while data are compared' 'there is no script(1) here'
fi
finish
