# What a command would take away, as `do` says it: each loss, in order, beside what loses nothing, and what is refused.
. "$helpers/bench.sh"

forced='--force does it anyway'

# Whether the command of a row, over that bench as it was kept, is answered so under the key k9: `ok`, `refused` with its
# number, or `lost` if it isn't done, with a line for each loss.
expect_row() {
    at_bench do k9 $1
    answer=$(sed 's/^k9 //; s/^ok .*/ok/' "$work/output")
    : >"$work/wanted-losses"
    case $2 in
        lost)
            [ "$answer" != 'not done' ] || answer=lost
            printf '%s\n' "$3" | tr ';' '\n' | sed 's/^/k9: /' >"$work/wanted-losses"
            echo "k9: $forced" >>"$work/wanted-losses"
            ;;
        refused*) : >"$work/complaints" ;;
    esac
    [ "$answer" = "$2" ] && cmp -s "$work/complaints" "$work/wanted-losses" ||
        wrong=${wrong:-"'$1' was answered '$(cat "$work/output" "$work/complaints")', and not '$2' with '$3'"}
}

told_wrong() {
    [ -z "$wrong" ] && pass "$1" || fail "$1" "$wrong"
}

# A list of rows over an image d.img: how many sectors it has, bytes at places of it, the command, its answer, and what is
# lost. All its other bytes are zeros.
expect_over_image() {
    cat >"$work/list"
    wrong=
    while IFS='|' read -r sectors bytes words answer lost; do
        put_back
        head -c $((512 * sectors)) /dev/zero >"$bench/images/d.img"
        set -- $bytes
        while [ $# -gt 1 ]; do
            damage "$bench/images/d.img" "$1" "$2"
            shift 2
        done
        expect_row "$words" "$answer" "$lost"
    done <"$work/list"
    told_wrong "$title"
}

# A list of rows over that bench: the command, its answer, and what is lost.
expect_over_bench() {
    cat >"$work/list"
    wrong=
    while IFS='|' read -r words answer lost; do
        put_back
        expect_row "$words" "$answer" "$lost"
    done <"$work/list"
    told_wrong "$title"
}

# ---- images that are written over

# gm0 has a.img and b.img, which are ACTIVE; c.img is blank.
fresh_bench taken
put_image "$bench/images/c.img" c bare
batch "$label${insert}k3 advance gm0 b.img\n"
keep_bench
title='a label writes over the last sector, and makes a database unreadable'
expect_over_image <<'END'
4||label --mid 9 --did 1 gm1 d.img|ok|
4|1024 x|label --mid 9 --did 1 gm1 d.img|ok|
4|1536 x|label --mid 9 --did 1 gm1 d.img|lost|d.img holds data in its last sector: lengthen it by truncate -s +512
4|2047 x|label --mid 9 --did 1 gm1 d.img|lost|d.img holds data in its last sector: lengthen it by truncate -s +512
4|0 SQLite\040format\0403\000|label --mid 9 --did 1 gm1 d.img|lost|d.img is a database of SQLite, a registry perhaps
4|0 SQLite\040format\0403\000 1536 x|label --mid 9 --did 1 gm1 d.img|lost|d.img is a database of SQLite, a registry perhaps;d.img holds data in its last sector: lengthen it by truncate -s +512
4|512 SQLite\040format\0403\000|label --mid 9 --did 1 gm1 d.img|ok|
4|0 SQLite\040format\0404\000|label --mid 9 --did 1 gm1 d.img|ok|
1|0 x|label --mid 9 --did 1 gm1 d.img|refused 28|
0||label --mid 9 --did 1 gm1 d.img|refused 28|
END
title='an insert writes over all data, of which the first is told'
expect_over_image <<'END'
300||insert --did 9 gm0 d.img|ok|
300|102400 x 153088 x|insert --did 9 gm0 d.img|lost|d.img holds data, first in sector 200: a sync writes over all of it
300|153087 x|insert --did 9 gm0 d.img|lost|d.img holds data, first in sector 298: a sync writes over all of it
300|153088 x|insert --did 9 gm0 d.img|lost|d.img holds data, first in sector 299: a sync writes over all of it
300|0 x|insert --did 9 gm0 d.img|lost|d.img holds data, first in sector 0: a sync writes over all of it
300|65024 x|insert --did 9 gm0 d.img|lost|d.img holds data, first in sector 127: a sync writes over all of it
300|65536 x|insert --did 9 gm0 d.img|lost|d.img holds data, first in sector 128: a sync writes over all of it
300|0 SQLite\040format\0403\000 4608 x|insert --did 9 gm0 d.img|lost|d.img is a database of SQLite, a registry perhaps
END
title='nothing is told of what is refused for its mirror or its image'
expect_over_image <<'END'
4|1536 x|label --mid 9 --did 1 gm0 d.img|refused 6|
4|1536 x|label --mid 9 --did 1 gm1 e.img|refused 8|
4|1536 x|label --mid 9 --did 1 gm1 a.img|refused 9|
4|0 x|insert --did 9 gm1 d.img|refused 5|
4|0 x|insert --did 9 gm0 e.img|refused 8|
4|0 x|insert --did 9 gm0 a.img|refused 9|
END
put_image "$work/kept-images/e.img" e fresh
printf 'SQLite format 3\0' | dd of="$work/kept-images/e.img" conv=notrunc 2>/dev/null
title='nor of an image that carries metadata'
expect_over_bench <<'END'
label --mid 9 --did 1 gm1 e.img|refused 10|
insert --did 9 gm0 e.img|refused 10|
END

# ---- components that leave, and a mirror that ends

put_back
batch 'k4 insert --did 3 gm0 c.img\n'
keep_bench
title='of two copies one is left, while another is being filled'
expect_over_bench <<'END'
remove gm0 a.img|lost|b.img alone would be ACTIVE, while others aren't filled: sync first
deactivate gm0 a.img|lost|b.img alone would be ACTIVE, while others aren't filled: sync first
remove gm0 b.img|lost|a.img alone would be ACTIVE, while others aren't filled: sync first
deactivate gm0 b.img|lost|a.img alone would be ACTIVE, while others aren't filled: sync first
remove gm0 c.img|ok|
deactivate gm0 c.img|ok|
remove gm1 a.img|refused 5|
deactivate gm0 d.img|refused 8|
destroy gm0|lost|the mirror has 3 components, and the metadata of all are cleared
destroy gm1|refused 5|
rebuild gm0 b.img|ok|
forget gm0|refused 20|
advance gm0 c.img|ok|
clear a.img|refused 9|
END
title='images that are there are given up'
expect_over_bench <<'END'
lost gm0 b.img a.img|lost|a.img is there, and as it is registered: remove takes it out;b.img is there, and as it is registered: remove takes it out
lost gm0 b.img c.img|lost|b.img is there, and as it is registered: remove takes it out;c.img is there, and as it is registered: remove takes it out
lost gm0 c.img|lost|c.img is there, and as it is registered: remove takes it out
lost gm0 d.img|refused 12|
lost gm1 a.img|refused 5|
END
overwrite "$work/kept-images/c.img" 200 x
title='one that is not as it is registered is no loss'
expect_over_bench <<'END'
lost gm0 b.img c.img|lost|b.img is there, and as it is registered: remove takes it out
lost gm0 c.img|ok|
END
overwrite "$work/kept-images/c.img" 200 '\000'
put_back
batch 'k5 advance gm0 c.img\nk6 deactivate gm0 b.img\n'
keep_bench
title='nothing is lost beside two copies, or while none is being filled'
expect_over_bench <<'END'
remove gm0 a.img|ok|
deactivate gm0 c.img|ok|
remove gm0 b.img|ok|
END

# ---- images that are left

# Images of gm1: e.img is newer than d.img, f.img is BROKEN, and h.img out of use; g.img is of another mirror gm1.
fresh_bench found
images=$bench/images
set -- 20 gm1 36 '\005' 44 '\005'
put_edited "$images/d.img" d "$@" 45 '\002' 49 '\003'
put_edited "$images/e.img" d "$@" 40 '\002' 45 '\002' 49 '\004'
put_edited "$images/f.img" d "$@" 40 '\003' 45 '\001' 49 '\011'
put_edited "$images/g.img" d "$@" 36 '\006' 40 '\004' 45 '\011' 49 '\011'
put_edited "$images/h.img" d "$@" 40 '\005' 45 '\001' 49 '\011' 87 '\010'
set --
batch "$label"
keep_bench
title='an adoption leaves images of its mirror'
expect_over_bench <<'END'
adopt gm1 d.img|lost|e.img is of the same mirror and newer: adopt it too, or its data are lost;h.img is of the same mirror: adopt it too
adopt gm1 e.img|lost|d.img is of the same mirror: adopt it too;h.img is of the same mirror: adopt it too
adopt gm1 f.img|lost|d.img is of the same mirror and newer: adopt it too, or its data are lost;e.img is of the same mirror and newer: adopt it too, or its data are lost;h.img is of the same mirror: adopt it too
adopt gm1 f.img d.img|lost|e.img is of the same mirror and newer: adopt it too, or its data are lost;h.img is of the same mirror: adopt it too
adopt gm1 d.img g.img|refused 26|
adopt gm1 d.img i.img|refused 8|
adopt gm2 d.img|refused 26|
adopt gm0 d.img|refused 6|
END

# ---- a patch that was stopped in the source

# Images of gm2: p.img is newer than the others and says DIRTY; q.img is whole, r.img out of use, s.img BROKEN, and t.img was
# being filled. Of gm3 v.img and w.img have one syncid, and w.img says DIRTY.
fresh_bench stopped
images=$bench/images
set -- 20 gm2 36 '\011' 44 '\005' 45 '\002'
put_edited "$images/p.img" d "$@" 49 '\004' 87 '\001'
put_edited "$images/q.img" d "$@" 40 '\002' 49 '\003'
put_edited "$images/r.img" d "$@" 40 '\003' 49 '\003' 87 '\010'
put_edited "$images/s.img" d "$@" 40 '\004' 45 '\001' 49 '\011'
put_edited "$images/t.img" d "$@" 40 '\005' 49 '\003' 87 '\002'
set -- 20 gm3 36 '\010' 44 '\002'
put_edited "$images/v.img" d "$@" 53 '\011'
put_edited "$images/w.img" d "$@" 40 '\002' 87 '\001'
set --
batch "$label"
keep_bench
whole="the source is DIRTY, these aren't: adopt"
title='an adoption takes no DIRTY source while another image is whole'
expect_over_bench <<END
adopt gm2 p.img q.img r.img t.img|lost|$whole gm2 q.img
adopt gm2 p.img r.img t.img|lost|$whole gm2 q.img
adopt gm2 p.img t.img|lost|r.img is of the same mirror: adopt it too;$whole gm2 q.img
adopt gm3 w.img|lost|$whole gm3 v.img
END
title='without it nothing is lost, and beside a source that is whole neither'
expect_over_bench <<'END'
adopt gm2 q.img r.img t.img|ok|
adopt gm2 q.img|lost|r.img is of the same mirror: adopt it too;t.img is of the same mirror: adopt it too
adopt gm3 v.img|ok|
adopt gm3 v.img w.img|ok|
END
edit_sector "$work/kept-images/q.img" 87 '\001'
rehash "$work/kept-images/q.img"
title='if each is DIRTY, they are adopted'
expect_over_bench <<'END'
adopt gm2 p.img q.img r.img t.img|ok|
adopt gm2 p.img r.img t.img|lost|q.img is of the same mirror: adopt it too
END

# ---- images that went on alone

# Images of gm4: u.img is the source by its priority. v.img and x.img are ACTIVE too, and differ from it in all sectors, or in
# one. y.img is being filled, and z.img out of use.
fresh_bench alone
images=$bench/images
set -- 20 gm4 36 '\012' 44 '\005'
put_edited "$images/u.img" d "$@" 53 '\011'
put_edited "$images/v.img" e "$@" 40 '\002'
put_edited "$images/x.img" d "$@" 40 '\003'
put_edited "$images/y.img" e "$@" 40 '\004' 87 '\002'
put_edited "$images/z.img" e "$@" 40 '\005' 87 '\010'
damage "$images/x.img" 1024 y
set --
batch "$label"
keep_bench
alone='both may have gone on alone, and a sync writes over it'
title='an adoption takes other data than the source has'
expect_over_bench <<END
adopt gm4 u.img v.img x.img y.img z.img|lost|v.img is ACTIVE and differs from the source in 3 sectors, first 0: $alone;x.img is ACTIVE and differs from the source in 1 sector, first 2: $alone
adopt gm4 z.img x.img y.img u.img|lost|v.img is of the same mirror: adopt it too;x.img is ACTIVE and differs from the source in 1 sector, first 2: $alone
adopt gm4 v.img x.img y.img z.img|lost|u.img is of the same mirror: adopt it too;x.img is ACTIVE and differs from the source in 3 sectors, first 0: $alone
END
cp "$work/kept-images/u.img" "$work/u.img"
for image in v.img x.img; do
    dd if="$work/u.img" of="$work/kept-images/$image" bs=512 count=3 conv=notrunc 2>/dev/null
done
title='but not those of images that are not ACTIVE, or that are equal'
expect_over_bench <<'END'
adopt gm4 u.img v.img x.img y.img z.img|ok|
END
edit_sector "$work/kept-images/u.img" 49 '\002'
rehash "$work/kept-images/u.img"
damage "$work/kept-images/v.img" 0 z
title='nor those of images that are older than the source'
expect_over_bench <<'END'
adopt gm4 u.img v.img x.img y.img z.img|ok|
END

# ---- metadata that a mirror may need

# gm0, whose mid is 7, is registered on a.img, and has genid 1. Other images: of gm5 c.img says no flag, d.img DIRTY, e.img
# INACTIVE and f.img SYNCHRONIZING; of gm0 g.img is BROKEN, and h.img isn't; i.img is of another mirror gm0, with genid 0 too;
# j.img names another image, k.img is damaged, and l.img is of version 3.
fresh_bench needed
images=$bench/images
batch "${label}${insert}k3 lost gm0 b.img\nk4 forget gm0\n"
set -- 20 gm5 36 '\005'
put_edited "$images/c.img" d "$@"
put_edited "$images/d.img" d "$@" 87 '\001'
put_edited "$images/e.img" d "$@" 87 '\010'
put_edited "$images/f.img" d "$@" 87 '\002'
put_edited "$images/g.img" d 40 '\003'
put_edited "$images/h.img" d 40 '\003' 45 '\001'
put_edited "$images/i.img" d 36 '\010'
put_edited "$images/j.img" d "$@" 95 other
put_edited "$images/k.img" d "$@"
overwrite "$images/k.img" 45 '\001'
put_edited "$images/l.img" d "$@"
make_older "$images/l.img" 3
set --
keep_bench
needed='no registry adopts it without its metadata'
title='a clear wipes metadata of an image that is ACTIVE'
expect_over_bench <<END
clear c.img|lost|c.img says it is ACTIVE in gm5: $needed
clear d.img|lost|d.img says it is ACTIVE in gm5: $needed
clear h.img|lost|h.img says it is ACTIVE in gm0: $needed
clear i.img|lost|i.img says it is ACTIVE in gm0: $needed
clear j.img|lost|j.img says it is ACTIVE in gm5: $needed
clear l.img|lost|l.img says it is ACTIVE in gm5: $needed
END
put_back
at_bench do k9 clear c.img
expect_kept 'and does nothing'
at_bench do --force k9 clear c.img
expect 'unless it is forced' 0 'k9 ok 5' ''
title='it wipes others unasked'
expect_over_bench <<'END'
clear e.img|ok|
clear f.img|ok|
clear g.img|ok|
clear k.img|ok|
clear a.img|refused 9|
clear x.img|refused 8|
END
put_back
at_bench clear c.img
[ "$status" = 1 ] && grep -qxF "g000005 not done" "$work/output" && pass 'by itself it asks too' ||
    fail 'by itself it asks too' "$(cat "$work/output" "$work/complaints")"
expect_kept 'then too nothing is done'
finish
