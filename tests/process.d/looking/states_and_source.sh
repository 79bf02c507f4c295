# A taste: how an image stands beside others, which is the source, which is left out.
. "$helpers/images.sh"

# ---- how an image stands beside another

# Two images of one mirror, of which a.img says genid 1 and syncid 2. A list of bytes at places of the other's sector,
# each with its state then.
expect_beside() {
    cat >"$work/list"
    wrong=
    put_edited "$images/a.img" a 45 '\001' 49 '\002'
    while IFS='|' read -r edits state; do
        put_edited "$images/b.img" b 40 '\002' $edits
        run taste --shelf "$images"
        {
            lines 'gm0             mid 7 genid 1 syncid 2\n  a.img           ACTIVE\n'
            lines "  b.img           $state\n  source: a.img\n"
        } >"$work/wanted-output"
        if [ "$status" != 0 ] || ! cmp -s "$work/output" "$work/wanted-output"; then
            wrong=${wrong:-"'$edits' is not '$state': status $status, '$(cat "$work/output")'"}
        fi
    done <"$work/list"
    [ -z "$wrong" ] && pass "$1" || fail "$1" "$wrong"
}

images=$work/pairs
mkdir "$images"
expect_beside 'one that has the numbers of its mirror' <<'END'
45 \001 49 \002|ACTIVE
45 \001 49 \002 87 \001|ACTIVE DIRTY
45 \001 49 \002 71 \000\002|ACTIVE
45 \001 49 \002 79 \001|ACTIVE
45 \001 49 \002 71 \000\002 87 \002|SYNCHRONIZING 1 of 3
45 \001 49 \002 71 \000\002 87 \006|SYNCHRONIZING 1 of 3
45 \001 49 \002 71 \000\002 87 \002 79 \001|STALE 1 of 3
45 \001 49 \002 71 \000\002 87 \003|SYNCHRONIZING 1 of 3 DIRTY
45 \001 49 \002 71 \000\002 87 \003 79 \001|STALE 1 of 3 DIRTY
45 \001 49 \002 71 \000\002 87 \006 79 \001|SYNCHRONIZING 1 of 3
45 \001 49 \002 71 \377\003 87 \002|SYNCHRONIZING 1 of 3
45 \001 49 \002 87 \010|INACTIVE
45 \001 49 \002 87 \011|INACTIVE DIRTY
END
expect_beside 'one of a lower syncid begins anew, whatever offset it says' <<'END'
45 \001 49 \001|SYNCHRONIZING 0 of 3
45 \001 49 \001 71 \000\002|SYNCHRONIZING 0 of 3
45 \001 49 \001 71 \000\002 87 \002|SYNCHRONIZING 0 of 3
45 \001 49 \001 71 \000\002 79 \001|STALE 0 of 3
45 \001 49 \001 71 \000\002 79 \001 87 \002|STALE 0 of 3
45 \001 49 \001 71 \000\002 79 \001 87 \006|SYNCHRONIZING 0 of 3
45 \001 49 \001 71 \000\002 79 \002|SYNCHRONIZING 0 of 3
END
expect_beside 'one of a lower genid is broken, whatever syncid it says' <<'END'
49 \002|BROKEN
49 \001|BROKEN
49 \011|BROKEN
49 \011 71 \000\002 87 \002|BROKEN
49 \002 79 \001|BROKEN
49 \002 87 \001|BROKEN DIRTY
END
expect_beside 'one that is out of use is inactive, whatever else it says' <<'END'
87 \010|INACTIVE
49 \001 87 \010|INACTIVE
45 \001 49 \001 87 \010|INACTIVE
45 \001 49 \002 71 \000\002 87 \016|INACTIVE
END

# ---- which image has the data

# The name of the source, in what is told of those images.
source_is() {
    run taste --shelf "$images"
    if [ "$status" = 0 ] && [ "$(grep -c source "$work/output")" = 1 ] && grep -qx "  source: $2" "$work/output"; then
        pass "$1"
    else
        fail "$1" "status $status, '$(cat "$work/output")', and not '$2'"
    fi
}

images=$work/of-sources
mkdir "$images"
put_edited "$images/a.img" a 49 '\002'
put_edited "$images/b.img" b 40 '\002' 49 '\002' 53 '\003'
put_edited "$images/c.img" c 40 '\003' 49 '\001' 53 '\310'
source_is 'the source is active and has the greatest priority' b.img
put_edited "$images/d.img" d 40 '\004' 49 '\002' 53 '\003'
source_is 'of two such it is the one whose name comes first' b.img
rm "$images/b.img"
source_is 'a priority goes before a name' d.img
put_edited "$images/e.img" e 40 '\005' 49 '\002' 53 '\200'
source_is 'a priority has no sign' e.img
put_edited "$images/a.img" a 49 '\003' 87 '\010'
source_is 'none that is behind is the source' '(none)'

# Two images that are ACTIVE; the source says DIRTY, and then both do.
images=$work/of-dirty
mkdir "$images"
put_edited "$images/a.img" a 87 '\001'
put_edited "$images/b.img" b 40 '\002'
source_is 'one that says DIRTY is the source, where another is sure' a.img
put_edited "$images/b.img" b 40 '\002' 87 '\001'
source_is 'each ACTIVE one says DIRTY' 'a.img, but none is sure: each ACTIVE one is DIRTY'
put_edited "$images/c.img" c 40 '\003' 87 '\002'
source_is 'one that is to be filled is not sure' 'a.img, but none is sure: each ACTIVE one is DIRTY'
put_edited "$images/a.img" a 87 '\011'
put_edited "$images/b.img" b 40 '\002' 87 '\011'
source_is 'DIRTY beside no ACTIVE one' '(none)'

# ---- which images are of one mirror

images=$work/of-mirrors
mkdir "$images"
put_edited "$images/a.img" a 20 gm1
put_edited "$images/b.img" b 36 '\000\001'
put_edited "$images/c.img" c 36 '\377\377\377\377'
put_edited "$images/d.img" d
put_edited "$images/e.img" e 20 GM0
put_edited "$images/f.img" f 20 gm00
put_edited "$images/g.img" g 20 'gm\000'
put_edited "$images/h.img" h 20 gm1 40 '\002'
run taste --shelf "$images"
expect 'mirrors stand by their names, and then by their numbers' 0 "$({
    for of in GM0,7,e gm,7,g gm0,7,d gm0,256,b gm0,4294967295,c gm00,7,f gm1,7,a; do
        image=${of##*,}
        name=${of%%,*}
        mid=${of%,*}
        printf '%-15s mid %s genid 0 syncid 1\n  %s.img           ACTIVE\n' "$name" "${mid#*,}" "$image"
        [ "$image" = a ] && echo '  h.img           ACTIVE'
        echo "  source: $image.img"
    done
})" ''

# ---- why an image is left out

# An image by itself, and bytes at places of its sector: whether it is told so, and ends so.
expect_alone() {
    cat >"$work/list"
    wrong=
    taken=$(lines 'gm0             mid 7 genid 0 syncid 1\n  a.img           ACTIVE\n  source: a.img')
    while IFS='|' read -r edits why; do
        put_edited "$images/a.img" a $edits
        run taste --shelf "$images"
        [ "$why" = taken ] && told=$taken || told="no mirrors
left out:
  a.img           $why"
        if [ "$status" != "$2" ] || [ "$(cat "$work/output")" != "$told" ]; then
            wrong=${wrong:-"'$edits' is not '$why': status $status, '$(cat "$work/output")'"}
        fi
    done <"$work/list"
    [ -z "$wrong" ] && pass "$1" || fail "$1" "$wrong"
}

images=$work/alone
mkdir "$images"
expect_alone 'an image that says its own name and size, or none' 0 <<'END'
44 \001|taken
95 a.img|taken
111 \000\000|taken
95 a.img 111 \000\000|taken
0 g|no metadata
END
expect_alone 'an image that is left out for metadata that it carries' 1 <<'END'
16 \005|fault 2
23 !|fault 4
95 gpt/disk0|fault 5
58 \005|fault 6
87 \020|fault 7
68 \000|fault 8
95 b.img|names another image
95 A.img|names another image
95 a.im|names another image
95 b.img 111 \000\006|names another image
95 b.img 111 \000\006 87 \020|fault 7
111 \000\006|tells another size
111 \000\012|tells another size
111 \001\010|tells another size
111 \000\010\000\000\000\000\000\200|tells another size
END
put_edited "$images/a.img" a 111 '\000\000'
tail -c 512 "$images/a.img" >>"$images/a.img"
run taste --shelf "$images"
expect 'an image that says no size may have any' 0 "$taken" ''

# ---- whatever the order

# Four images that are put into a folder in each of their orders.
images=$work/ordered
mkdir "$images" "$work/to-order"
put_edited "$work/to-order/a.img" a 49 '\002'
put_edited "$work/to-order/b.img" b 40 '\002'
put_edited "$work/to-order/c.img" c 20 gm1
put_image "$work/to-order/d.img" d bare
lines 'gm0             mid 7 genid 0 syncid 2\n  a.img           ACTIVE\n  b.img           SYNCHRONIZING 0 of 3
  source: a.img\ngm1             mid 7 genid 0 syncid 1\n  c.img           ACTIVE\n  source: c.img
left out:\n  d.img           no metadata\n' >"$work/wanted-output"
wrong=
orders=0
for first in a b c d; do
    for second in a b c d; do
        for third in a b c d; do
            for fourth in a b c d; do
                case $first$second$third$fourth in
                    *a*a* | *b*b* | *c*c* | *d*d*) continue ;;
                esac
                rm -rf "$images"
                mkdir "$images"
                for name in $first $second $third $fourth; do
                    cp "$work/to-order/$name.img" "$images"
                done
                run taste --shelf "$images"
                orders=$((orders + 1))
                [ "$status" = 0 ] && cmp -s "$work/output" "$work/wanted-output" ||
                    wrong=${wrong:-"$first$second$third$fourth: status $status, '$(cat "$work/output")'"}
            done
        done
    done
done
[ "$orders" = 24 ] || wrong="$orders orders"
[ -z "$wrong" ] && pass 'in whatever order images come the same is told' ||
    fail 'in whatever order images come the same is told' "$wrong"
finish
