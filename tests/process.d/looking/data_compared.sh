# Data of components that differ, or can't be compared.
. "$helpers/bench.sh"

# ---- data that are compared by `scrub`

fresh_bench scrubbed
put_long_image "$bench/images/a.img" x
put_long_image "$bench/images/b.img" y
batch "$label$insert"
at_bench scrub
expect 'a component that is not ACTIVE is not compared' 0 '' ''
at_bench sync --quiet
keep_bench
at_bench scrub --quiet
expect 'equal images' 0 '' ''
expect_kept 'it wrote nothing'
at_bench scrub gm0
[ "$status" = 0 ] && [ ! -s "$work/output" ] && tail -n 1 "$work/complaints" | grep -qx 'b.img 100%: 128.5 of 128.5 KiB' &&
    pass 'it says how far it is' || fail 'it says how far it is' "status $status, '$(cat "$work/complaints")'"
# A list of places in the data of b.img, each with what is told if the bytes there are others, of all mirrors and of this one.
while IFS='|' read -r places told; do
    put_back
    for place in $places; do
        damage "$bench/images/b.img" "$place" z
    done
    at_bench scrub --quiet
    expect "bytes that are others at $places" 1 "$told" ''
    at_bench scrub --quiet gm0
    expect 'the same of that mirror' 1 "$told" ''
    at_bench audit
    expect 'an audit sees nothing of it' 0 '' ''
done <<'END'
0|b.img differs from the source a.img in 1 sector, first 0
65000|b.img differs from the source a.img in 1 sector, first 126
131583|b.img differs from the source a.img in 1 sector, first 256
131583 65000|b.img differs from the source a.img in 2 sectors, first 126
131583 65000 0|b.img differs from the source a.img in 3 sectors, first 0
0 511|b.img differs from the source a.img in 1 sector, first 0
511 512|b.img differs from the source a.img in 2 sectors, first 0
END
put_back
damage "$bench/images/b.img" 600 z
damage "$bench/images/b.img" 70000 z
damage "$bench/images/b.img" 131000 z
cp -R "$bench/images" "$work/differing"
at_bench scrub --quiet
expect 'three of them' 1 'b.img differs from the source a.img in 3 sectors, first 1' ''
diff -r "$bench/images" "$work/differing" >/dev/null &&
    pass 'nothing is mended' || fail 'nothing is mended' 'an image is another'
at_bench scrub --quiet --json
expect 'the same as JSON' 1 '{"differ":[{"equal_to":[],"first":1,"name":"b.img","sectors":3,"source":"a.img"}],"uncompared":[]}' ''
at_bench scrub gm1
expect 'a mirror that is not there' 1 'refused 5' 'refused 5: no mirror is named gm1'
mv "$bench/images/b.img" "$work/away"
at_bench scrub --quiet
expect 'an image that is away' 1 "b.img isn't compared" ''
at_bench scrub --quiet --json gm0
expect 'the same as JSON' 1 '{"differ":[],"uncompared":["b.img"]}' ''
mv "$work/away" "$bench/images/b.img"
mv "$bench/images/a.img" "$work/away"
at_bench scrub --quiet
expect 'the source is away' 1 "$(lines "a.img isn't compared\nb.img isn't compared")" ''

# ---- which of several images are equal to each other

# A bench of a mirror of four long images that hold equal data, of which a.img is the source.
four_images() {
    fresh_bench "$1"
    for image in a b c d; do
        put_long_image "$bench/images/$image.img" "$image"
    done
    batch "$label${insert}k3 insert --did 3 gm0 c.img\nk4 insert --did 4 gm0 d.img\n"
    at_bench sync --quiet
    keep_bench
}

four_images of-four
at_bench scrub --quiet
expect 'four equal images' 0 '' ''
# A list of bytes that are written, as IMAGE:PLACE:BYTE, each with the lines that are told of them, which a `/` parts.
while IFS='|' read -r damages told; do
    put_back
    for damaged in $damages; do
        rest=${damaged#*:}
        damage "$bench/images/${damaged%%:*}.img" "${rest%:*}" "${rest#*:}"
    done
    at_bench scrub --quiet
    expect "bytes at $damages" 1 "$(printf '%s\n' "$told" | tr / '\n')" ''
    at_bench check --data --quiet
    grep 'differ' "$work/output" >"$work/told-lines"
    [ "$status" = 1 ] && [ "$(cat "$work/told-lines")" = "$(printf '%s\n' "$told" | tr / '\n')" ] &&
        pass 'a check says the same' || fail 'a check says the same' "status $status, '$(cat "$work/output")'"
done <<'END'
a:9000:z|b.img, c.img and d.img are equal and differ from the source a.img in 1 sector, first 17
c:9000:z|c.img differs from the source a.img in 1 sector, first 17
b:9000:z c:9000:z|b.img and c.img are equal and differ from the source a.img in 1 sector, first 17
b:9000:z d:9000:z|b.img and d.img are equal and differ from the source a.img in 1 sector, first 17
b:9000:z c:9000:y|b.img differs from the source a.img in 1 sector, first 17/c.img differs from the source a.img in 1 sector, first 17
b:9000:z b:70000:z c:9000:z c:70001:z|b.img differs from the source a.img in 2 sectors, first 17/c.img differs from the source a.img in 2 sectors, first 17
b:9000:z c:9000:z c:70000:z d:9000:z|b.img and d.img are equal and differ from the source a.img in 1 sector, first 17/c.img differs from the source a.img in 2 sectors, first 17
a:9000:z c:600:y|b.img and d.img are equal and differ from the source a.img in 1 sector, first 17/c.img differs from the source a.img in 2 sectors, first 1
END
put_back
damage "$bench/images/b.img" 9000 z
damage "$bench/images/c.img" 9000 z
damage "$bench/images/d.img" 9000 y
at_bench scrub --quiet --json
expect 'as JSON each names those that it is equal to' 1 '{"differ":[{"equal_to":["c.img"],"first":17,"name":"b.img","sectors":1,"source":"a.img"},{"equal_to":["b.img"],"first":17,"name":"c.img","sectors":1,"source":"a.img"},{"equal_to":[],"first":17,"name":"d.img","sectors":1,"source":"a.img"}],"uncompared":[]}' ''
at_bench check --data --quiet --json
[ "$status" = 1 ] && grep -q '"differ":\[{"equal_to":\["c.img"\],"first":17,"name":"b.img","sectors":1,"source":"a.img"},' "$work/output" &&
    pass 'a check does too' || fail 'a check does too' "status $status, '$(cat "$work/output")'"
mv "$bench/images/d.img" "$work/away"
at_bench scrub --quiet
expect 'one of three is away' 1 "$(lines "b.img and c.img are equal and differ from the source a.img in 1 sector, first 17\nd.img isn't compared")" ''
mv "$work/away" "$bench/images/d.img"

# ---- a source that is wrong

four_images wrong-source
damage "$bench/images/a.img" 9000 z
batch 'k5 configure --prov c.img --priority 255 gm0\n'
at_bench scrub --quiet
expect 'the source is the one of greatest priority' 1 'a.img differs from the source c.img in 1 sector, first 17' ''
at_bench rebuild gm0 a.img
[ "$status" = 0 ] && pass 'the one that was the source is filled again' || fail 'the one that was the source is filled again' "status $status, '$(cat "$work/complaints")'"
at_bench sync --quiet
at_bench scrub --quiet
expect 'it holds the right data then' 0 '' ''
cmp -n 131584 "$bench/images/a.img" "$bench/images/b.img" >/dev/null &&
    pass 'byte for byte' || fail 'byte for byte' "$(cmp -n 131584 "$bench/images/a.img" "$bench/images/b.img" 2>&1)"

# ---- images of two mirrors are never told together

fresh_bench of-two-mirrors
for image in a b c d; do
    put_long_image "$bench/images/$image.img" x
done
batch "$label${insert}k3 label --mid 8 --did 1 gm1 c.img\nk4 insert --did 2 gm1 d.img\n"
at_bench sync --quiet
damage "$bench/images/b.img" 9000 z
damage "$bench/images/d.img" 9000 z
at_bench scrub --quiet
expect 'each has its own source' 1 "$(lines 'b.img differs from the source a.img in 1 sector, first 17\nd.img differs from the source c.img in 1 sector, first 17')" ''
finish
