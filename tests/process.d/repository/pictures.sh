# Each picture is the one that was drawn of its text, by measured figures.
. "$helpers/expect.sh"
. "$helpers/python.sh"

# ---- each picture is the one that was drawn of its text

told=$("$top/docs/draw" --check 2>&1) && pass 'each picture was drawn of its text' ||
    fail 'each picture was drawn of its text' "$told"

# What the check says if something was changed in a copy, which then is put back.
here=$work/here
mkdir -p "$here/docs"
cp "$top/docs/draw" "$here/docs"
put_pictures() {
    rm -rf "$here/docs/pictures"
    cp -R "$top/docs/pictures" "$here/docs"
}
expect_found() {
    "$here/docs/draw" --check >"$work/output" 2>"$work/complaints"
    status=$?
    expect "$1" 1 '' "docs/draw: docs/pictures/$2"
    put_pictures
}
put_pictures
echo >>"$here/docs/pictures/states.dot"
expect_found 'a text that was changed' 'states.dot was changed since states.svg was drawn: docs/draw states'
echo >>"$here/docs/pictures/rate.gnuplot"
expect_found 'a plot that was changed' 'rate.gnuplot was changed since rate.svg was drawn: docs/draw rate'
sed 's/1860/1861/' "$top/docs/pictures/data/rate.txt" >"$here/docs/pictures/data/rate.txt"
expect_found 'a figure that was changed' 'data/rate.txt was changed since rate.svg was drawn: docs/draw rate'
echo >>"$here/docs/pictures/stops.svg"
expect_found 'a picture that was changed' "stops.svg isn't the one that was drawn: docs/draw stops"
rm "$here/docs/pictures/rooms.svg"
expect_found 'a picture that is gone' 'rooms.svg was never drawn of rooms.dot: docs/draw rooms'
rm "$here/docs/pictures/rooms.svg.sum"
expect_found 'a picture without its checksums' 'rooms.svg was never drawn of rooms.dot: docs/draw rooms'
cp "$top/docs/pictures/rooms.svg" "$here/docs/pictures/other.svg"
expect_found 'a picture without a text' 'other.svg has no text'

# ---- it can be drawn again. Versions differ in how, so that only that it succeeds is tried.

if command -v dot >/dev/null && command -v gnuplot >/dev/null; then
    told=$("$here/docs/draw" 2>&1 && "$here/docs/draw" --check 2>&1) && pass 'all of them are drawn again' ||
        fail 'all of them are drawn again' "$told"
    (cd "$top/docs/pictures" && ls -- *.svg | sed 's|^|docs/pictures/|') >"$work/wanted"
    printf '%s\n' "$told" | LC_ALL=C sort >"$work/drawn"
    LC_ALL=C sort -o "$work/wanted" "$work/wanted"
    expect_same 'each of them is named' "$work/drawn" "$work/wanted"
else
    skip 'all of them are drawn again' 'there is no dot or no gnuplot here'
fi
"$here/docs/draw" nothing >"$work/output" 2>"$work/complaints"
status=$?
expect 'a picture that there is not' 1 '' 'docs/draw: there is no text of nothing in docs/pictures'

# ---- what a picture is

for picture in "$top"/docs/pictures/*.svg; do
    name=${picture##*/}
    grep -qE 'fill="(white|#ffffff)"' "$picture" && pass "$name has a white ground" ||
        fail "$name has a white ground" 'it has none'
    found=$(grep -o 'font-family="[^"]*"' "$picture" | sort -u)
    [ "$found" = 'font-family="Helvetica,Arial,sans-serif"' ] && pass "$name has one face" ||
        fail "$name has one face" "$found"
    found=$(grep -E '<script|<image|href="[^#]|url\([^#]' "$picture" | head -n 1)
    [ -z "$found" ] && pass "$name stands by itself" || fail "$name stands by itself" "$found"
done
if has_python 'pictures that can be read'; then
    for picture in "$top"/docs/pictures/*.svg; do
        told=$(python3 -c 'import sys, xml.etree.ElementTree as tree; tree.parse(sys.argv[1])' "$picture" 2>&1) &&
            pass "${picture##*/} can be read" || fail "${picture##*/} can be read" "$(echo "$told" | tail -n 1)"
    done
fi

# ---- the plots show what docs/PERFORMANCE.md says, and each document shows what there is

tr '\n' ' ' <"$top/docs/PERFORMANCE.md" | sed 's/<img [^>]*>//g' >"$work/measured"
for data in "$top"/docs/pictures/data/*.txt; do
    missing=
    for number in $(sed 's/#.*//; s/"[^"]*"//g' "$data"); do
        with_comma=$(echo "$number" | sed 's/^\([0-9]*\)\([0-9]\{3\}\)$/\1,\2/')
        grep -qE "(^|[^0-9.,])${with_comma}([^0-9]|$)" "$work/measured" || missing="$missing $number"
    done
    [ -z "$missing" ] && pass "the numbers of ${data##*/} are the measured ones" ||
        fail "the numbers of ${data##*/} are the measured ones" "docs/PERFORMANCE.md has no$missing"
    grep -q "^# .*docs/PERFORMANCE.md" "$data" && pass "${data##*/} says where they come from" ||
        fail "${data##*/} says where they come from" 'it does not'
done
for document in "$top"/*.md "$top"/docs/*.md; do
    tr '\n' ' ' <"$document" | grep -o '<img [^>]*>' | while read -r image; do
        source=$(printf '%s\n' "$image" | sed -n 's/.*src="\([^"]*\)".*/\1/p')
        [ -f "$(dirname "$document")/$source" ] || echo "${document##*/} shows $source, which there is not"
        printf '%s\n' "$image" | grep -q 'alt="[^"]' || echo "${document##*/} shows $source without a text for it"
    done
done >"$work/complaints"
[ ! -s "$work/complaints" ] && pass 'each picture that a document shows is there, and has a text' ||
    fail 'each picture that a document shows is there, and has a text' "$(head -n 1 "$work/complaints")"
finish
