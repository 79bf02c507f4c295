# The words by which a command is kept.
. "$helpers/records.sh"

# ---- by which words a command is kept: all that it says, in one order

# Each command as it is handed in, and below it the words that the registry is to keep of it.
fresh_bench wording
if command -v sqlite3 >/dev/null; then
    for image in c d e; do
        put_image "$bench/images/$image.img" "$image" bare
    done
    put_told f.img 3 x name=gm2 mid=9 did=1
    put_told g.img 3 x name=gm2 mid=9 did=2
    cat >"$work/said-and-kept" <<'END'
label gm0 a.img --did 1 --mid 7
label --mid 7 --did 1 --balance load --slice 4096 --autosync on --failsync on --hardcode off gm0 a.img
label --hardcode on --autosync off --balance round-robin --did 0 --mid 4294967295 gm1 c.img
label --mid 4294967295 --did 0 --balance round-robin --slice 4096 --autosync off --failsync on --hardcode on gm1 c.img
insert gm0 b.img --did +2
insert --did 2 --priority 0 --hardcode off gm0 b.img
insert --hardcode on --priority 0255 --did 4294967295 gm0 d.img
insert --did 4294967295 --priority 255 --hardcode on gm0 d.img
advance gm0 -- b.img
advance gm0 b.img
deactivate -- gm0 b.img
deactivate gm0 b.img
activate gm0  b.img
activate gm0 b.img
rebuild gm0 b.img --
rebuild gm0 b.img
remove gm0 d.img
remove gm0 d.img
insert --did=3 gm0 d.img
insert --did 3 --priority 0 --hardcode off gm0 d.img
insert --did 04 gm0 e.img
insert --did 4 --priority 0 --hardcode off gm0 e.img
lost gm0 -- e.img d.img
lost gm0 e.img d.img
forget -- gm0
forget gm0
lost -- gm0 b.img
lost gm0 b.img
configure gm0 --failsync on --prov a.img --slice 1 --hardcode off --priority 255 --autosync off --balance split
configure --balance split --slice 1 --autosync off --failsync on --hardcode off --prov a.img --priority 255 gm0
configure --hardcode=on gm0
configure --hardcode on gm0
clear -- e.img
clear e.img
destroy gm1
destroy gm1
adopt -- gm2 g.img f.img
adopt gm2 g.img f.img
patch gm2 --data DIGITS --first +01
patch --first 1 --data DIGITS gm2
END
    digits=$(head -c 1024 /dev/zero | tr '\0' a)
    sed -i "s/DIGITS/$digits/" "$work/said-and-kept"
    awk 'NR % 2 == 1 { print "k" (NR + 1) / 2, $0 }' "$work/said-and-kept" >"$work/lines"
    awk 'NR % 2 == 0' "$work/said-and-kept" >"$work/wanted-words"
    at_bench batch <"$work/lines"
    awk '{ print "k" NR " ok " NR (NR == 5 ? " copied 3 of 3" : "") }' "$work/lines" >"$work/wanted-answers"
    expect 'each command is accepted' 0 "$(cat "$work/wanted-answers")" ''
    sqlite3 "$registry" 'SELECT words FROM commands ORDER BY seq' >"$work/kept-words"
    expect_same 'its words are kept with all that it says' "$work/kept-words" "$work/wanted-words"
    awk '{ print "k" NR, $0 }' "$work/wanted-words" >"$work/lines"
    at_bench batch <"$work/lines"
    expect 'by the kept words it is the same command' 0 \
        "$(sed 's/ ok / repeated /; s/ copied .*//' "$work/wanted-answers")" ''
else
    skip 'the words that are kept' 'there is no sqlite3'
fi
finish
