# What `check` says of mirrors, images and the registry, and when all is well.
. "$helpers/bench.sh"

# What a check ends with, after so many commands and with so many mirrors: how much of the registry is used, and this verdict.
ending() {
    echo "commands $1 of 100000, mirrors $2 of 64, registry $(($(wc -c <"$registry"))) bytes
$3"
}
well='all is well'
amiss='not all is well'

# ---- a check of mirrors and images

fresh_bench checked
at_bench recover
at_bench check
expect 'a registry without mirrors' 1 "no mirrors
$(ending 0 0 "$amiss")" ''
at_bench check --json
expect 'the same as JSON' 1 '{"amiss":[],"claims":[],"differ":[],"mirrors":[],"pending":0,"registry":{"bytes":'$(($(wc -c <"$registry")))',"commands":0,"commands_of":100000,"mirrors":0,"mirrors_of":64,"renew":"not yet"},"uncompared":[],"well":false}' ''
put_long_image "$bench/images/a.img" x
put_long_image "$bench/images/b.img" y
batch "$label"
at_bench check
expect 'a mirror of one image' 0 "$of_one
$(ending 1 1 "$well")" ''
batch "$insert"
keep_bench
at_bench check
expect 'one that is to be filled' 1 "gm0             DEGRADED 1/2
  a.img           ACTIVE
  b.img           SYNCHRONIZING 0 of 257
$(ending 2 1 "$amiss")" ''
expect_kept 'it filled nothing'
at_bench sync --quiet
keep_bench
cp "$registry-wal" "$work/kept-log"
at_bench check
expect 'one that is filled' 0 "$of_filled
$(ending 4 1 "$well")" ''
expect_kept 'it wrote nothing'
expect_same 'nor to the log' "$registry-wal" "$work/kept-log"
at_bench check --data --quiet
expect 'with equal data' 0 "$of_filled
$(ending 4 1 "$well")" ''
at_bench check --data
[ "$status" = 0 ] && tail -n 1 "$work/complaints" | grep -qx 'b.img 100%: 128.5 of 128.5 KiB' &&
    pass 'it says how far it is' || fail 'it says how far it is' "status $status, '$(cat "$work/complaints")'"
mirrors='"mirrors":[{"components":[{"name":"a.img","state":"ACTIVE"},{"name":"b.img","state":"ACTIVE"}],"name":"gm0","state":"COMPLETE"}]'
of_registry='"registry":{"bytes":'$(($(wc -c <"$registry")))',"commands":4,"commands_of":100000,"mirrors":1,"mirrors_of":64,"renew":"not yet"}'
at_bench check --data --quiet --json
expect 'the same as JSON' 0 '{"amiss":[],"claims":[],"differ":[],'"$mirrors"',"pending":0,'"$of_registry"',"uncompared":[],"well":true}' ''

damage "$bench/images/b.img" 65000 z
at_bench check
expect 'data are compared only if that is asked for' 0 "$of_filled
$(ending 4 1 "$well")" ''
at_bench check --data --quiet
expect 'data that differ' 1 "$of_filled
b.img differs from the source a.img in 1 sector, first 126
$(ending 4 1 "$amiss")" ''
at_bench check --data --quiet --json
expect 'the same as JSON' 1 '{"amiss":[],"claims":[],"differ":[{"equal_to":[],"first":126,"name":"b.img","sectors":1,"source":"a.img"}],'"$mirrors"',"pending":0,'"$of_registry"',"uncompared":[],"well":false}' ''

mv "$bench/images/b.img" "$work/away"
at_bench check
expect 'an image that is away' 1 "$of_filled
b.img absent
$(ending 4 1 "$amiss")" ''
at_bench check --data --quiet
expect 'one whose data are to be compared' 1 "$of_filled
b.img absent
b.img isn't compared
$(ending 4 1 "$amiss")" ''
at_bench check --data --quiet --json
expect 'the same as JSON' 1 '{"amiss":[{"image":"b.img","standing":"absent"}],"claims":[],"differ":[],'"$mirrors"',"pending":0,'"$of_registry"',"uncompared":["b.img"],"well":false}' ''
put_back
damage "$bench/images/a.img" 131684 z
at_bench check
expect 'metadata that are damaged' 1 "$of_filled
a.img damaged
$(ending 4 1 "$amiss")" ''

# ---- how an image stands to its component

# Whether a check tells this of a.img, in lines which a `/` parts, or nothing.
stands() {
    at_bench check
    told=$(sed -n 's/^a\.img //p' "$work/output" | tr '\n' / | sed 's#/$##')
    [ "$told" = "$2" ] || wrong=${wrong:-"'$1' is '$told', and not '$2'"}
}

fresh_bench stands
batch "${label}k2 label --mid 8 --did 1 gm1 b.img\n"
cp "$bench/images/a.img" "$work/as-registered"
wrong=
while IFS='|' read -r edits how; do
    put_edited "$bench/images/a.img" a $edits
    stands "$edits" "$how"
done <<'END'
|
40 \002|another component
36 \010|another mirror
20 gm1|another mirror
20 gm1 36 \010|another mirror/claims to be a component of gm1
49 \000|older
49 \002|newer
45 \001|newer
45 \001 49 \000|newer
53 \011|changed
0 g|no metadata
END
cp "$work/as-registered" "$bench/images/a.img"
overwrite "$bench/images/a.img" 100 '\001'
stands 'a bit that was flipped' damaged
head -c 2048 /dev/zero >"$bench/images/a.img"
stands 'zeros' 'no metadata'
tail -c 512 "$work/as-registered" | cat "$work/as-registered" - >"$bench/images/a.img"
stands 'a sector more' 'another size'
tail -c 1536 "$work/as-registered" >"$bench/images/a.img"
stands 'a sector less' 'another size'
: >"$bench/images/a.img"
stands 'no byte' absent
rm "$bench/images/a.img"
stands 'no file' absent
[ -z "$wrong" ] && pass 'each way in which an image stands' || fail 'each way in which an image stands' "$wrong"

# ---- a registry that isn't one, or knows nothing

fresh_bench mistyped
for form in '' --json; do
    at_bench check $form
    expect "no registry $form" 3 '' "gmbench: F2 store
F2: there is no registry at $registry"
    : >"$registry"
    at_bench check $form
    expect "a file of 0 bytes $form" 3 '' "gmbench: F2 store
F2: $registry holds no registry: it is empty, or its making was stopped"
    rm "$registry"
done
at_bench status
at_bench check
expect 'one that a mistyped path made' 1 "no mirrors
$(ending 0 0 "$amiss")" ''

# ---- a registry that is nearly full

# A list of how many commands were accepted, with when a new registry is due and whether all is well.
nearly_full='79999|not yet|0
80000|soon|0
81234|soon|0
94999|soon|0
95000|now|1
99999|now|1
100000|now|1'
if command -v sqlite3 >/dev/null; then
    fresh_bench filled
    batch "$label"
    accepted=1
    echo "$nearly_full" >"$work/nearly-full"
    while IFS='|' read -r commands due status_then; do
        put_accepted "$accepted" "$commands"
        accepted=$commands
        case $due in
            'not yet') line= ;;
            *) line="commands $commands of 100000: renew the registry $due, by gmbench renew
" ;;
        esac
        [ "$status_then" = 0 ] && verdict=$well || verdict=$amiss
        at_bench check
        expect "a check after $commands commands" "$status_then" "$of_one
$line$(ending "$commands" 1 "$verdict")" ''
        at_bench check --json
        [ "$status" = "$status_then" ] && grep -q "\"commands\":$commands,.*\"renew\":\"$due\"}" "$work/output" &&
            pass 'the same as JSON' || fail 'the same as JSON' "status $status, '$(cat "$work/output")'"
    done <"$work/nearly-full"
else
    skip 'a registry that is nearly full' 'there is no sqlite3 here'
fi

# ---- images that claim to be components

fresh_bench claims
batch "$label$insert"
at_bench sync --quiet
keep_bench
# Whether a check ends so, with this line of c.img if there is one.
claims() {
    at_bench check
    told=$(sed -n '/^c\.img /p' "$work/output")
    if [ "$status" = "$2" ] && [ "$told" = "$3" ]; then
        pass "$1"
    else
        fail "$1" "status $status, '$(cat "$work/output")'"
    fi
}
cp "$bench/images/b.img" "$bench/images/c.img"
claims 'a copy of a member under another name' 1 'c.img claims to be a component of gm0'
at_bench check
expect 'its line comes before the registry' 1 "$of_filled
c.img claims to be a component of gm0
$(ending 3 1 "$amiss")" ''
at_bench check --json
[ "$status" = 1 ] && grep -q '^{"amiss":\[\],"claims":\[{"given_up":false,"mirror":"gm0","name":"c.img"}\],' "$work/output" &&
    pass 'the same as JSON' || fail 'the same as JSON' "status $status, '$(cat "$work/output")'"
cp "$bench/images/b.img" "$bench/images/d.img"
at_bench check
expect 'two copies' 1 "$of_filled
c.img claims to be a component of gm0
d.img claims to be a component of gm0
$(ending 3 1 "$amiss")" ''
rm "$bench/images/d.img"
# A list of bytes of the copy's last sector that are others, each with the status and the line then.
while IFS='|' read -r edits status_then line; do
    cp "$work/kept-images/b.img" "$bench/images/c.img"
    edit_sector "$bench/images/c.img" $edits
    rehash "$bench/images/c.img"
    claims "a copy that says others at $edits" "$status_then" "$line"
done <<'END'
40 \010|1|c.img claims to be a component of gm0
45 \001|1|c.img claims to be a component of gm0
36 \010|0|
20 gm1|0|
95 b.img|0|
95 c.img|1|c.img claims to be a component of gm0
END
cp "$work/kept-images/b.img" "$bench/images/c.img"
overwrite "$bench/images/c.img" 100 '\001'
claims 'a copy that is damaged' 0 ''
head -c 512 /dev/zero | cat - "$work/kept-images/b.img" >"$bench/images/c.img"
claims 'a copy in another size' 0 ''
rm "$bench/images/c.img"
batch 'k9 remove gm0 b.img\n'
claims 'a member that was removed' 0 ''
[ -f "$bench/images/b.img" ] && ! grep -q '^b.img' "$work/output" && pass 'it has no line' || fail 'it has no line' "$(cat "$work/output")"

# ---- one that was given up as lost

put_back
mv "$bench/images/b.img" "$work/away"
batch 'k9 lost gm0 b.img\nk10 forget gm0\n'
at_bench check
expect 'while it is away' 0 "$of_one
$(ending 5 1 "$well")" ''
mv "$work/away" "$bench/images/b.img"
at_bench check
expect 'one that comes back' 0 "$of_one
b.img was given up as lost by gm0
$(ending 5 1 "$well")" ''
at_bench check --json
[ "$status" = 0 ] && grep -q '"claims":\[{"given_up":true,"mirror":"gm0","name":"b.img"}\],' "$work/output" &&
    pass 'the same as JSON' || fail 'the same as JSON' "status $status, '$(cat "$work/output")'"

# ---- a check after a stop

stopped_remove stopped
keep_bench
at_bench check
[ "$status" = 1 ] && grep -qx '[0-9]* writes are pending' "$work/output" && tail -n 1 "$work/output" | grep -qx "$amiss" &&
    pass 'writes that are pending' || fail 'writes that are pending' "status $status, '$(cat "$work/output")'"
expect_kept 'it carried out none of them'
at_bench check --json
[ "$status" = 1 ] && grep -q '"pending":[1-9][0-9]*,' "$work/output" && grep -q '"well":false' "$work/output" &&
    pass 'the same as JSON' || fail 'the same as JSON' "status $status, '$(cat "$work/output")'"

# ---- a check beside a look

if command -v flock >/dev/null; then
    {
        flock -s 9
        at_bench check --json
    } 9<"$bench/images"
    [ "$status" = 1 ] && pass 'a check beside a look' || fail 'a check beside a look' "status $status, '$(cat "$work/complaints")'"
else
    skip 'a check beside a look' 'there is no flock here'
fi
finish
