# Components that are filled by sync: scope, keys, audit, stops, and how far it is.
. "$helpers/bench.sh"

# ---- components that are filled by `sync`

fresh_bench synced
batch "$label$insert"
at_bench sync
expect 'a component is filled' 0 "$(lines 'gm0 a.img ACTIVE\ngm0 b.img ACTIVE')" 'b.img 100%: 1.5 of 1.5 KiB'
at_bench status
expect 'a status of it' 0 "$of_filled" ''
expect_same_data 'it has the data' "$bench/images/a.img" "$bench/images/b.img" 1536
printf 'k9 advance gm0 b.img\nsync-3 advance gm0 b.img\n' >"$work/lines"
at_bench batch <"$work/lines"
expect 'its key is made from the number of commands' 1 "$(lines 'k9 refused 22\nsync-3 repeated 3')" ''
at_bench sync
expect 'where nothing is left it says so' 0 "$(lines 'gm0 a.img ACTIVE\ngm0 b.img ACTIVE')" ''
at_bench sync gm1
expect 'a mirror that is not there' 1 'refused 5' 'refused 5: no mirror is named gm1'
at_bench sync gm0 c.img
expect 'a component that is not there' 1 'refused 12' "refused 12: c.img isn't a component of gm0, or is named twice"
at_bench sync gm0 a.img
expect 'one component alone' 0 'gm0 a.img ACTIVE' ''
at_bench sync a/b
expect_words 'a name that is none'

# ---- keys that were taken, several stretches, and quiet

fresh_bench taken
put_long_image "$bench/images/a.img" x
put_long_image "$bench/images/b.img" y
batch "$label${insert}sync-4 configure --balance prefer gm0\n"
at_bench sync --quiet gm0 b.img
expect 'a key that was taken is gone round' 0 'gm0 b.img ACTIVE' ''
expect_same_data 'all data are copied' "$bench/images/a.img" "$bench/images/b.img" 131584

# ---- images that are not as they are registered

passed_over='is passed over: not all of its images are as they are registered'
fresh_bench exchanged
batch "$label$insert"
mv "$bench/images/a.img" "$work/moved"
mv "$bench/images/b.img" "$bench/images/a.img"
mv "$work/moved" "$bench/images/b.img"
keep_bench
at_bench sync
expect 'names that were exchanged' 1 "$(lines 'a.img\nb.img')" "gm0 $passed_over"
expect_kept 'nothing was written'
at_bench sync --unchecked
expect 'unless it is not to look' 0 "$(lines 'gm0 a.img ACTIVE\ngm0 b.img ACTIVE')" 'b.img 100%: 1.5 of 1.5 KiB'

# Another mirror's images don't matter if one is named.
fresh_bench beside
put_image "$bench/images/c.img" c bare
batch "$label${insert}k3 label --mid 8 --did 1 gm1 c.img\n"
damage "$bench/images/c.img" 1600 x
at_bench sync gm0
expect 'an image of another mirror' 0 "$(lines 'gm0 a.img ACTIVE\ngm0 b.img ACTIVE')" 'b.img 100%: 1.5 of 1.5 KiB'
at_bench sync
expect 'all mirrors' 1 "$(lines 'c.img\ngm0 a.img ACTIVE\ngm0 b.img ACTIVE')" "gm1 $passed_over"

# A mirror with an image that was replaced is passed over, and the other is filled.
fresh_bench replaced
put_image "$bench/images/c.img" c bare
put_image "$bench/images/d.img" d bare
batch "$label${insert}k3 label --mid 8 --did 1 gm1 c.img\nk4 insert --did 2 gm1 d.img\n"
head -c 2048 /dev/zero >"$work/zeros"
cp "$work/zeros" "$bench/images/c.img"
cp "$bench/images/d.img" "$work/d.img"
at_bench sync
expect 'a mirror with an image that was replaced' 1 "$(lines 'c.img\ngm0 a.img ACTIVE\ngm0 b.img ACTIVE')" \
    "b.img 100%: 1.5 of 1.5 KiB
gm1 $passed_over"
expect_same_data 'the other mirror is filled' "$bench/images/a.img" "$bench/images/b.img" 1536
expect_same 'the image that was replaced stays' "$bench/images/c.img" "$work/zeros"
expect_same 'so does the other image of its mirror' "$bench/images/d.img" "$work/d.img"
at_bench sync gm1
expect 'such a mirror alone' 1 'c.img' "gm1 $passed_over"
at_bench sync gm1 d.img
expect 'a component beside such an image' 1 'c.img' "gm1 $passed_over"

# ---- one that waits for a rebuild

fresh_bench stale
batch "k1 label --mid 7 --did 1 --autosync off gm0 a.img\n$insert"
at_bench sync
expect 'a component that is STALE is named' 0 "$(lines 'gm0 a.img ACTIVE\ngm0 b.img STALE')" \
    'b.img is STALE: rebuild lets it be filled'
batch 'k3 rebuild gm0 b.img\n'
at_bench sync
expect 'behind a rebuild it is filled' 0 "$(lines 'gm0 a.img ACTIVE\ngm0 b.img ACTIVE')" 'b.img 100%: 1.5 of 1.5 KiB'

# ---- a registry that is nearly full

# What is said if a sync takes more commands than the registry.
room_for() {
    echo "this takes $1 commands, and the registry takes $2 more: renew it first"
}

fresh_bench full
put_long_image "$bench/images/a.img" x
put_long_image "$bench/images/b.img" y
batch "$label$insert"
if command -v sqlite3 >/dev/null; then
    put_accepted 2 99999
    keep_bench
    at_bench sync
    expect 'nothing is filled if that takes more commands than are left' 1 'refused 4' "$(room_for 2 1)"
    expect_kept 'nothing is written then'
    at_bench sync --json
    expect 'the same as JSON' 1 '{"answer":"refused","number":4}' "$(room_for 2 1)"
    put_back
    sqlite3 "$registry" 'DELETE FROM commands WHERE seq = 99999'
    at_bench sync --quiet
    expect 'it is filled if just so many are left' 0 "$(lines 'gm0 a.img ACTIVE\ngm0 b.img ACTIVE')" \
        'the registry has 99998 of 100000 commands: renew it soon'
    # What is passed over is told also if an advance of another mirror is refused.
    fresh_bench full_beside
    put_image "$bench/images/c.img" c bare
    batch "$label${insert}k3 label --mid 8 --did 1 gm1 c.img\n"
    damage "$bench/images/c.img" 1600 x
    put_accepted 3 100000
    at_bench sync
    expect 'the commands of a mirror that would be passed over count too' 1 'refused 4' "$(room_for 1 0)"
    # Ten stretches are handed in together, and there is room for just ten.
    fresh_bench ten_more
    for one in a b; do
        head -c 1310720 /dev/urandom >"$bench/images/$one.img"
        head -c 512 /dev/zero >>"$bench/images/$one.img"
    done
    batch "$label$insert"
    put_accepted 2 99990
    at_bench sync --quiet
    expect 'a series takes the greatest number' 0 "$(lines 'gm0 a.img ACTIVE\ngm0 b.img ACTIVE')" \
        'the registry has 99990 of 100000 commands: renew it soon'
    expect_same_data 'it copied ten stretches' "$bench/images/a.img" "$bench/images/b.img" 1310720
    batch 'sync-100000 advance gm0 b.img\nsync-100001 advance gm0 b.img\n'
    expect 'the last of them has its own answer' 1 "$(lines 'sync-100000 repeated 100000\nsync-100001 refused 4')" ''
    # What a sync leaves is what the same advances leave one by one: images, and all that is kept of commands.
    fresh_bench together
    for one in a b; do
        head -c 1535488 /dev/urandom >"$bench/images/$one.img"
        head -c 512 /dev/zero >>"$bench/images/$one.img"
        cp "$bench/images/$one.img" "$work/$one.before"
    done
    batch "$label$insert"
    at_bench sync --quiet
    sqlite3 "$registry" 'SELECT * FROM commands; SELECT * FROM components; SELECT * FROM intents' >"$work/kept.together"
    cp "$bench/images/a.img" "$work/a.together"
    cp "$bench/images/b.img" "$work/b.together"
    fresh_bench one_by_one
    cp "$work/a.before" "$bench/images/a.img"
    cp "$work/b.before" "$bench/images/b.img"
    batch "$label$insert$(for n in 3 4 5 6 7 8 9 10 11 12 13 14; do printf 'sync-%s advance gm0 b.img\\n' $n; done)"
    sqlite3 "$registry" 'SELECT * FROM commands; SELECT * FROM components; SELECT * FROM intents' >"$work/kept.one_by_one"
    expect_same 'a sync keeps what its advances keep one by one' "$work/kept.together" "$work/kept.one_by_one"
    expect_same 'it leaves the same source' "$bench/images/a.img" "$work/a.together"
    expect_same 'and the same copy' "$bench/images/b.img" "$work/b.together"
else
    skip 'a registry that is nearly full' 'there is no sqlite3 here'
fi

# ---- a mirror of 16, killed and gone on with

fresh_bench sixteen
head -c 4194304 /dev/urandom >"$bench/images/a.img"
head -c 512 /dev/zero >>"$bench/images/a.img"
printf "$label" >"$work/lines"
for one in 1 2 3 4 5 6 7 8 9 10 11 12 13 14 15; do
    truncate -s 4194816 "$bench/images/s$one.img"
    echo "i$one insert --did $((one + 1)) gm0 s$one.img"
done >>"$work/lines"
rm "$bench/images/b.img"
at_bench batch <"$work/lines"
[ "$status" = 0 ] && pass 'a mirror of 16' || fail 'a mirror of 16' "status $status, $(tail -n 1 "$work/output")"
# The next begins when the one before has gone: until then that holds the folder.
killed=0
for seconds in 0.02 0.04 0.06 0.08 0.1; do
    "$gmbench" sync --quiet --registry "$registry" --shelf "$bench/images" >/dev/null 2>&1 &
    under_way=$!
    sleep "$seconds"
    kill -9 "$under_way" 2>/dev/null
    wait "$under_way" 2>/dev/null
    [ $? != 137 ] || killed=$((killed + 1))
done
[ "$killed" -gt 0 ] && pass 'a sync is killed under way' || fail 'a sync is killed under way' 'each was done before'
# That is 60 MB: it may take longer than other runs do.
timeout 120 "$gmbench" sync --quiet --registry "$registry" --shelf "$bench/images" >"$work/output" 2>"$work/complaints"
status=$?
[ "$status" = 0 ] && [ "$(grep -c '^gm0 .* ACTIVE$' "$work/output")" = 16 ] &&
    pass 'a sync that was killed is gone on with' ||
    fail 'a sync that was killed' "status $status, $(head -n 3 "$work/output"), $(head -n 1 "$work/complaints")"
at_bench audit
expect 'an audit behind it' 0 '' ''
same=yes
for one in 1 5 15; do
    cmp -s -n 4194304 "$bench/images/a.img" "$bench/images/s$one.img" || same="s$one.img differs"
done
[ "$same" = yes ] && pass 'all have the data' || fail 'all have the data' "$same"

# ---- a bar at a terminal

# Has an image whose name is as long as a name may be filled at a terminal of so many columns, with this in COLUMNS, or
# with nothing of that name if it is `-`. What the bar shows is kept, a line each time.
fill_at_terminal() {
    batch "r$1-$2 rebuild gm0 fifteen-letters\n"
    {
        echo "stty columns $1"
        [ "$2" = - ] && echo 'unset COLUMNS' || echo "export COLUMNS=$2"
        echo "\"$gmbench\" sync --registry \"$registry\" --shelf \"$bench/images\""
    } >"$work/typed"
    script -qec "sh $work/typed" /dev/null </dev/null >"$work/terminal" 2>/dev/null
    tr '\r' '\n' <"$work/terminal" | sed "s/$(printf '\033')\[K//g" | grep '^fifteen-letters ' >"$work/shown"
}

# Whether all that the bar shows has its fields, and so many columns at most. The per cents are always there.
expect_bar() {
    wide=$(awk -v most="$2" 'length > most' "$work/shown" | head -n 1)
    other=$(grep -vx "$bar" "$work/shown" | head -n 1)
    if [ -s "$work/shown" ] && [ -z "$wide$other" ]; then
        pass "$1"
    else
        fail "$1" "too wide is '$wide', of another form '$other', in all '$(head -n 3 "$work/shown")'"
    fi
}
bar='fifteen-letters [0-9]*%\( [0-9.]* of 4 MiB\)\{0,1\}\( [0-9]*:[0-9][0-9] left\)\{0,1\}\( [0-9.]* [KMG]iB/s\)\{0,1\}'

if command -v script >/dev/null; then
    fresh_bench beside-a-bar
    rm "$bench/images/b.img"
    head -c 4194816 /dev/zero >"$bench/images/a.img"
    cp "$bench/images/a.img" "$bench/images/fifteen-letters"
    batch "${label}k2 insert --did 2 gm0 fifteen-letters\nk3 advance gm0 fifteen-letters\n"
    while read -r columns told most; do
        fill_at_terminal "$columns" "$told"
        expect_bar "a bar in $columns columns, and COLUMNS is $told" "$most"
    done <<'END'
40 - 39
200 - 39
100 19 39
100 501 39
100 many 39
20 20 20
200 200 200
END
    grep -q '^fifteen-letters [0-9]*% [0-9.]* of 4 MiB' "$work/shown" && pass 'a wide one says how much is done' ||
        fail 'a wide one says how much is done' "$(head -n 1 "$work/shown")"
    grep -q "$(printf '\r\033\[K')gm0 a.img ACTIVE" "$work/terminal" && pass 'it is taken away at the end' ||
        fail 'it is taken away at the end' "$(tail -n 3 "$work/terminal")"
else
    skip 'a bar at a terminal' 'there is no script(1) here'
fi
finish
