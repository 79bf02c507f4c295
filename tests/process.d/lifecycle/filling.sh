# Components that are filled, stretch by stretch, and from where.
. "$helpers/bench.sh"

# ---- a component that is filled

fresh_bench filled
batch "$label${insert}k3 advance gm0 b.img\nk3 advance gm0 b.img\nk4 advance gm0 b.img\n"
expect 'a component is filled' 1 "$(lines 'k1 ok 1\nk2 ok 2\nk3 ok 3 copied 3 of 3\nk3 repeated 3\nk4 refused 22')" ''
at_bench status
expect 'a status of it' 0 "$of_filled" ''
expect_same_data 'it has the data' "$bench/images/a.img" "$bench/images/b.img" 1536
run dump --shelf "$bench/images" b.img
expect 'a dump of it' 0 "$(dumped 2 2 NONE 82a62a43cbda6b9da3c8add09f6af192)" ''
batch 'k4 advance gm1 b.img
k4 advance gm0 c.img
k4 advance gm0 a.img
k4 advance gm0
k4 advance gm0 a.img b.img
k4 advance
'
expect 'an advance that is refused' 1 "$(lines 'k4 refused 5\nk4 refused 8\nk4 refused 22\nk4 refused 1\nk4 refused 1
k4 refused 1')" ''
batch 'k4 deactivate gm0 b.img\nk5 advance gm0 b.img\n'
expect 'one that is out of use is not filled' 1 "$(lines 'k4 ok 4\nk5 refused 21')" ''
run dump --shelf "$bench/images" a.img
expect 'a dump of the other' 0 "$(dumped 1 2 NONE baebd88cecc8f0f63835f2fc6960fb11 | sed 's/^syncid: .*/syncid: 2/')" ''
run dump --shelf "$bench/images" b.img
expect 'a dump of it while it is out of use' 0 "$(dumped 2 2 INACTIVE 3e8215ef842e068e129321324a08d319)" ''
batch 'k5 activate gm0 b.img\n'
expect 'it comes back' 0 'k5 ok 5' ''
run dump --shelf "$bench/images" b.img
expect 'a dump of it as it comes back' 0 "$(dumped 2 2 SYNCHRONIZING 5bf243e50e23386fa3b642725e93b017 | sed 's/^syncid: .*/syncid: 2/')" ''
at_bench status
expect 'a status of it as it comes back' 0 "$of_two" ''
batch 'k6 advance gm0 b.img\n'
expect 'it is filled anew' 0 'k6 ok 6 copied 3 of 3' ''

# ---- by two stretches

# What a dump says of the second component on such an image.
long_dumped() {
    dumped 2 2 "$1" "$2" | sed "s/^mediasize: .*/mediasize: 131584/
        s/^sync_offset: .*/sync_offset: $3/
        s/^provsize: .*/provsize: 132096/"
}

fresh_bench long
put_long_image "$bench/images/a.img" x
put_long_image "$bench/images/b.img" y
batch "$label${insert}k3 advance gm0 b.img\n"
expect 'a stretch is copied' 0 "$(lines 'k1 ok 1\nk2 ok 2\nk3 ok 3 copied 256 of 257')" ''
at_bench status
expect 'a status between two stretches' 0 "$(whole_lines "$of_two" | sed 's/0 of 3/256 of 257/')" ''
run dump --shelf "$bench/images" b.img
expect 'a dump between them' 0 "$(long_dumped SYNCHRONIZING 951fcaf16eb3bdd126c899b87a1afbfd 131072)" ''
batch 'k3 advance gm0 b.img\nk4 advance gm0 b.img\n'
expect 'and the rest' 0 "$(lines 'k3 repeated 3\nk4 ok 4 copied 257 of 257')" ''
run dump --shelf "$bench/images" b.img
expect 'a dump behind them' 0 "$(long_dumped NONE 90741a66227e367cf5da9571396f5364 0)" ''
expect_same_data 'all data are copied' "$bench/images/a.img" "$bench/images/b.img" 131584

# ---- one that isn't filled by itself

fresh_bench waiting
batch "${label}k2 configure --autosync off gm0\nk3 insert --did 2 gm0 b.img\nk4 advance gm0 b.img\nk5 rebuild gm0 b.img\n"
expect 'a stale component waits for a rebuild' 1 "$(lines 'k1 ok 1\nk2 ok 2\nk3 ok 3\nk4 refused 22\nk5 ok 4')" ''
run dump --shelf "$bench/images" b.img
expect 'a dump of it then' 0 "$(dumped 2 2 SYNCHRONIZING,FORCE_SYNC 43daa2f03a139ee39a3e7199375f68ae | sed 's/^mflags: .*/mflags: NOAUTOSYNC/')" ''
at_bench status
expect 'a status of it then' 0 "$of_two" ''
batch 'k6 advance gm0 b.img\n'
expect 'then it is filled' 0 'k6 ok 5 copied 3 of 3' ''
run dump --shelf "$bench/images" b.img
expect 'a dump of it at last' 0 "$(dumped 2 2 NONE 387dbdd11a60c88fca5e5ffff4444a26 | sed 's/^mflags: .*/mflags: NOAUTOSYNC/')" ''

# ---- where a stretch is copied from

# A mirror of a.img and c.img with these priorities, both in sync, and b.img, which is to be filled. Then somebody else
# writes other data on c.img, so that it shows from where they are copied.
two_sources() {
    fresh_bench "$1"
    put_image "$bench/images/c.img" c bare
    batch "${label}k2 insert --did 3 --priority $3 gm0 c.img\nk3 advance gm0 c.img\nk4 insert --did 2 --priority 255 gm0 b.img
k5 configure --prov a.img --priority $2 gm0\n"
    expect "a mirror of two with the priorities $2 and $3" 0 \
        "$(lines 'k1 ok 1\nk2 ok 2\nk3 ok 3 copied 3 of 3\nk4 ok 4\nk5 ok 5')" ''
    head -c 1536 /dev/zero | tr '\0' c | dd of="$bench/images/c.img" conv=notrunc 2>/dev/null
}

two_sources sources 0 3
batch 'k6 advance gm0 b.img\n'
expect 'a stretch' 0 'k6 ok 6 copied 3 of 3' ''
expect_same_data 'it comes from the greatest priority' "$bench/images/c.img" "$bench/images/b.img" 1536

two_sources equals 3 3
batch 'k6 advance gm0 b.img\n'
expect 'a stretch among equals' 0 'k6 ok 6 copied 3 of 3' ''
expect_same_data 'it comes from the least name' "$bench/images/a.img" "$bench/images/b.img" 1536

two_sources withdrawn 0 3
batch 'k6 deactivate gm0 c.img\nk7 advance gm0 b.img\n'
expect 'a stretch while the best is out of use' 0 "$(lines 'k6 ok 6\nk7 ok 7 copied 3 of 3')" ''
expect_same_data 'it comes from another' "$bench/images/a.img" "$bench/images/b.img" 1536

# ---- one of many mirrors

fresh_bench many
for number in $(seq 1 64); do
    put_image "$bench/images/m$number.img" m bare
    echo "k$number label --mid $number --did 1 gm$number m$number.img"
done >"$work/lines"
echo 'k65 insert --did 2 gm7 b.img' >>"$work/lines"
at_bench batch <"$work/lines"
at_bench list
cp "$work/output" "$work/before"
batch 'k66 advance gm7 b.img\n'
expect 'an advance among 64 mirrors' 0 'k66 ok 66 copied 3 of 3' ''
at_bench list
diff "$work/before" "$work/output" | grep '^[<>]' >"$work/changed"
cat >"$work/wanted-changed" <<'END'
< State: DEGRADED
> State: COMPLETE
<   State: SYNCHRONIZING
>   State: ACTIVE
<   Flags: SYNCHRONIZING
>   Flags: NONE
END
expect_same 'it changes one record' "$work/changed" "$work/wanted-changed"
finish
