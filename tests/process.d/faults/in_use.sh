# Folders and registries in use that are waited for.
. "$helpers/under_way.sh"

# ---- a folder and a registry in use are waited for

# A batch holds both.
fresh_bench waited-for
at_bench recover
begin_batch 'k1 clear b.img\n'
for command in recover status list audit sync scrub check; do
    at_bench $command --explain
    expect "$command doesn't wait by itself" 3 '' "$broken
input or output: another gmbench holds the folder $bench/images"
done
before=$(date +%s)
at_bench status --wait 2 --explain
expect 'what is in use for longer' 3 '' "$broken
input or output: another gmbench holds the folder $bench/images"
[ $(($(date +%s) - before)) -ge 2 ] && pass 'it waited as long as it was told' ||
    fail 'it waited as long as it was told' "$(($(date +%s) - before)) seconds"
mkdir "$bench/others"
run status --registry "$registry" --shelf "$bench/others" --explain
expect 'a registry in use' 3 '' "gmbench: F2 store
F2: another program has $registry open"
run status --registry "$registry" --shelf "$bench/others" --explain --wait 1
expect 'a registry in use for longer' 3 '' "gmbench: F2 store
F2: another program has $registry open"
run pending --registry "$registry" --explain
expect 'a registry in use, looked at' 3 '' "gmbench: F2 store
F2: another program has $registry open"

# Each of these waits until the batch ends, whose input they don't keep open.
waiting=
for command in status pending 'status --read-only'; do
    timeout 60 "$gmbench" $command --wait 50 --registry "$registry" --shelf "$bench/images" \
        >"$work/waited" 2>&1 3>&- &
    waiting="$waiting $!"
done
timeout 60 "$gmbench" status --wait 50 --registry "$registry" --shelf "$bench/others" >"$work/waited" 2>&1 3>&- &
waiting="$waiting $!"
sleep 1
end_batch
expect 'the batch that is waited for' 1 'k1 refused 29' ''
for one in $waiting; do
    wait "$one" && pass 'what waited is done' || fail 'what waited is done' "status $?"
done
GMBENCH_REGISTRY=$registry
export GMBENCH_REGISTRY
for words in 'status --wait x' 'status --wait -1' 'status --wait 86401' 'dump --wait 1 a.img' 'taste --wait 1'; do
    run $words --shelf "$bench/images"
    expect_words "$words"
done
unset GMBENCH_REGISTRY
finish
