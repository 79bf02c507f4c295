# Paths without a registry: which commands make one, and what the others say.
. "$helpers/bench.sh"
. "$helpers/rights.sh"

# ---- which commands make a registry if there is none, and say so

# Begins a bench whose registry isn't made yet.
fresh_bench mistyped
fault='gmbench: F2 store'
said="$fault
F2: there is no registry at $registry"

for command in recover status list audit batch; do
    rm -f "$registry" "$registry-wal"
    case $command in
        recover) new='recovered 0' ;;
        status | list) new='no mirrors' ;;
        *) new='' ;;
    esac
    at_bench $command </dev/null
    expect "$command makes one" 0 "$new" "a new registry was made at $registry"
    at_bench $command </dev/null
    expect "$command says nothing of one that is there" 0 "$new" ''
    [ -s "$work/complaints" ] && fail "$command says so once" "$(cat "$work/complaints")" || pass "$command says so once"
done
rm -f "$registry" "$registry-wal"
at_bench do k1 label --mid 7 --did 1 gm0 a.img
expect 'do makes one for a label' 0 'k1 ok 1' "a new registry was made at $registry"
rm -f "$registry" "$registry-wal"
at_bench do k1 adopt gm0 a.img
expect 'do makes one for an adopt' 0 'k1 ok 1' "a new registry was made at $registry"
: >"$work/empty"
registry=$work/empty
at_bench status
expect 'an empty file is taken for one' 0 'no mirrors' ''
registry=$bench/registry

# ---- those that have nothing to do at a new one

rm -f "$registry" "$registry-wal"
for command in insert remove deactivate activate forget rebuild configure clear destroy lost advance patch none; do
    at_bench do k1 $command gm0 b.img
    expect "do with $command makes none" 3 '' "$said"
    expect_none "do with $command leaves none" "$registry"
done
for command in sync scrub check pending renew; do
    at_bench $command
    expect "$command makes none, and says why by itself" 3 '' "$said"
    expect_none "$command leaves none" "$registry"
done
for command in pending log; do
    run $command --registry "$registry" --explain
    expect "$command without a folder says why" 3 '' "$said"
    expect_none "$command leaves none" "$registry"
done
for command in status list audit; do
    at_bench $command --read-only --explain
    expect "$command with --read-only says why" 3 '' "$said"
done
ln -s "$work/unmounted/registry" "$bench/link"
ln -s "$bench/registry" "$bench/another-link"
for link in link another-link; do
    registry=$bench/$link
    at_bench sync --explain
    expect "a link that leads nowhere, as $link" 3 '' "$fault
F2: there is no registry at $registry"
done
registry=$bench/registry
expect_none 'none is made where a link leads' "$registry"

# ---- --existing, and what stands for it

for words in recover status list audit batch 'serve --port 0 --count 1'; do
    at_bench $words --existing --explain </dev/null
    expect "${words%% *} with --existing" 3 '' "$said"
    GMBENCH_EXISTING=1
    export GMBENCH_EXISTING
    at_bench $words </dev/null
    expect "${words%% *} with GMBENCH_EXISTING" 3 '' "$fault"
    unset GMBENCH_EXISTING
    expect_none "${words%% *}: none is left" "$registry"
done
run do --existing --registry "$registry" --shelf "$bench/images" k1 label --mid 7 --did 1 gm0 a.img
expect 'a label with --existing' 3 '' "$said"
expect_images 'a registry that is not there leaves the images' fresh bare
for value in '' 0; do
    GMBENCH_EXISTING=$value
    export GMBENCH_EXISTING
    at_bench status
    expect "GMBENCH_EXISTING as '$value' is none" 0 'no mirrors' "a new registry was made at $registry"
    unset GMBENCH_EXISTING
    rm -f "$registry" "$registry-wal"
done
at_bench status
at_bench status --existing
expect 'a registry that is there, with --existing' 0 'no mirrors' ''

# ---- what is said if none can be made

registry=$bench/nowhere/registry
at_bench status --explain
expect 'a folder that is not there' 3 '' "$fault
F2: there is no folder for a registry at $registry"
registry=$bench/images
at_bench status --explain
expect 'a folder in its place' 3 '' "$fault
F2: $registry isn't a regular file"
registry=$bench/registry
ln "$registry" "$bench/second"
at_bench status --explain
expect 'a second name of it' 3 '' "$fault
F2: $registry has a second name, by a hard link"
rm "$bench/second"
: >"$registry-journal"
echo x >"$registry-journal"
at_bench status --explain
expect 'a journal of it' 3 '' "$fault
F2: $registry has a rollback journal: open it with sqlite3 first"
rm "$registry-journal"
if has_another_user; then
    chmod -R a+rwX "$bench"
    chmod 644 "$registry"
    run_as_another status --explain --registry "$registry" --shelf "$bench/images"
    skip_without_program 'a registry that may not be written' ||
        expect 'a registry that may not be written' 3 '' "$fault
F2: $registry may not be read and written by this user"
    mkdir -m 755 "$bench/closed"
    run_as_another status --explain --registry "$bench/closed/registry" --shelf "$bench/images"
    skip_without_program 'a folder in which none may be made' ||
        expect 'a folder in which none may be made' 3 '' "$fault
F2: there is no registry at $bench/closed/registry, and none can be made there"
else
    skip 'a registry that may not be written' 'there is no other user here'
fi

# ---- what is said of a folder

run status --explain --registry "$registry" --shelf "$bench/nothing"
expect 'no folder' 3 '' "$broken
input or output: there is no folder $bench/nothing"
run status --explain --registry "$registry" --shelf "$registry"
expect 'a file in the place of the folder' 3 '' "$broken
input or output: $registry isn't a folder"
rm "$bench/images/b.img"
ln "$bench/images/a.img" "$bench/images/b.img"
GMBENCH_EXPLAIN=1
export GMBENCH_EXPLAIN
at_bench status
case $(tail -n 1 "$work/complaints") in
    'input or output: a.img and b.img are one file, by a hard link' | 'input or output: b.img and a.img are one file, by a hard link')
        pass 'two images that are one file'
        ;;
    *) fail 'two images that are one file' "$(cat "$work/complaints")" ;;
esac
run taste --shelf "$bench/nothing"
expect 'a taste of no folder' 3 '' "$broken
input or output: there is no folder $bench/nothing"
run dump --shelf "$bench/nothing" a.img
expect 'a dump of no folder' 3 '' "$broken
input or output: there is no folder $bench/nothing"
unset GMBENCH_EXPLAIN
at_bench status
expect 'without the variable nothing is said' 3 '' "$broken"
finish
