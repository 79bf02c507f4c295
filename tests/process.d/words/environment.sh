# Variables that stand for options that are left out.
. "$helpers/bench.sh"

# ---- what the environment says in the place of options that are left out

# Runs the program with such a registry and such a folder in its environment; a word `none` stands for no variable.
run_with() {
    (
        [ "$1" = none ] || export GMBENCH_REGISTRY="$1"
        [ "$2" = none ] || export GMBENCH_SHELF="$2"
        shift 2
        exec timeout 20 "$gmbench" "$@"
    ) >"$work/output" 2>"$work/complaints"
    status=$?
}

fresh_bench environment
shelf=$bench/images
printf "$label" >"$work/lines"
run_with "$registry" "$shelf" batch <"$work/lines"
expect 'a batch with both of the environment' 0 'k1 ok 1' ''
for word in status list recover audit; do
    run_with "$registry" "$shelf" "$word"
    [ "$status" = 0 ] && pass "$word with both of the environment" || fail "$word with both" "status $status"
done
run_with "$registry" "$shelf" status
expect 'a status with both of the environment' 0 "$of_one" ''
run_with "$registry" none status --shelf "$shelf"
expect 'a registry of the environment, and a folder of the words' 0 "$of_one" ''
run_with none "$shelf" status --registry "$registry"
expect 'a folder of the environment, and a registry of the words' 0 "$of_one" ''
run_with none "$shelf" dump a.img
expect 'a dump of a folder of the environment' 0 "$said_by_one" ''
run_with none "$shelf" taste
expect 'a taste of a folder of the environment' 0 'gm0             mid 7 genid 0 syncid 1
  a.img           ACTIVE
  source: a.img
left out:
  b.img           no metadata' ''
run_with none "$shelf" recover --registry "$registry" --without a/b --key k5
expect_words 'a name that is none, with a folder of the environment'

# ---- the words win

run_with "$work/unmade" "$work/nowhere" status --registry "$registry" --shelf "$shelf"
expect 'words beside variables' 0 "$of_one" ''
expect_none 'the registry of the environment is not made' "$work/unmade"
run_with "$byte" "$byte" status --registry "$registry" --shelf "$shelf"
expect 'words beside variables that are no text' 0 "$of_one" ''
run_with "$byte" "$shelf" dump a.img
expect 'a variable that is no text and is not asked for' 0 "$said_by_one" ''

# ---- variables that are not there, and what is no text

run_with none none status
expect_words 'neither of both'
run_with "$registry" none status
expect_words 'a registry of the environment, and no folder'
run_with none "$shelf" status
expect_words 'a folder of the environment, and no registry'
run_with '' "$shelf" status
expect_words 'an empty registry of the environment'
run_with "$registry" '' status
expect_words 'an empty folder of the environment'
for word in status list recover audit batch; do
    run_with "$byte" "$shelf" "$word"
    expect_words "$word with a registry that is no text"
    run_with "$registry" "$byte" "$word"
    expect_words "$word with a folder that is no text"
done
run_with none "$byte" taste
expect_words 'a taste of a folder that is no text'
grep -q "^error: the value of GMBENCH_SHELF isn't UTF-8" "$work/complaints" &&
    pass 'it is said which variable is no text' ||
    fail 'it is said which variable is no text' "$(head -n 1 "$work/complaints")"
run_with "$registry" "$byte" log
[ "$status" = 0 ] && pass 'log needs no folder' || fail 'log needs no folder' "status $status, '$(cat "$work/complaints")'"
run_with "$byte" "$byte" --help
[ "$status" = 0 ] && pass 'the help needs neither' || fail 'the help needs neither' "status $status"
run_with "$work/unmade" "$shelf" status --shelf
expect_words 'an option without its value'
expect_none 'none of these made a registry' "$work/unmade"
finish
