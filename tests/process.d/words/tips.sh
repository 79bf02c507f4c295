# What is said of words in a wrong place: a forgotten `do` or key, an option before the command or after the key.
. "$helpers/help.sh"
. "$helpers/bench.sh"

# Whether the last run ended so, and its last complaint is this tip.
expect_tip() {
    told=$(tail -n 1 "$work/complaints")
    [ "$status" = "$2" ] && [ "$told" = "tip: $3" ] && pass "$1" || fail "$1" "status $status, '$told'"
}
expect_no_tip() {
    [ "$status" = "$2" ] && ! grep -q '^tip: ' "$work/complaints" && pass "$1" || fail "$1" "status $status, '$(cat "$work/complaints")'"
}

fresh_bench tips
at_bench recover
keep_bench
command_lines >"$work/commands"
[ "$(grep -c . "$work/commands")" = 14 ] && pass 'the help has the commands' || fail 'the help has the commands' "$(cat "$work/commands")"
while read -r word behind; do
    at_bench do "$word" gm0 a.img
    expect_tip "$word without a key" 1 "a key comes after do: gmbench do KEY $word .., or without both gmbench $word .."
done <"$work/commands"
at_bench do k1 paint gm0
expect_no_tip 'a word of no command' 1
for option in --registry --shelf --existing --explain --wait --unchecked --force; do
    at_bench do k1 label --mid 7 --did 1 "$option" gm0 a.img
    expect_tip "$option after the key" 1 "$option comes before the key: gmbench do $option .. k1 .."
done
at_bench do k1 remove --shelf=x gm0 a.img
expect_tip 'an option with its value after the key' 1 '--shelf comes before the key: gmbench do --shelf .. k1 ..'
at_bench do k1 label --midway 7 gm0 a.img
expect_no_tip 'an option that nothing has' 1

# ---- no `do`, and options before the command

while read -r word behind; do
    run k1 "$word" gm0 a.img
    expect_tip "$word under a key without do" 2 "gmbench do k1 $word .."
done <"$work/commands"
for words in 'k1' 'k1 paint gm0' 'k1 status' 'paint' 'k/1 label gm0 a.img' 'k12345678901234567890123456789012 label gm0 a.img' \
    '-k label gm0 a.img' 'status label gm0 a.img'; do
    run $words
    expect_no_tip "no tip for $words" 2
done
for option in --registry --shelf --wait --key; do
    run "$option" x label gm0 a.img
    expect_tip "$option before the command" 2 "$option comes after the command: gmbench label $option .."
    run "$option=x" label gm0 a.img
    expect_tip "$option with its value before the command" 2 "$option comes after the command: gmbench label $option .."
done
for option in --explain --existing --unchecked --force; do
    run "$option" label gm0 a.img
    expect_tip "$option before the command" 2 "$option comes after the command: gmbench label $option .."
done
run --registry label --shelf images status
expect_tip 'a value that is called as a command is' 2 '--registry comes after the command: gmbench status --registry ..'
run --shelf images taste
expect_tip 'an option that a taste has' 2 '--shelf comes after the command: gmbench taste --shelf ..'
run --registry registry log
expect_tip 'an option that log has' 2 '--registry comes after the command: gmbench log --registry ..'
for words in '--registry registry taste' '--shelf images log' '--force status' '--registry registry' '--registry' '--midway label gm0 a.img'; do
    run $words
    expect_no_tip "no tip for $words" 2
done
run lable gm0 a.img
[ "$status" = 2 ] && grep -q "a similar subcommand exists: 'label'" "$work/complaints" && pass 'a word with an error in it' ||
    fail 'a word with an error in it' "status $status, '$(cat "$work/complaints")'"
expect_kept 'nothing of all that was done'
at_bench do label label --mid 7 --did 1 gm0 a.img
expect 'a key that is the word of a command' 0 'label ok 1' ''
finish
