# Standard streams that are closed, full, gone, or fail.
. "$helpers/under_way.sh"

# ---- the standard streams

put_shelf
# Each of these prints something on its standard output.
at_made="--registry $work/made --shelf $shelf"
for words in '' "dump --shelf $shelf a.img" '--help' '--version' "recover $at_made" "status $at_made" "list $at_made"; do
    named="'gmbench $words'"
    timeout 20 "$gmbench" $words >&- 2>"$work/complaints"
    status=$?
    : >"$work/output"
    expect "$named without standard output" 3 '' "$broken"
    if [ -e /dev/full ]; then
        timeout 20 "$gmbench" $words >/dev/full 2>"$work/complaints"
        status=$?
        expect "$named to a full disk" 3 '' "$broken"
    else
        skip "$named to a full disk" 'there is no /dev/full'
    fi
    rm -f "$work/status"
    {
        sleep 1
        timeout 20 "$gmbench" $words 2>"$work/complaints"
        echo $? >"$work/status"
    } | true
    # A shell may go on before the writer has ended.
    wait_for "$work/status"
    status=$(cat "$work/status")
    expect "$named to a reader that has gone" 3 '' "$broken"
done
timeout 20 "$gmbench" dump --shelf "$shelf" a.img <&- >"$work/output" 2>"$work/complaints"
status=$?
expect 'a dump without standard input' 0 "$said" ''
timeout 20 "$gmbench" dump --shelf "$shelf" a.img >"$work/output" 2>&-
status=$?
: >"$work/complaints"
expect 'a dump without standard error' 0 "$said" ''
timeout 20 "$gmbench" dump --shelf "$work/none" a.img >"$work/output" 2>&-
status=$?
expect 'a fault without standard error' 3 '' ''
timeout 20 "$gmbench" paint >"$work/output" 2>/dev/full
status=$?
expect 'wrong words to a full standard error' 3 '' ''
timeout 20 "$gmbench" dump --shelf "$shelf" a.img <&- >&- 2>&-
status=$?
: >"$work/output"
expect 'a dump without any stream' 3 '' ''
timeout 20 "$gmbench" recover --registry "$work/made" --shelf "$shelf" <&- >&- 2>&-
status=$?
expect 'a recovery without any stream' 3 '' ''
unchanged 'no stream became an image'
run recover --registry "$work/made" --shelf "$shelf"
expect 'what was made meanwhile is a registry' 0 'recovered 0' ''

# ---- a command that was done, though its answer can't be printed

# Runs a command at that bench, to a full disk.
to_full() {
    command=$1
    shift
    timeout 20 "$gmbench" "$command" --registry "$registry" --shelf "$bench/images" "$@" >/dev/full 2>"$work/complaints"
    status=$?
}

# Whether it ended by the fault, and said that this was done, or that nothing was.
says_done() {
    told=$(grep 'was done' "$work/complaints")
    if [ "$status" = 3 ] && [ "$told" = "$2" ] && grep -qxF -- "$broken" "$work/complaints"; then
        pass "$1"
    else
        fail "$1" "status $status, '$(cat "$work/complaints")'"
    fi
}

if [ -e /dev/full ]; then
    fresh_bench untold
    head -c 512 /dev/zero >"$work/zeros"
    to_full label gm0 a.img
    says_done 'a command by itself was done' 'g000001 was done, as number 1'
    to_full do --force k2 insert --did 2 gm0 b.img
    says_done 'and one of do' 'k2 was done, as number 2'
    to_full do --force k2 insert --did 2 gm0 b.img
    says_done 'and one that is repeated' 'k2 was done, as number 2'
    to_full do --json k3 advance gm0 b.img
    says_done 'and one as JSON' 'k3 was done, as number 3'
    to_full write --file "$work/zeros" --first 1 --key w gm0
    says_done 'and one of write' 'w was done, as number 4'
    to_full write --file "$work/zeros" --first 1 --key w gm0
    says_done 'and one of write that is repeated' 'w was done, as number 4'
    to_full destroy gm9
    says_done 'nothing is said of one that is refused' ''
    at_bench status
    expect 'they were done' 0 "$of_filled" ''
else
    skip 'a command to a full disk' 'there is no /dev/full'
fi
finish
