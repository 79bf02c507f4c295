# What tests of many lines share: a list is read from standard input, and each of its lines compared with its answer.

. "$helpers/bench.sh"

# Hands the kept lines to a batch at that bench. If it leaves something of them that counts as a complaint.
take_lines() {
    {
        at_bench batch
        left=$(wc -c)
    } <"$work/lines"
    [ "$left" -eq 0 ] || echo "it left $left bytes of its input" >>"$work/complaints"
}

# Whether one batch answers each line of a list so, and ends so. A line and its answer are parted by a bar; the first line
# that is answered otherwise is named.
expect_list() {
    cat >"$work/list"
    sed 's/|.*//' "$work/list" >"$work/lines"
    sed 's/.*|//' "$work/list" >"$work/wanted-answers"
    take_lines
    wrong=$(paste -d '|' "$work/lines" "$work/wanted-answers" "$work/output" | awk -F '|' '
        $2 != $3 { print "\047" $1 "\047 was answered \047" $3 "\047, and not \047" $2 "\047"; exit }')
    if [ -n "$wrong" ]; then
        fail "$1" "$wrong"
    else
        expect "$1" "$2" "$(cat "$work/wanted-answers")" ''
    fi
}

# Whether a batch of each input of a list by itself is answered so, and ends so. An input and its answers are parted by a
# bar, with escapes as printf's %b takes them; the first input that is answered otherwise is named.
expect_inputs() {
    cat >"$work/list"
    wrong=
    while IFS='|' read -r input told; do
        printf '%b' "$input" >"$work/lines"
        printf '%b' "$told" >"$work/wanted-output"
        take_lines
        leave_out_made "$work/complaints"
        if [ "$status" != "$2" ]; then
            wrong=${wrong:-"'$input': status $status, and not $2"}
        elif ! cmp -s "$work/output" "$work/wanted-output"; then
            wrong=${wrong:-"'$input' was answered '$(cat "$work/output")', and not '$told'"}
        elif [ -s "$work/complaints" ]; then
            wrong=${wrong:-"'$input': it complained '$(head -n 3 "$work/complaints")'"}
        fi
    done <"$work/list"
    [ -z "$wrong" ] && pass "$1" || fail "$1" "$wrong"
}

# A list of words, each of which comes after the key of a label that was carried out: whether each is answered so, and
# leaves that label's mirror, its image and the registry as they are.
expect_words_of_key() {
    sed "s/.*/k1 &|k1 $3/" >"$work/words"
    expect_list "$1" "$2" <"$work/words"
    expect_kept "no byte is changed by $4"
    at_bench status
    expect "the mirror stands behind $4" 0 "$of_one" ''
}
