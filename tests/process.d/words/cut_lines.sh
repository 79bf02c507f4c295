# An input that is cut after each of its bytes.
. "$helpers/lists.sh"

# ---- an input that is cut after each of its bytes

fresh_bench cut
cp -R "$bench" "$work/fresh-cut"

# Hands the kept lines to a batch over fresh images and a new registry.
take_anew() {
    rm -rf "$bench"
    cp -R "$work/fresh-cut" "$bench"
    take_lines
}

# Hands over the lines before this one and its first bytes, so many of them. They are to be answered so and to end so;
# what is wrong first is kept.
try_cut() {
    printf '%s\n' "$line" | head -c "$1" | cat "$work/before" - >"$work/lines"
    printf '%s' "$2" | cat "$work/told-before" - >"$work/wanted-output"
    take_anew
    if [ "$status" != "$3" ]; then
        wrong=${wrong:-"behind $1 bytes: status $status, and not $3"}
    elif ! cmp -s "$work/output" "$work/wanted-output"; then
        wrong=${wrong:-"behind $1 bytes: '$(cat "$work/output")', and not '$(cat "$work/wanted-output")'"}
    elif grep -qv "^$made" "$work/complaints"; then
        wrong=${wrong:-"behind $1 bytes: it complained '$(head -n 1 "$work/complaints")'"}
    fi
}

# Whether images and registry are as the lines before leave them.
try_kept() {
    for file in images/a.img images/b.img registry; do
        cmp -s "$bench/$file" "$work/left-before/$file" || wrong=${wrong:-"behind $1 bytes: another $file"}
    done
}

# Cuts a line after each of its bytes: how the mirrors stand before it, the line, the part of it that names a command at
# least, and what a command is refused that a cut line names, since there is no such image or mirror.
cut_line() {
    line=$3
    cp "$work/before" "$work/lines"
    take_anew
    expect "the lines before $1" 0 "$(cat "$work/told-before")" ''
    rm -rf "$work/left-before"
    cp -R "$bench" "$work/left-before"
    at_bench status
    expect "a status before $1" 0 "$2" ''
    key=${line%% *}
    wrong=
    bytes=0
    while [ $bytes -lt ${#line} ]; do
        if [ $bytes = 0 ]; then
            try_cut 0 '' 0
        elif [ $bytes = 1 ]; then
            try_cut 1 "${key%?} refused 1$feed" 1
        elif [ $bytes -lt ${#4} ]; then
            try_cut $bytes "$key refused 1$feed" 1
        else
            try_cut $bytes "$key refused $5$feed" 1
        fi
        try_kept $bytes
        bytes=$((bytes + 1))
    done
    [ -z "$wrong" ] && pass "$1 that is cut" || fail "$1 that is cut" "$wrong"
    wrong=
    done_now="$key ok ${key#k}$feed"
    try_cut ${#line} "$done_now" 0
    try_cut $((${#line} + 1)) "$done_now" 0
    [ -z "$wrong" ] && pass "$1 that lacks its line feed, and a whole one" ||
        fail "$1 that lacks its line feed, and a whole one" "$wrong"
    printf '%s\n' "$line" >>"$work/before"
    printf '%s' "$done_now" >>"$work/told-before"
}

feed='
'
: >"$work/before"
: >"$work/told-before"
cut_line 'a label' 'no mirrors' 'k1 label --mid 7 --did 1 gm0 a.img' 'k1 label --mid 7 --did 1 gm0 a' 8
cut_line 'an insert' "$of_one" 'k2 insert --did 2 gm0 b.img' 'k2 insert --did 2 gm0 b' 8
cut_line 'a remove' "$of_two" 'k3 remove gm0 b.img' 'k3 remove gm0 b' 8
cut_line 'a destroy' "$of_one" 'k4 destroy gm0' 'k4 destroy g' 5
finish
