# What every test shares: how the program is run, what is expected of it, and the end of a file of tests.

# The lines that several tests expect.
broken='gmbench: input or output'
no_memory='gmbench: F1 memory'

# A byte that is no text.
byte=$(printf '\377')

pass() {
    passed=$((passed + 1))
    echo "ok $1"
}

fail() {
    failed=$((failed + 1))
    echo "failed $1: $2"
}

skip() {
    echo "skipped $1: $2"
}

# The last line of a file of tests: a file that ends without it has failed.
finish() {
    finished=yes
}

# Runs the program with these words, for at most 20 seconds; what it prints and how it ends is kept.
run() {
    timeout 20 "$gmbench" "$@" >"$work/output" 2>"$work/complaints"
    status=$?
}

# Lines of a text, each with its line feed; nothing if the text is empty.
whole_lines() {
    [ -z "$1" ] || printf '%s\n' "$1"
}

# Lines that a test expects, with their line feeds.
lines() {
    printf "$1"
}

# Leaves out of complaints that a new registry was made.
made='a new registry was made at '
leave_out_made() {
    grep -av "^$made" "$1" >"$work/other-complaints"
    mv "$work/other-complaints" "$1"
}

# Whether the last run ended so, and printed just these lines. That a new registry was made is looked for if the lines say
# so; otherwise a test may have begun with one or without.
expect() {
    name=$1
    whole_lines "$3" >"$work/wanted-output"
    whole_lines "$4" >"$work/wanted-complaints"
    case $4 in
        *"$made"*) ;;
        *) leave_out_made "$work/complaints" ;;
    esac
    if [ "$status" != "$2" ]; then
        fail "$name" "status $status, and not $2"
    elif ! cmp -s "$work/output" "$work/wanted-output"; then
        fail "$name" "it printed '$(head -n 3 "$work/output")', and not '$3'"
    elif ! cmp -s "$work/complaints" "$work/wanted-complaints"; then
        fail "$name" "it complained '$(head -n 3 "$work/complaints")', and not '$4'"
    else
        pass "$name"
    fi
}

# Whether the last run ended so with complaints about its words, and printed nothing else.
expect_words() {
    if [ "$status" != 2 ] || [ -s "$work/output" ] || [ ! -s "$work/complaints" ]; then
        fail "$1" "status $status, '$(head -n 1 "$work/complaints")'"
    else
        pass "$1"
    fi
}

# Whether two files have the same bytes.
expect_same() {
    if cmp -s "$2" "$3"; then
        pass "$1"
    else
        fail "$1" "$(cmp "$2" "$3" 2>&1)"
    fi
}

# Whether there is no such file.
expect_none() {
    if [ -e "$2" ] || [ -h "$2" ]; then
        fail "$1" "there is $2"
    else
        pass "$1"
    fi
}
