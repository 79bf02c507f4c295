# The completions, the manual's synopsis and docs/REFERENCE.md have the words of the program's own table.
. "$helpers/expect.sh"
. "$helpers/python.sh"

if has_python 'the words of the table'; then
    told=$(python3 -B "$top/docs/words" --check 2>&1) && pass 'they have the words of the table' ||
        fail 'they have the words of the table' "$told"

    # Copies in which something is changed, each named by the check.
    here=$work/here
    table=$here/crates/gm_command_line/src/table.rt
    begin() {
        rm -rf "$here"
        mkdir -p "$here/docs" "$here/crates/gm_command_line"
        cp -R "$top/completions" "$here"
        cp "$top/docs/words" "$top/docs/gmbench.8" "$top/docs/REFERENCE.md" "$here/docs"
        cp -R "$top/crates/gm_command_line/src" "$here/crates/gm_command_line"
    }
    words() {
        python3 -B "$here/docs/words" "$@" >"$work/output" 2>"$work/complaints"
        status=$?
    }
    expect_named() {
        words --check
        expect "$1" 1 '' "$(printf "docs/words: %s has other words than the program; run docs/words\n" $2)"
    }
    all='completions/gmbench.bash completions/_gmbench completions/gmbench.fish docs/gmbench.8 docs/REFERENCE.md'
    while read -r file was is; do
        begin
        sed -i "s/$was/$is/" "$here/$file"
        expect_named "$file, in which $was is $is" "$file"
    done <<'END'
completions/gmbench.bash --quiet --quite
completions/_gmbench --quiet --quite
completions/gmbench.fish quiet quite
docs/gmbench.8 Fl.-quiet$ Fl\ -quite
docs/gmbench.8 forget.Ar.NAME forget\ Ar\ PROV
docs/REFERENCE.md --quiet` --quite`
docs/REFERENCE.md `forget.NAME` `forget\ PROV`
END

    begin
    sed -i 's/word: "--quiet"/word: "--silent"/' "$table"
    expect_named 'an option that is called otherwise' "$all"
    words
    expect 'it is written' 0 '' ''
    words --check
    expect 'and then all have it' 0 '' ''
    for file in $all; do
        grep -q 'silent' "$here/$file" && pass "$file has it" || fail "$file has it" 'it does not'
    done
    begin
    sed -i 's/^\.It Cm forget .*/.It Cm forgets/' "$here/docs/gmbench.8"
    words --check
    expect 'a command of which the manual says nothing' 1 '' \
        'docs/words: docs/gmbench.8 says nothing of forget below `.Ss Commands`'
    begin
    sed -i '/docs\/words ends/d' "$here/completions/_gmbench"
    words --check
    expect 'a file without a mark' 1 '' 'docs/words: completions/_gmbench has 0 pairs of marks'
fi
finish
