# The documents are short, in lines and sentences that are, and say if and after as such.
. "$helpers/expect.sh"
. "$helpers/python.sh"

if has_python 'the prose of the documents'; then
    run_script repository/prose.py "$top"

    # Wrong pages, each of which one line of the script refuses. All others are empty.
    refused=$work/refused
    mkdir -p "$refused/docs"
    for page in $(sed -n 's/^    "\(.*\.md\)": [0-9]*,$/\1/p' "$tests/repository/prose.py"); do
        : >"$refused/$page"
    done
    page=docs/GATE.md
    expect_told() {
        printf '%b' "$2" >"$refused/$page"
        told=$(PYTHONPATH=$helpers python3 -B "$tests/repository/prose.py" "$refused" | grep -v '^ok ')
        [ "$told" = "$3" ] && pass "$1" || fail "$1" "it said '$told'"
    }
    # So many words in a row.
    words() {
        seq "$1" | paste -sd "${2:- }" -
    }
    expect_told 'pages in order' '# A page\n\nIt is short. It says where it is.\n' ''
    expect_told 'as many words as a page may have' "    $(words 580)" ''
    expect_told 'a word more' "    $(words 581)" "failed $page has at most 580 words: it has 581"
    rm "$refused/docs/USE.md"
    expect_told 'a page that is gone' '' 'failed docs/USE.md has at most 6400 words: there is no such page'
    : >"$refused/docs/USE.md"

    wide=$(printf '%0100d' 0)
    expect_told 'lines of 100 columns' "One.\n$wide\n" ''
    expect_told 'a line of 101' "# A page\n\nOne.\nü$wide\n" "failed $page, lines have at most 100 columns: line 4: 101 columns"
    expect_told 'a line of 101 in an item' "- one\n  $wide\n" "failed $page, lines have at most 100 columns: line 2: 102 columns"
    expect_told 'wide code, tables and pictures' "One.\n\n    ${wide}0\n\n\`\`\`\n${wide}0\n\`\`\`\n\n| ${wide}0 |\n\n<img alt=\"$wide\n$wide\">\n" ''

    where="failed $page, if and after are said as such: line"
    expect_told 'where for if' 'It is fast where nothing is pending.\n' "$where 1: \`where\` for if: where nothing is pending."
    expect_told 'where for if at the beginning' 'One. Two.\nWhere it fails,\nit says so.\n' \
        "$where 2: \`where\` for if: Where it fails, it says so."
    expect_told 'where for if in a second line' 'It ends\nwhere it fails.\n' "$where 2: \`where\` for if: where it fails."
    expect_told 'where for if after another' 'It says where it is, and where it fails.\n' "$where 1: \`where\` for if: where it fails."
    expect_told 'where for if in a table' '| what | why |\n|---|---|\n| one | where it fails |\n' \
        "$where 3: \`where\` for if: where it fails"
    expect_told 'behind for after' 'Behind that it ends.\n' "$where 1: \`behind\` for after: Behind that it ends."
    expect_told 'behind for after, once more' 'It stands behind the name.\n' "$where 1: \`behind\` for after: behind the name."
    expect_told 'where and behind of places' '# Where it is\n\nIt says where it goes, and to where. It falls behind. `where` is code.\n
| what | where |\n|---|---|\n| one | nowhere |\n\n    x where y\n' ''

    long="failed $page, sentences have at most 30 words: line"
    expect_told 'a sentence of 30 words' "$(words 30).\n$(words 30)!\n" ''
    expect_told 'a sentence of 31' "One. Two.\n$(words 31 '\n').\n" "$long 2: 31 words: 1 2 3 4 5 6"
    expect_told 'a sentence of 31 before others' "$(words 31).\nOne (two).** Three.\n" "$long 1: 31 words: 1 2 3 4 5 6"
    expect_told 'a sentence with a short word that has a full stop' "$(words 20), e.g.\n$(words 20).\n" "$long 1: 41 words: 1 2 3 4 5 6"
    expect_told 'an item of 31' "It has:\n\n- one\n- $(words 20)\n  $(words 11)\n- two\n" "$long 4: 31 words: 1 2 3 4 5 6"
    expect_told 'a list of short items' "$(words 20):\n- $(words 20)\n- $(words 20)\n1. $(words 20)\n" ''
    expect_told 'code is a word' "\`$(words 20)\n$(words 20)\`\n$(words 20)\n[one](two.md#three) \`$(words 20)\`\n" ''
    expect_told 'code, tables, and what is in between' "One:\n\n    $(words 40)\n\n| $(words 40) |\n\n## $(words 40)\n" ''
    expect_told 'what docs/sentences writes' "<!-- docs/sentences begins -->\n$(words 31) where\n<!-- docs/sentences ends -->\n" ''
fi
finish
