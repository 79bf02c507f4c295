# Each module and each definition of a crate is in docs/ARCHITECTURE.md.
. "$helpers/expect.sh"
. "$helpers/python.sh"

# ---- what docs/ARCHITECTURE.md lists of the crates is what there is

if has_python 'the rooms of the crates'; then
    run_script repository/rooms.py "$top"

    # Wrong pages, each of which one line of the script refuses.
    refused=$work/refused
    mkdir -p "$refused/docs" "$refused/crates/low/src" "$refused/crates/low/specs" "$refused/crates/low_tests/src"
    touch "$refused/crates/low/src/lib.rt" "$refused/crates/low/src/label.rt" "$refused/crates/low/specs/Lib.antt" \
        "$refused/crates/low/specs/Labels.antt" "$refused/crates/low_tests/src/rows.rt"
    expect_told() {
        printf '%b' "$2" >"$refused/docs/ARCHITECTURE.md"
        told=$(PYTHONPATH=$helpers python3 -B "$tests/repository/rooms.py" "$refused" | grep -v '^ok ')
        [ "$told" = "$3" ] && pass "$1" || fail "$1" "it said '$told'"
    }
    row='| names | `low/specs/Labels.antt` |\n'
    expect_told 'a page in order' "**\`low\`**: names\n\n- \`label\`: names\n\n$row" ''
    expect_told 'a module without a place' "**\`low\`**: names\n\n$row" 'failed each module of low has its place: label'
    expect_told 'a module in the place of another crate' "**\`low\`**: names\n\n**\`high\`**: \`label\`\n\n$row" \
        'failed each module of low has its place: label'
    expect_told 'a definition without a row' '**`low`**: `label`\n' 'failed each definition of low has its row: Labels'
    expect_told 'a row of a definition that is gone' "**\`low\`**: \`label\`\n\n$row| gone | \`low/specs/Flags.antt\` |\n" \
        'failed each row of low has its definition: Flags'
fi
finish
