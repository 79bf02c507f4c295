# The words that the program is started with, and its help.
. "$helpers/images.sh"
. "$helpers/help.sh"

# ---- the program's own words

put_shelf
run
expect 'no words' 0 'gmbench: GEOM_MIRROR version 4' ''
run dump --shelf "$shelf" a.img
expect 'a dump' 0 "$said" ''
run --version
expect 'the version' 0 'gmbench 0.1.0' ''

# Whether the help is no complaint, and has these lines.
run --help
helps() {
    if [ "$status" != 0 ] || [ -s "$work/complaints" ]; then
        fail "$1" "status $status, '$(head -n 1 "$work/complaints")'"
    else
        case "$(cat "$work/output")" in
            *"$2"*) pass "$1" ;;
            *) fail "$1" "it lacks '$2'" ;;
        esac
    fi
}

helps 'help has the usage' 'Usage: gmbench'
helps 'help tells the exit statuses' '
Exit statuses:
  0  done
  1  refused'
helps 'help has an example' '
Example:
'

# The help is one fixed text: it has each subcommand of the tables once, and says of it what that one's own help says first.
sed -n 's/^ *name: "\([a-z]*\)",$/\1/p' "$top/crates/gm_command_line/src/table.rt" \
    "$top/crates/gm_command_line/src/by_itself.rt" | LC_ALL=C sort >"$work/wanted"
subcommands | grep -vx help | LC_ALL=C sort >"$work/there"
expect_same 'the help has each subcommand once' "$work/there" "$work/wanted"
[ "$(wc -l <"$work/there")" = 32 ] && pass 'there are 32 of them' || fail 'there are 32 of them' "$(wc -l <"$work/there")"
"$gmbench" --help >"$work/help"
for word in $(subcommands | grep -vx help); do
    run "$word" --help
    if [ "$status" = 0 ] && grep -q "^Usage: gmbench $word" "$work/output" && [ ! -s "$work/complaints" ]; then
        pass "$word has help of its own"
    else
        fail "$word has help of its own" "status $status"
    fi
    cp "$work/output" "$work/own"
    about=$(sed -n "1,/^Options:/s/^  $word  *//p" "$work/help")
    [ -n "$about" ] && [ "$about" = "$(head -n 1 "$work/own")" ] && pass "the help says of $word what its own says" ||
        fail "the help says of $word what its own says" "'$about', and '$(head -n 1 "$work/own")'"
    run help "$word"
    expect "help $word prints the help of $word" 0 "$(cat "$work/own")" ''
done

run recover --help
helps 'the help of recover tells how an image is given up' '--without <PROV>'
run paint
expect_words 'an unknown command'
for word in recover status list audit batch; do
    run "$word" --shelf "$shelf"
    expect_words "$word without a registry"
    run "$word" --registry "$work/unmade"
    expect_words "$word without a folder"
    run "$word" --registry "$work/unmade" --shelf "$shelf" a.img
    expect_words "$word with a word too many"
done
expect_none 'wrong words make no registry' "$work/unmade"
run taste
expect_words 'a taste without a folder'
run taste --shelf "$shelf" a.img
expect_words 'a taste with a word too many'
run taste --registry "$work/unmade" --shelf "$shelf"
expect_words 'a taste with a registry'
run dump a.img
expect_words 'a dump without a folder'
run dump --shelf "$shelf"
expect_words 'a word too few'
grep -q '^Usage: gmbench dump' "$work/complaints" && pass 'the usage names the program' ||
    fail 'the usage names the program' "$(grep Usage "$work/complaints")"
for word in a/b '' 'two words' sixteen-letters0 'ä.img'; do
    run dump --shelf "$shelf" "$word"
    expect_words "the provider '$word'"
done
grep -q "^error: invalid value 'ä.img' for '<PROV>': " "$work/complaints" && pass 'an invalid value is named' ||
    fail 'an invalid value is named' "$(head -n 1 "$work/complaints")"
run dump --shelf "$shelf" "$byte"
expect 'a word that is not UTF-8' 2 '' "error: a word isn't UTF-8"
run dump --shelf "$work/$byte" a.img
expect 'a folder that is not UTF-8' 2 '' "error: a word isn't UTF-8"
unchanged 'the image is as it was'
finish
