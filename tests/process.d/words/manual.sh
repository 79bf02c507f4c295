# A manual page with all words of the help and all numbers, whose examples print what it says.
. "$helpers/bench.sh"
. "$helpers/help.sh"

# ---- a manual page that is written as such pages are

page=$top/docs/gmbench.8

# An empty page for each that this one refers to: whether they are installed here says nothing of it.
put_references() {
    sed -n 's/^\.Xr \([a-z0-9]*\) \([1-9]\).*/\1 \2/p' "$page" | while read -r name section; do
        mkdir -p "$work/man/man$section"
        : >"$work/man/man$section/$name.$section"
    done
}
if command -v mandoc >/dev/null; then
    put_references
    linted=$(mandoc -M "$work/man" -Tlint -Wstyle "$page" 2>/dev/null)
    [ "$?$linted" = 0 ] && pass 'mandoc has nothing to say of it' || fail 'mandoc has nothing to say of it' "$linted"
else
    skip 'mandoc has nothing to say of it' 'there is no mandoc here'
fi

# ---- every word of the help stands in it

# The lines of a section of the page.
section() {
    awk -v wanted="$1" '/^\.Sh / { there = substr($0, 5) == wanted } there' "$page"
}

# The long options in lines of the page.
options_in_page() {
    sed 's/Fl -\([a-z]\)/--\1/g; s/[|,] -\([a-z]\)/--\1/g' | long_options
}

# What the synopsis says of a subcommand, and what the list of commands says of one, to the end of its words.
synopsis_of() {
    section SYNOPSIS | awk -v wanted="$1" '/^\.Nm/ { there = 0 }
        $1 == ".Cm" { for (at = 2; at <= NF; at++) if ($at == wanted) there = 1 } there'
}
words_of() {
    section DESCRIPTION | awk -v wanted="$1" '/^\.Ss / { under = /Commands$/ } !under { next }
        /^\.It / { there = $2 == "Cm" && $3 == wanted || $3 == "Cm" && $4 == wanted } there && /^\.Xc/ { there = 0 } there'
}

# A command by itself has its own options beside those of its synopsis. What docs/words writes of them is held to the program.
for word in $(subcommands); do
    section DESCRIPTION | grep -qE "^\.It (Xo )?Cm $word( |\$)" && pass "what $word does is said" ||
        fail "what $word does is said" 'it has no item'
    [ "$word" != help ] || continue
    found=$({ synopsis_of "$word" && words_of "$word"; } | options_in_page)
    wanted=$(options_of "$word" | sed 's/--help *//; s/ $//')
    [ "$found" = "$wanted" ] && pass "the options of $word" ||
        fail "the options of $word" "the page has '$found', and the help '$wanted'"
done
{
    "$gmbench" --help
    for word in $(subcommands); do
        [ "$word" = help ] || "$gmbench" "$word" --help
    done
} | grep -oE -e '--[a-z][a-z-]*' | LC_ALL=C sort -u >"$work/options"
while read -r option; do
    section DESCRIPTION | sed -n '/^\.It /p; s/.*\(Fl -[a-z-]*\).*/\1/p' | grep -qE "(Fl|,) ${option#-}( |\$)" &&
        pass "what $option is for is said" || fail "what $option is for is said" 'the description lacks it'
done <"$work/options"
for variable in GMBENCH_REGISTRY GMBENCH_SHELF GMBENCH_EXISTING GMBENCH_EXPLAIN; do
    section ENVIRONMENT | grep -qx "\.It Ev $variable" && pass "it names $variable" ||
        fail "it names $variable" 'it does not'
done

# ---- every refusal and fault that docs/REFERENCE.md explains stands among the diagnostics

# The numbers of refusals, or of faults, in the table that is made from the program's sentences. Refusal 1 has no sentence
# of its own.
numbers_explained() {
    sed -n '/docs\/sentences begins/,/docs\/sentences ends/s/^| \([F0-9]*\) |.*/\1/p' "$top/docs/REFERENCE.md"
}
echo "1 $(numbers_explained | paste -sd ' ' -)" | tr ' ' '\n' | grep -v F | in_a_line >"$work/wanted"
section DIAGNOSTICS | sed -n 's/^\.It Li refused \([0-9]*\)$/\1/p' | in_a_line >"$work/there"
expect_same 'each refusal is among the diagnostics' "$work/there" "$work/wanted"
numbers_explained | grep F | in_a_line >"$work/wanted"
section DIAGNOSTICS | sed -n 's/^\.It Li gmbench: \(F[0-9]\) .*/\1/p' | in_a_line >"$work/there"
expect_same 'each fault is among the diagnostics' "$work/there" "$work/wanted"
[ "$(wc -w <"$work/there")" = 6 ] && pass 'there are six faults' || fail 'there are six faults' "$(cat "$work/there")"
seq 8 | in_a_line >"$work/wanted"
section DIAGNOSTICS | sed -n 's/^\.It Li fault \([0-9]*\)$/\1/p' | in_a_line >"$work/there"
expect_same 'each fault of a sector is among the diagnostics' "$work/there" "$work/wanted"

# ---- the examples print what the page says

# The lines of the examples with these numbers.
examples() {
    section EXAMPLES | awk -v first="$1" -v last="$2" '/^\.Bd/ { number++; there = 1; next } /^\.Ed/ { there = 0 }
        there && number >= first && number <= last'
}

# Runs what is typed in lines, in this folder, and shows it with what it prints.
type_lines() {
    gmbench() {
        timeout 20 "$gmbench" "$@"
    }
    sed -n 's/^\$ //p' "$1" | while read -r typed; do
        echo "\$ $typed"
        eval "$typed" </dev/null 2>&1
    done
}
examples 1 3 >"$work/wanted"
mkdir "$work/session"
(cd "$work/session" && type_lines "$work/wanted") >"$work/typed"
expect_same 'a session prints what the page says' "$work/typed" "$work/wanted"
stopped_remove looked-at
examples 4 4 >"$work/wanted"
(
    cd "$bench" || exit
    export GMBENCH_REGISTRY=registry GMBENCH_SHELF=images
    type_lines "$work/wanted"
) >"$work/typed"
expect_same 'a recovery that is looked at prints what the page says' "$work/typed" "$work/wanted"
[ -s "$work/wanted" ] && pass 'there are examples' || fail 'there are examples' 'there are none'
finish
