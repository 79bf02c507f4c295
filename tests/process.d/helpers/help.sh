# What the program's help lists: its subcommands, the commands of a line, and the options of each.

# The subcommands, a line each: those of all groups of the help, and `help`.
subcommands() {
    "$gmbench" --help | sed -n '1,/^Options:/s/^  \([a-z]*\)  .*/\1/p'
    echo help
}

# The long options of the program's own, or of a subcommand, sorted, in a line: `--json --shelf`.
options_of() {
    "$gmbench" "$@" --help | sed -n '/^Options:/,/^$/s/^ *\(-[a-zA-Z], \)\{0,1\}\(--[a-z-]*\).*/\2/p' | in_a_line
}

# The commands of a batch's line, each with what may follow it, a line each.
command_lines() {
    "$gmbench" batch --help | sed -n '/^  KEY label/,/^B is/{
        s/^  KEY //p
        s/^      / /p
    }' | awk '/^ / { line = line $0; next } { if (line) print line; line = $0 } END { print line }'
}

# The long options in what is read, sorted, in a line.
long_options() {
    grep -oE -e '--[a-z][a-z-]*' | in_a_line
}

# Words of lines, each once, sorted, in a line.
in_a_line() {
    LC_ALL=C sort -u | paste -sd ' ' -
}
