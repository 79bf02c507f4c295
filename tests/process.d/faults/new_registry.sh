# A registry that is made, one that has other pages, and a log that is emptied.
. "$helpers/bench.sh"
. "$helpers/python.sh"

# How many bytes a page of the registry has, as SQLite's header says.
page_bytes() {
    od -An -tu1 -j16 -N2 "$registry" | awk '{ print $1 * 256 + $2 }'
}
expect_pages() {
    found=$(page_bytes)
    [ "$found" = "$2" ] && pass "$1 has pages of $2 bytes" || fail "$1 has pages of $2 bytes" "they have $found"
}

fresh_bench new
at_bench status
expect_pages 'a new registry' 2048
: >"$work/empty"
registry=$work/empty
at_bench status
expect_pages 'an empty file that became one' 2048
fresh_bench older
cp "$top/examples/first-schema.sqlite" "$registry"
expect_pages 'an older registry' 4096
at_bench status --read-only
expect_pages 'an older registry that is looked at' 4096
put_bench older-opened pending-a pending-b
cp "$top/examples/first-schema.sqlite" "$registry"
at_bench recover
expect 'an older registry is opened' 0 'recovered 2' ''
expect_pages 'an older registry that was opened' 4096

run_stopped_calls 'a registry whose making, or whose log, is stopped' faults/new_registry.py
finish
