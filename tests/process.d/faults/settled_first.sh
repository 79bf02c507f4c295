# What the system holds of an image that a pending write names is written through and forgotten before the image is read.
. "$helpers/bench.sh"

# Runs a command at the bench, and keeps its calls on files.
traced() {
    strace -f -y -o "$work/calls" -e trace=pread64,pwrite64,fdatasync,fadvise64 \
        timeout 20 "$gmbench" "$@" --registry "$registry" --shelf "$bench/images" \
        >"$work/output" 2>"$work/complaints"
    status=$?
}

# The first calls on an image, by their names.
first_calls() {
    sed -n "s|^[0-9]* *\([a-z0-9]*\)([0-9]*<[^>]*/images/$1>.*|\1|p" "$work/calls" | head -n 2 | tr '\n' ' '
}

expect_first() {
    if [ "$(first_calls "$2")" = "$3" ]; then
        pass "$1"
    else
        fail "$1" "the first calls on $2 are $(first_calls "$2"), and not $3"
    fi
}
settled='fdatasync fadvise64 '

if ! command -v strace >/dev/null; then
    skip 'images are settled first' 'there is no strace here'
elif ! strace -o "$work/calls" true 2>/dev/null; then
    skip 'images are settled first' 'no process may be traced here'
else
    stopped_remove to-write
    traced recover
    expect 'a recovery' 0 'recovered 2' ''
    expect_first 'the image that is kept is settled before it is read' a.img "$settled"
    expect_first 'the image that is cleared too' b.img "$settled"

    # Of a copy also the source, also if another word opens.
    stopped_copy to-copy
    traced status
    expect 'a look that recovers first' 0 "$of_two" ''
    expect_first 'the source of a copy is settled before it is read' a.img "$settled"
    expect_first 'its target too' b.img "$settled"

    # Also if the target is given up.
    stopped_copy given-up
    rm "$bench/images/b.img"
    traced recover --without b.img --key lost1
    expect 'a recovery without an image' 0 "$(lines 'lost1 ok 3\nrecovered 2')" ''
    expect_first 'so it is if an image is given up' a.img "$settled"

    # At rest there is nothing to settle.
    traced audit
    expect 'an audit at rest' 0 '' ''
    expect_first 'at rest no image is settled' a.img 'pread64 '
fi
finish
