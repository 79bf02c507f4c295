# Users who may not write, and folders that may only be read.

. "$helpers/bench.sh"

# Whether there is another user here, as whom the program may be run.
has_another_user() {
    [ "$(id -u)" = 0 ] && command -v setpriv >/dev/null
}

# Runs the program with these words as a user who owns nothing, for at most 20 seconds.
run_as_another() {
    timeout 20 setpriv --reuid=65534 --regid=65534 --clear-groups "$gmbench" "$@" \
        >"$work/output" 2>"$work/complaints"
    status=$?
}

# Runs a command at that bench as a user who owns nothing but the bench.
at_bench_as_another() {
    run_as_another "$1" --registry "$registry" --shelf "$bench/images"
}

# Whether that user could not run the program, which then is told of this test.
skip_without_program() {
    [ "$status" = 126 ] || [ "$status" = 127 ] || return 1
    skip "$1" 'another user can not run the program where it lies'
}

# Whether the program prints these lines, and ends well, as a user who may only read: its words come after them.
expect_as_reader() {
    title=$1
    told=$2
    shift 2
    if has_another_user; then
        run_as_another "$@"
        skip_without_program "$title" && return
    elif [ "$(id -u)" != 0 ]; then
        run "$@"
    else
        skip "$title" 'there is no setpriv'
        return
    fi
    expect "$title" 0 "$told" ''
}

# Whether the program prints these lines, and ends well, over that folder when it is mounted for reading alone: a command
# and what comes after its folder.
expect_on_read_only_mount() {
    title=$1
    told=$2
    folder=$3
    shift 3
    mkdir -p "$work/mount"
    if ! unshare -m true 2>/dev/null; then
        skip "$title" 'there are no mounts of its own here'
        return
    fi
    unshare -m sh -c 'mount --bind "$1" "$2" && mount -o remount,bind,ro "$2" || exit 99
        mount=$2 program=$3 command=$4
        shift 4
        exec "$program" "$command" --shelf "$mount" "$@"' sh "$folder" "$work/mount" "$gmbench" "$@" \
        >"$work/output" 2>"$work/complaints"
    status=$?
    if [ "$status" = 99 ]; then
        skip "$title" 'it can not be mounted here'
    else
        expect "$title" 0 "$told" ''
    fi
}
