# Tests that are written in Python. Each prints lines, `ok NAME`, `failed NAME: WHY` or `skipped NAME: WHY`, which are
# counted.

# Whether there is a Python; else says that the test of this name is skipped.
has_python() {
    python3 -c 'import socket' 2>/dev/null && return 0
    skip "$1" 'there is no python3 here'
    return 1
}

# Runs a script of tests with these words, and counts its lines. What scripts share it finds among the helpers.
run_script() {
    script=$1
    shift
    PYTHONPATH=$helpers python3 -B "$tests/$script" "$@" >"$work/told" 2>&1 || echo "failed $script: it ended with $?" >>"$work/told"
    cat "$work/told"
    passed=$((passed + $(grep -c '^ok ' "$work/told")))
    failed=$((failed + $(grep -vc '^ok \|^skipped ' "$work/told")))
}

# Runs such a script with the program, a library that fails or stops its writes and syncs from one on, and the work folder.
# Skips the test of this name if a tool for it isn't here.
run_stopped_calls() {
    has_python "$1" || return 0
    if ! python3 -c 'import sqlite3' 2>/dev/null; then
        skip "$1" 'there is no SQLite for python3 here'
    elif command -v cc >/dev/null && cc -O1 -fPIC -shared -o "$work/stopped_calls.so" "$tests/faults/stopped_calls.c" \
        2>"$work/complaints"; then
        run_script "$2" "$gmbench" "$work/stopped_calls.so" "$work"
    else
        skip "$1" 'there is no C compiler here'
    fi
}
