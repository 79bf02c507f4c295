# A batch that is under way.

. "$helpers/bench.sh"

# Waits until a file has bytes, for at most 10 seconds.
wait_for() {
    for _ in 1 2 3 4 5 6 7 8 9 10 11 12 13 14 15 16 17 18 19 20; do
        [ -s "$1" ] || sleep 0.5
    done
}

# Waits until a file has that many lines, for at most 10 seconds.
wait_for_lines() {
    for _ in 1 2 3 4 5 6 7 8 9 10 11 12 13 14 15 16 17 18 19 20; do
        [ "$(wc -l <"$2")" -ge "$1" ] || sleep 0.5
    done
}

# Sends lines to the batch that is under way, or to nobody if it has ended.
send() {
    (
        trap '' PIPE
        printf "$1" >&3
    ) 2>/dev/null
}

# Starts a batch at that bench, with further words after its lines, for at most 60 seconds, and hands it these lines, of
# which the first is answered.
begin_batch() {
    handed=$1
    shift
    mkfifo "$bench/in"
    timeout 60 "$gmbench" batch --registry "$registry" --shelf "$bench/images" "$@" \
        <"$bench/in" >"$bench/answers" 2>"$bench/complaints" &
    under_way=$!
    exec 3>"$bench/in"
    send "$handed"
    wait_for "$bench/answers"
}

# Ends its input; what it printed and how it ended is kept.
end_batch() {
    exec 3>&-
    wait "$under_way"
    status=$?
    cp "$bench/answers" "$work/output"
    cp "$bench/complaints" "$work/complaints"
}

# Runs a batch at that bench, hands it lines of which the first is answered, and kills it, at the latest when 10 seconds
# went by.
kill_batch() {
    mkfifo "$bench/in"
    "$gmbench" batch --registry "$registry" --shelf "$bench/images" <"$bench/in" >"$bench/answers" 2>/dev/null &
    under_way=$!
    exec 3>"$bench/in"
    send "$1"
    wait_for "$bench/answers"
    kill -9 "$under_way"
    wait "$under_way" 2>/dev/null
    exec 3>&-
}
