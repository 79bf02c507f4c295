# A server that is under way, and requests to it. They are made by Python, since a shell can't end one side of a connection.

. "$helpers/under_way.sh"
. "$helpers/python.sh"

# Starts a server at that bench with these options, for at most 120 seconds, and learns its port.
begin_server() {
    rm -f "$bench/listening" "$bench/log"
    timeout 120 "$gmbench" serve --registry "$registry" --shelf "$bench/images" --port 0 "$@" \
        >"$bench/listening" 2>"$bench/log" &
    under_way=$!
    wait_for "$bench/listening"
    port=$(sed -n 's/^listening on 127\.0\.0\.1:\([0-9]*\)$/\1/p' "$bench/listening")
}

# Waits until it ends. What it printed after its first line, and how it ended, is kept.
end_server() {
    wait "$under_way"
    status=$?
    sed 1d "$bench/listening" >"$work/output"
    cp "$bench/log" "$work/complaints"
}

# Stops it, and tells whether it had complained.
stop_server() {
    kill "$under_way"
    wait "$under_way" 2>/dev/null
    leave_out_made "$bench/log"
    if [ -s "$bench/log" ]; then
        fail "$1" "it complained '$(head -n 3 "$bench/log")'"
    else
        pass "$1"
    fi
}

# Runs a script of that folder against the server.
requests() {
    run_script "serving/$1" "$port"
}

# Sends the bytes of a file to the server, and keeps what it answers.
send_file() {
    python3 -B "$tests/serving/client.py" "$port" "$1" >"$work/response" 2>"$work/complaints"
}

# Sends the request that was made, and keeps the last line of the response.
keep_body() {
    send_file "$work/request"
    status=$?
    tail -n 1 "$work/response" >"$work/output"
    echo >>"$work/output"
}

# Sends a POST of a command with this body, and keeps the last line of the response.
post() {
    printf 'POST /commands HTTP/1.1\r\nContent-Length: %s\r\n\r\n%s' "${#1}" "$1" >"$work/request"
    keep_body
}

# Sends a GET of this target, and keeps the last line of the response.
get() {
    printf 'GET %s HTTP/1.1\r\n\r\n' "$1" >"$work/request"
    keep_body
}
