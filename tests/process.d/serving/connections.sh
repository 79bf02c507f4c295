# Connections: how many; clients that are slow, go away or send much; what is logged.
. "$helpers/serving.sh"

# ---- connections: how many, and who is on the other side

if has_python 'connections to a server'; then
    fresh_bench count
    begin_server --count 3
    for _ in 1 2; do
        post '{"key":"k1","words":["label","--mid","7","--did","1","gm0","a.img"]}'
    done
    expect 'the second of two that are alike' 0 '{"answer":"repeated","seq":1}' ''
    post 'no body'
    expect 'a third' 0 '{"error":"bad request"}' ''
    end_server
    expect 'a server of three connections ends' 0 '' ''
    at_bench status
    expect 'what it was told is done' 0 "$of_one" ''

    fresh_bench clients
    begin_server
    requests connections.py
    stop_server 'a server whose clients went away'

    # What is logged: the time, two words of the request, the status and the length of the body; of a request that is none
    # whatever stands in its place, and no byte that a terminal acts upon.
    fresh_bench logged
    begin_server --log --count 4
    printf 'GET /status HTTP/1.1\r\n\r\n' >"$work/request"
    send_file "$work/request"
    post '{"key":"secret","words":["forget","gm0"]}'
    printf 'GET /\033[2J\001 HTTP/1.1\r\n\r\n' >"$work/request"
    send_file "$work/request"
    : >"$work/request"
    send_file "$work/request"
    end_server
    sed 's/^[A-Z][a-z][a-z], [0-9][0-9] [A-Z][a-z][a-z] 2[0-9]* [0-9:]* GMT /TIME /' "$work/complaints" >"$work/times"
    cp "$work/times" "$work/complaints"
    expect 'what is logged' 0 '' "TIME GET /status 200 14
TIME POST /commands 409 31
TIME GET /?[2J? 400 23
TIME - - 400 23"

    # Into a pipe that nobody reads what fits is logged, and the server goes on.
    fresh_bench log_unread
    run_script serving/log_unread.py "$gmbench" "$registry" "$bench/images"

    if command -v curl >/dev/null; then
        fresh_bench curl
        head -c 10000000 /dev/zero >"$work/zeros"
        begin_server --count 4
        at=http://127.0.0.1:$port
        for expects in 'Expect: 100-continue' 'Expect:'; do
            curl -s -H "$expects" --data-binary "@$work/zeros" "$at/commands" >"$work/output" 2>"$work/complaints"
            status=$?
            echo >>"$work/output"
            expect "10 MB by curl, with '$expects'" 0 '{"error":"too large"}' ''
        done
        curl -s -H 'Expect:' -T "$work/zeros" "$at/elsewhere" >"$work/output" 2>"$work/complaints"
        status=$?
        echo >>"$work/output"
        expect '10 MB by curl, to a target that there is not' 0 '{"error":"not found"}' ''
        curl -s "$at/status" >"$work/output" 2>"$work/complaints"
        status=$?
        echo >>"$work/output"
        expect 'the mirrors by curl' 0 '{"mirrors":[]}' ''
        end_server
        expect 'a server that curl asked' 0 '' ''
    else
        skip 'requests by curl' 'there is no curl here'
    fi

    # A server begins where another ended, on the same port at once.
    fresh_bench again
    begin_server --count 1
    first=$port
    : >"$work/request"
    send_file "$work/request"
    end_server
    rm -f "$bench/listening"
    timeout 20 "$gmbench" serve --registry "$registry" --shelf "$bench/images" --port "$first" --count 1 \
        >"$bench/listening" 2>"$bench/log" &
    under_way=$!
    wait_for "$bench/listening"
    port=$first
    post 'no body'
    expect 'a server on the same port' 0 '{"error":"bad request"}' ''
    end_server
    expect 'it ends too' 0 '' ''
fi
finish
