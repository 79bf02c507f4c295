# A server with `--guarded`: what would lose something is answered 409, unless the body says `force`.
. "$helpers/bench.sh"
. "$helpers/serving.sh"

# Whether the last request was answered with this status and this body.
expect_answer() {
    if [ "$(head -c 12 "$work/response")" = "HTTP/1.1 $2" ] && [ "$(cat "$work/output")" = "$3" ]; then
        pass "$1"
    else
        fail "$1" "it answered '$(head -n 1 "$work/response")' and '$(cat "$work/output")'"
    fi
}

# The body of a command under a key, perhaps with a member more.
body() {
    printf '{"key":"%s","words":[%s]%s}' "$1" "$2" "${3-}"
}

fresh_bench guarded
batch "$label${insert}k3 advance gm0 b.img\n"
truncate -s 2048 "$bench/images/c.img" "$bench/images/data.img"
printf x | dd of="$bench/images/data.img" bs=1 seek=700 conv=notrunc 2>/dev/null
keep_bench
insert_data='"insert","--did","3","gm0","data.img"'
full='data.img holds data, first in sector 1: a sync writes over all of it'
destroyed='the mirror has 2 components, and the metadata of all are cleared'

if has_python 'a server that is guarded'; then
    begin_server --guarded
    post "$(body k4 "$insert_data")"
    expect_answer 'an insert of an image with data' 409 "{\"error\":\"not done; $full\"}"
    post "$(body k4 '"destroy","gm0"' ',"force":false')"
    expect_answer 'force: false is as if it were absent' 409 "{\"error\":\"not done; $destroyed\"}"
    post "$(body k4 '"lost","gm0","a.img","b.img"')"
    expect_answer 'each loss is told' 409 \
        '{"error":"not done; a.img is there, and as it is registered: remove takes it out; b.img is there, and as it is registered: remove takes it out"}'
    for force in '"true"' 1 null '[true]'; do
        post "$(body k4 "$insert_data" ",\"force\":$force")"
        expect_answer "force: $force" 400 '{"error":"bad request"}'
    done
    post "$(body k4 "$insert_data" ',"more":true')"
    expect_answer 'another member' 400 '{"error":"bad request"}'
    post "$(body k4 "$insert_data" ',"force":true,"more":true')"
    expect_answer 'another member beside force' 400 '{"error":"bad request"}'
    post '{"key":"k4","force":true}'
    expect_answer 'no words' 400 '{"error":"bad request"}'
    post "$(body k4 '"insert","--did","3","gm7","data.img"')"
    expect_answer 'what is refused is refused' 409 '{"answer":"refused","number":5}'
    post "$(body k4 '"no","command"' ',"force":true')"
    expect_answer 'what is no command' 409 '{"answer":"refused","number":1}'
    stop_server 'it did not complain'
    expect_kept 'nothing was written'

    begin_server --guarded
    post "$(body k4 "$insert_data" ',"force":false,"force":true')"
    expect_answer 'force: true, which the last such member says' 200 '{"answer":"ok","seq":4}'
    post "$(body k4 "$insert_data")"
    expect_answer 'a key that was accepted is answered without a look' 200 '{"answer":"repeated","seq":4}'
    post "$(body k5 '"deactivate","gm0","b.img"')"
    expect_answer 'two copies, while another is being filled' 409 \
        "{\"error\":\"not done; a.img alone would be ACTIVE, while others aren't filled: sync first\"}"
    stop_server 'a forced command: it did not complain'

    put_back
    rm "$bench/images/b.img"
    begin_server --guarded
    post "$(body k4 '"destroy","gm0"' ',"force":true')"
    expect_answer 'an image stands in the way, forced or not' 409 '{"error":"not done; b.img absent"}'
    stop_server 'an image in the way: it did not complain'

    put_back
    begin_server
    post "$(body k4 "$insert_data" ',"force":true')"
    expect_answer 'without the option the member is unknown' 400 '{"error":"bad request"}'
    post "$(body k4 "$insert_data")"
    expect_answer 'without the option nothing is asked' 200 '{"answer":"ok","seq":4}'
    stop_server 'without the option: it did not complain'

    put_back
    begin_server --audit
    post "$(body k4 "$insert_data" ',"force":true')"
    expect_answer 'with --audit alone the member is unknown' 400 '{"error":"bad request"}'
    stop_server 'with --audit alone: it did not complain'
fi
finish
