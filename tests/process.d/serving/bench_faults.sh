# A bench that fails at a request: what is told of it, and how the server ends.
. "$helpers/serving.sh"

# ---- a server whose bench fails tells that once, and ends

if has_python 'a server whose bench fails'; then
    fresh_bench fails
    batch "$label$insert"
    begin_server --explain --log
    cp "$bench/images/b.img" "$work/other"
    mv "$work/other" "$bench/images/b.img"
    post '{"key":"k3","words":["advance","gm0","b.img"]}'
    grep -q '^HTTP/1.1 500 Internal Server Error' "$work/response" && pass 'a fault of the disk is 500' ||
        fail 'a fault of the disk is 500' "$(cat "$work/response")"
    expect 'its number is told' 0 '{"fault":3}' ''
    end_server
    [ "$status" = 3 ] && pass 'the server ends with 3' || fail 'the server ends with 3' "status $status"
    grep -qxF 'gmbench: F3 disk' "$work/complaints" && pass 'it says so' || fail 'it says so' "$(cat "$work/complaints")"
    grep -qxF 'F3: b.img was replaced since the folder was read' "$work/complaints" && pass 'it names the image' ||
        fail 'it names the image' "$(cat "$work/complaints")"
    grep -q ' POST /commands 500 11$' "$work/complaints" && pass 'its log has the response' ||
        fail 'its log has the response' "$(cat "$work/complaints")"
    at_bench status
    expect 'nothing of it was accepted' 0 \
        "$(lines 'gm0             DEGRADED 1/2\n  a.img           ACTIVE\n  b.img           SYNCHRONIZING 0 of 3')" ''
fi
finish
