# Each route; heads and bodies that are not as they are to be; requests in two pieces.
. "$helpers/serving.sh"

# ---- each route, and requests that aren't as they are to be

if has_python 'requests to a server'; then
    fresh_bench routes
    begin_server
    requests routes.py
    stop_server 'a server that answered each route'
    at_bench status
    expect 'what it made is there' 0 "$of_filled" ''

    fresh_bench checks
    begin_server
    requests heads_and_bodies.py
    requests splits.py
    requests expectations.py
    stop_server 'a server that was asked nothing right'
    at_bench status
    expect 'it accepted none of that' 0 'no mirrors' ''
    expect_images 'and wrote to no image' bare bare

    two_mirrors two
    begin_server
    get /status
    expect 'a status of two mirrors' 0 '{"mirrors":[{"components":[{"name":"a.img","state":"ACTIVE"},{"name":"b.img",'\
'"state":"SYNCHRONIZING"}],"name":"gm0","state":"DEGRADED"},{"components":[{"name":"c.img","state":"ACTIVE"},'\
'{"name":"d.img","state":"INACTIVE"}],"name":"gm1","state":"DEGRADED"}]}' ''
    get /mirrors/gm0
    expect 'one of them' 0 '{"all":2,"balance":"round-robin","components":[{"did":2,"flags":0,"hardcoded":false,'\
'"name":"a.img","offset":0,"priority":0,"provsize":2048,"state":"ACTIVE","syncid":4},{"did":1,"flags":6,'\
'"hardcoded":true,"name":"b.img","offset":512,"priority":5,"provsize":2048,"state":"SYNCHRONIZING","syncid":4}],'\
'"flags":3,"genid":3,"mediasize":1536,"mid":8,"name":"gm0","slice":8192,"state":"DEGRADED","syncid":4}' ''
    get /mirrors/gm
    expect 'another name' 0 '{"error":"not found"}' ''
    get /providers/b.img/metadata
    expect 'the last sector of an image' 0 '{"all":2,"balance":"round-robin","dflags":6,"did":1,"genid":3,'\
'"mediasize":1536,"mflags":3,"mid":8,"name":"gm0","priority":5,"provider":"b.img","provsize":2048,"slice":8192,'\
'"sync_offset":512,"syncid":4}' ''
    stop_server 'a server that was asked about two mirrors'
fi
finish
