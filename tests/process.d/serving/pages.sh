# What web pages send is turned away, unless pages are to be answered.
. "$helpers/serving.sh"

# ---- web pages: what their browsers send is turned away, before anything is asked of the bench

if has_python 'requests that web pages send'; then
    fresh_bench pages
    begin_server
    run_script serving/pages.py "$port" none
    stop_server 'a server that turned pages away'
    at_bench status
    expect 'none of them made anything' 0 'no mirrors' ''
    expect_images 'and none wrote to an image' bare bare

    fresh_bench any_origin
    begin_server --any-origin
    run_script serving/pages.py "$port" any
    stop_server 'a server that answered pages too'

    # A command that a program may hand in, and what is logged of a page that tries.
    fresh_bench by_page
    begin_server --log --count 3
    printf '%s\r\n' 'POST /commands HTTP/1.1' 'Origin: null' 'Content-Length: 68' '' >"$work/request"
    printf '%s' '{"key":"k1","words":["label","--mid","7","--did","1","gm0","a.img"]}' >>"$work/request"
    send_file "$work/request"
    printf '%s\r\n' 'GET /status HTTP/1.1' 'Sec-Fetch-Site: cross-site' '' >"$work/request"
    send_file "$work/request"
    post '{"key":"k1","words":["label","--mid","7","--did","1","gm0","a.img"]}'
    expect 'a program is answered' 0 '{"answer":"ok","seq":1}' ''
    end_server
    sed 's/^[A-Z][a-z][a-z], [0-9][0-9] [A-Z][a-z][a-z] 2[0-9]* [0-9:]* GMT /TIME /' "$work/complaints" >"$work/times"
    cp "$work/times" "$work/complaints"
    expect 'what is logged of pages' 0 '' 'TIME POST /commands 403 27
TIME GET /status 403 27
TIME POST /commands 200 23'

    # The same by a real browser, if there is one.
    browser=$(command -v chromium || command -v chromium-browser || command -v google-chrome)
    if [ -n "$browser" ]; then
        fresh_bench in_a_browser
        begin_server --log
        run_script serving/browser.py "$port" "$browser" "$work"
        kill "$under_way"
        wait "$under_way" 2>/dev/null
        sent=$(grep -c ' POST /commands \| GET /status \| GET /mirrors/gm0 ' "$bench/log")
        turned_away=$(grep -c ' \(POST /commands\|GET /status\|GET /mirrors/gm0\) 403 27$' "$bench/log")
        [ "$sent" -ge 5 ] && [ "$sent" = "$turned_away" ] && pass 'a server turns away what a browser sends for a page' ||
            fail 'a server turns away what a browser sends for a page' "$(cat "$bench/log")"
        at_bench status
        expect 'a page in a browser makes nothing' 0 'no mirrors' ''
        expect_images 'and writes to no image' bare bare
    else
        skip 'a page in a browser' 'there is no chromium here'
    fi
fi
finish
