# What is printed as JSON, read by another reader.
. "$helpers/bench.sh"
. "$helpers/python.sh"

# ---- what is printed as JSON, read by another reader

if has_python 'what is printed as JSON'; then
    fresh_bench json
    batch "$label$insert"
    # Whether the last run ended so, and its output has this value by an expression of Python.
    expect_json() {
        if [ "$status" != "$2" ] || [ -s "$work/complaints" ]; then
            fail "$1" "status $status, '$(head -n 1 "$work/complaints")'"
        elif told=$(python3 -c "import json, sys; j = json.load(open(sys.argv[1])); print($3)" "$work/output" 2>&1) &&
            [ "$told" = "$4" ]; then
            pass "$1"
        else
            fail "$1" "'$told', and not '$4'"
        fi
    }
    at_bench status --json
    expect_json 'a status' 0 '[(c["name"], c["state"], c["sectors"], c["of"]) for c in j["mirrors"][0]["components"]]' \
        "[('a.img', 'ACTIVE', 3, 3), ('b.img', 'SYNCHRONIZING', 0, 3)]"
    at_bench list --json
    expect_json 'a list' 0 '[(m["mid"], m["mediasize"], [c["did"] for c in m["components"]]) for m in j["mirrors"]]' \
        '[(7, 1536, [1, 2])]'
    expect_json 'the flags of a list' 0 '[(m["flags"], [c["flags"] for c in m["components"]]) for m in j["mirrors"]]' \
        "[([], [[], ['SYNCHRONIZING']])]"
    at_bench audit --json
    expect_json 'an audit' 0 'j' "{'amiss': []}"
    run dump --json --shelf "$bench/images" a.img
    expect_json 'a dump' 0 'j["name"], j["did"], j["all"], j["provsize"]' 'gm0 1 2 2048'
    run taste --json --shelf "$bench/images"
    expect_json 'a taste' 0 'j["mirrors"][0]["source"], j["left_out"], j["passed_over"]' 'a.img [] []'
    expect_json 'which images say DIRTY, and that one is sure' 0 \
        '[(c["name"], c["dirty"]) for c in j["mirrors"][0]["components"]], j["mirrors"][0]["sure"]' \
        "[('a.img', False), ('b.img', False)] True"
    mkdir "$work/json-dirty"
    put_edited "$work/json-dirty/a.img" a 87 '\001'
    put_edited "$work/json-dirty/b.img" b 40 '\002' 71 '\000\002' 87 '\003'
    run taste --json --shelf "$work/json-dirty"
    expect_json 'a taste of images that say DIRTY' 0 'j["mirrors"][0]' \
        "{'components': [{'dirty': True, 'name': 'a.img', 'state': 'ACTIVE'}, {'copied': 1, 'dirty': True, 'name': 'b.img', \
'of': 3, 'state': 'SYNCHRONIZING'}], 'genid': 0, 'mid': 7, 'name': 'gm0', 'source': 'a.img', 'sure': False, 'syncid': 1}"
    overwrite "$work/json-dirty/a.img" 87 '\011'
    rehash "$work/json-dirty/a.img"
    run taste --json --shelf "$work/json-dirty"
    expect_json 'a taste without a source' 0 'j["mirrors"][0]["source"], j["mirrors"][0]["sure"]' ' False'
    put_image "$work/json-dirty/two words" a bare
    put_image "$work/json-dirty/$byte.img" a bare
    put_image "$work/json-dirty/ä" a bare
    ln -s a.img "$work/json-dirty/link"
    run taste --json --shelf "$work/json-dirty"
    expect_json 'what a taste passes over' 0 '[(x["name"].encode(), x["reason"]) for x in j["passed_over"]]' \
        "[(b'link', 'a link'), (b'two words', 'name with other characters'), (b'\xc3\xa4', 'name with other characters'), \
(b'?.img', 'name with other characters')]"
    damage "$bench/images/b.img" 1600 x
    at_bench audit --json
    expect_json 'an audit that lists one' 1 'j' "{'amiss': ['b.img']}"
    run dump --json --shelf "$bench/images" b.img
    expect_json 'a dump of a damaged sector' 1 'j' "{'decode': 3}"
    run taste --json --shelf "$bench/images"
    expect_json 'a taste that leaves one out' 1 'j["left_out"]' "[{'name': 'b.img', 'reason': 'fault 3'}]"
    run dump --json --shelf "$bench/images" c.img
    expect 'a dump of nothing' 1 '{"answer":"refused","number":8}' ''
fi
finish
