# What commands print as JSON: the answers of commands, and what `recover`, `pending`, `sync` and each look say.
. "$helpers/bench.sh"

# Whether the last run ended so, and printed this line and nothing else.
expect_line() {
    printf '%s\n' "$3" >"$work/wanted-output"
    if [ "$status" != "$2" ]; then
        fail "$1" "status $status, and not $2: '$(head -n 1 "$work/complaints")'"
    elif ! cmp -s "$work/output" "$work/wanted-output"; then
        fail "$1" "it printed '$(cat "$work/output")', and not '$3'"
    else
        pass "$1"
    fi
}

# ---- one command

fresh_bench answered
at_bench do --json k1 label --mid 7 --did 1 gm0 a.img
expect 'a command that is done' 0 '{"answer":"ok","key":"k1","seq":1}' "a new registry was made at $registry"
at_bench do --json k1 label --mid 7 --did 1 gm0 a.img
expect 'the same again' 0 '{"answer":"repeated","key":"k1","seq":1}' 'k1: done before, as number 1; nothing is done now'
keep_bench
at_bench do --json k2 insert --did 2 gm0 b.img
expect_line 'data that would be lost' 1 '{"answer":"not done","key":"k2"}'
at_bench insert --json gm0 b.img
expect_line 'the same by itself' 1 '{"answer":"not done","key":"g000002"}'
at_bench do --json k2 forget gm9
expect_line 'a command that is refused' 1 '{"answer":"refused","key":"k2","number":5}'
at_bench do --json 'k 2' forget gm0
expect_line 'a key that is none' 1 '{"answer":"refused","key":"?","number":2}'
at_bench do --json k2 nothing
expect_line 'words that are no command' 1 '{"answer":"refused","key":"k2","number":1}'
expect_kept 'nothing of that was done'
at_bench insert --json --force --did 2 gm0 b.img
expect_line 'a command by itself' 0 '{"answer":"ok","key":"g000002","seq":2}'
at_bench advance --json --key k3 gm0 b.img
expect_line 'how far a copy is' 0 '{"answer":"ok","copied":3,"key":"k3","of":3,"seq":3}'
at_bench forget --json gm9
expect_line 'one by itself that is refused' 1 '{"answer":"refused","key":"g000004","number":5}'
mv "$bench/images/b.img" "$work/away"
at_bench rebuild --json --key k4 gm0 b.img
expect_line 'an image in the way' 1 '{"answer":"not done","images":[{"image":"b.img","standing":"absent"}],"key":"k4"}'
at_bench do --json k4 rebuild gm0 b.img
expect_line 'the same under a key' 1 '{"answer":"not done","images":[{"image":"b.img","standing":"absent"}],"key":"k4"}'
at_bench do --json --unchecked k4 rebuild gm0 b.img
expect_line 'without a look' 1 '{"answer":"refused","key":"k4","number":8}'
mv "$work/away" "$bench/images/b.img"
truncate -s 2560 "$bench/images/b.img"
at_bench do --json k4 rebuild gm0 b.img
expect_line 'an image of another size in the way' 1 \
    '{"answer":"not done","images":[{"image":"b.img","standing":"another size"}],"key":"k4"}'
truncate -s 2048 "$bench/images/b.img"
at_bench adopt --all --json
expect_words 'all mirrors are adopted in lines alone'

# ---- mirrors

at_bench status --json
expect_line 'a status' 0 '{"mirrors":[{"components":[{"name":"a.img","of":3,"sectors":3,"state":"ACTIVE"},'\
'{"name":"b.img","of":3,"sectors":3,"state":"ACTIVE"}],"name":"gm0","state":"COMPLETE"}]}'
at_bench configure --autosync off gm0
at_bench rebuild gm0 b.img --force
at_bench deactivate --force gm0 b.img
at_bench list --json
expect_line 'a list' 0 '{"mirrors":[{"all":2,"balance":"load","components":[{"did":1,"flags":[],"hardcoded":false,'\
'"name":"a.img","offset":0,"priority":0,"provsize":2048,"state":"ACTIVE","syncid":2},{"did":2,"flags":["INACTIVE"],'\
'"hardcoded":false,"name":"b.img","offset":0,"priority":0,"provsize":2048,"state":"INACTIVE","syncid":1}],'\
'"flags":["NOAUTOSYNC"],"genid":0,"mediasize":1536,"mid":7,"name":"gm0","slice":4096,"state":"DEGRADED","syncid":2}]}'
fresh_bench none
at_bench list --json
expect_line 'a list of none' 0 '{"mirrors":[]}'
at_bench status --json
expect_line 'a status of none' 0 '{"mirrors":[]}'

two_mirrors of_each
expect 'two mirrors are found' 0 "$(lines 'k1 ok 1\nk2 ok 2')" ''
at_bench list --json
expect_line 'a list of both' 0 '{"mirrors":[{"all":2,"balance":"round-robin","components":[{"did":2,"flags":[],'\
'"hardcoded":false,"name":"a.img","offset":0,"priority":0,"provsize":2048,"state":"ACTIVE","syncid":4},{"did":1,'\
'"flags":["SYNCHRONIZING","FORCE_SYNC"],"hardcoded":true,"name":"b.img","offset":512,"priority":5,"provsize":2048,'\
'"state":"SYNCHRONIZING","syncid":4}],"flags":["NOAUTOSYNC","NOFAILSYNC"],"genid":3,"mediasize":1536,"mid":8,'\
'"name":"gm0","slice":8192,"state":"DEGRADED","syncid":4},{"all":2,"balance":"load","components":[{"did":1,"flags":[],'\
'"hardcoded":false,"name":"c.img","offset":0,"priority":0,"provsize":2048,"state":"ACTIVE","syncid":1},{"did":2,'\
'"flags":["INACTIVE"],"hardcoded":false,"name":"d.img","offset":0,"priority":0,"provsize":2048,"state":"INACTIVE",'\
'"syncid":1}],"flags":[],"genid":0,"mediasize":1536,"mid":7,"name":"gm1","slice":4096,"state":"DEGRADED","syncid":1}]}'
at_bench status --json
expect_line 'a status of both' 0 '{"mirrors":[{"components":[{"name":"a.img","of":3,"sectors":3,"state":"ACTIVE"},'\
'{"name":"b.img","of":3,"sectors":1,"state":"SYNCHRONIZING"}],"name":"gm0","state":"DEGRADED"},{"components":['\
'{"name":"c.img","of":3,"sectors":3,"state":"ACTIVE"},{"name":"d.img","of":3,"sectors":0,"state":"INACTIVE"}],'\
'"name":"gm1","state":"DEGRADED"}]}'
overwrite "$bench/images/b.img" 200 x
overwrite "$bench/images/d.img" 200 x
at_bench audit --json
expect_line 'an audit' 1 '{"amiss":["b.img","d.img"]}'

# ---- images that are looked at

# gm0 has a source that is sure, gm1 none, and gm2 one that says DIRTY.
images=$work/looked-at
mkdir "$images"
run taste --json --shelf "$images"
expect_line 'a taste of nothing' 0 '{"left_out":[],"mirrors":[],"passed_over":[]}'
ln -s a.img "$images/link"
run taste --json --shelf "$images"
expect_line 'a taste of a link' 0 '{"left_out":[],"mirrors":[],"passed_over":[{"name":"link","reason":"a link"}]}'
put_edited "$images/a.img" a 45 '\005' 49 '\006'
put_edited "$images/b.img" a 40 '\002' 45 '\005' 49 '\006' 71 '\000\004' 87 '\003'
put_edited "$images/c.img" c 20 gm1 36 '\010' 45 '\004' 49 '\006'
put_edited "$images/d.img" c 20 gm1 36 '\010' 40 '\002' 45 '\005' 49 '\006' 87 '\010'
put_edited "$images/e.img" c 20 gm1 36 '\010' 40 '\003' 45 '\005' 49 '\005' 79 '\001'
put_edited "$images/f.img" f
overwrite "$images/f.img" 100 '\001'
put_edited "$images/g.img" g 95 a.img
put_edited "$images/h.img" h 111 '\000\006'
put_image "$images/k.img" k bare
put_edited "$images/l.img" l 20 gm2 36 '\011' 45 '\005' 49 '\006' 87 '\001'
put_image "$images/$(printf 'bell\007')" b bare
put_image "$images/ä" a bare
run taste --json --shelf "$images"
expect_line 'a taste of each state, of each way to be left out, and of names' 1 '{"left_out":[{"name":"f.img",'\
'"reason":"fault 3"},{"name":"g.img","reason":"names another image"},{"name":"h.img","reason":"tells another size"},'\
'{"name":"k.img","reason":"no metadata"}],"mirrors":[{"components":[{"dirty":false,"name":"a.img","state":"ACTIVE"},'\
'{"copied":2,"dirty":true,"name":"b.img","of":3,"state":"SYNCHRONIZING"}],"genid":5,"mid":7,"name":"gm0",'\
'"source":"a.img","sure":true,"syncid":6},{"components":[{"dirty":false,"name":"c.img","state":"BROKEN"},'\
'{"dirty":false,"name":"d.img","state":"INACTIVE"},{"copied":0,"dirty":false,"name":"e.img","of":3,"state":"STALE"}],'\
'"genid":5,"mid":8,"name":"gm1","source":"","sure":false,"syncid":6},{"components":[{"dirty":true,"name":"l.img",'\
'"state":"ACTIVE"}],"genid":5,"mid":9,"name":"gm2","source":"l.img","sure":false,"syncid":6}],"passed_over":['\
'{"name":"bell\u0007","reason":"name with other characters"},{"name":"link","reason":"a link"},{"name":"ä",'\
'"reason":"name with other characters"}]}'
run dump --json --shelf "$images" f.img
expect_line 'a dump of a sector that is damaged' 1 '{"decode":3}'
put_edited "$images/b.img" b 36 '\357\276\255\336' 40 '\002' 44 '\003' 45 '\005' 49 '\006' 53 '\310' 54 '\000\040' \
    58 '\003' 71 '\000\004' 79 '\001' 87 '\006' 95 b.img
run dump --json --shelf "$images" b.img
expect_line 'a dump, each field of which has a value of its own' 0 '{"all":3,"balance":"split","dflags":6,"did":2,"genid":5,'\
'"mediasize":1536,"mflags":1,"mid":3735928559,"name":"gm0","priority":200,"provider":"b.img","provsize":2048,'\
'"slice":8192,"sync_offset":1024,"syncid":6}'

# ---- what is filled

fresh_bench filled
batch "$label$insert"
at_bench sync --quiet --json gm9
expect_line 'a sync of a mirror that is not there' 1 '{"answer":"refused","number":5}'
at_bench sync --quiet --json gm0 c.img
expect_line 'a sync of a component that is not there' 1 '{"answer":"refused","number":12}'
mv "$bench/images/b.img" "$work/away"
at_bench sync --quiet --json
expect 'a sync that passes a mirror over' 1 '{"amiss":["b.img"],"components":[]}' \
    'gm0 is passed over: not all of its images are as they are registered'
at_bench sync --quiet --json --unchecked
expect_line 'a sync that is refused' 1 '{"answer":"refused","number":8}'
mv "$work/away" "$bench/images/b.img"
at_bench sync --quiet --json
expect 'a sync' 0 '{"amiss":[],"components":[{"mirror":"gm0","name":"a.img","state":"ACTIVE"},'\
'{"mirror":"gm0","name":"b.img","state":"ACTIVE"}]}' ''

# ---- what is pending, and is carried out

at_bench recover --json
expect 'nothing to carry out' 0 '{"recovered":0}' ''
run pending --json --registry "$registry"
expect 'nothing is pending' 0 '{"pending":[]}' ''
stopped_remove stopped
keep_bench
run pending --json --registry "$registry"
expect 'what is pending' 0 '{"pending":[{"of":"b.img","write":"clear"},{"of":"a.img","write":"metadata"}]}' ''
at_bench pending --json
expect 'the same beside its images' 0 '{"pending":[{"images":[{"image":"b.img","standing":"member"}],"of":"b.img","write":"clear"},'\
'{"images":[{"image":"a.img","standing":"member"}],"of":"a.img","write":"metadata"}],"strange":[]}' ''
expect_kept 'nothing is carried out'
at_bench recover --json
expect 'it is carried out' 0 '{"recovered":2}' ''
if command -v sqlite3 >/dev/null; then
    stopped_copy copying
    run pending --json --registry "$registry"
    expect 'a copy that is pending' 0 '{"pending":[{"from":0,"of":"a.img","sectors":3,"to":"b.img","write":"copy"},'\
'{"of":"b.img","write":"metadata"}]}' ''
    at_bench pending --json
    expect 'the same beside its images, a copy' 0 '{"pending":[{"from":0,"images":[{"image":"a.img","standing":"as registered"},'\
'{"image":"b.img","standing":"as registered"}],"of":"a.img","sectors":3,"to":"b.img","write":"copy"},'\
'{"images":[{"image":"b.img","standing":"as registered"}],"of":"b.img","write":"metadata"}],"strange":[]}' ''
    at_bench recover --json --without a.img --key k9
    expect_line 'a loss that is refused' 1 '{"answer":"refused","key":"k9","number":17}'
    rm "$bench/images/b.img"
    at_bench recover --json --without b.img --key k9
    expect_line 'an image is given up' 0 '{"answer":"ok","key":"k9","recovered":2,"seq":3}'
    at_bench recover --json --without b.img --key k9
    expect_line 'the same loss again' 0 '{"answer":"repeated","key":"k9","recovered":0,"seq":3}'
else
    skip 'a copy that is pending, and an image that is given up' 'there is no sqlite3'
fi
finish
