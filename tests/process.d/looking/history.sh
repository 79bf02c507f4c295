# Which commands a registry has accepted, as lines and as JSON, and that this only looks.
. "$helpers/rights.sh"
. "$helpers/under_way.sh"
. "$helpers/python.sh"

# Runs `log` on the registry of that bench.
log() {
    run log --registry "$registry" "$@"
}

# ---- a line for each command that was accepted, worked out by hand

fresh_bench recalled
put_image "$bench/images/c.img" c fresh
put_edited "$bench/images/f.img" f 20 gm2 36 '\011'
first=0a1b2c3d$(head -c 1016 /dev/zero | tr '\0' 0)
second=00ff00ff$(head -c 2040 /dev/zero | tr '\0' e)
cat >"$work/lines" <<END
k1 label --mid 7 --did 1 gm0 a.img
k2 insert --did 2 gm0 b.img
k3 advance gm0 b.img
k1 label --mid 7 --did 1 gm0 a.img
k4 advance gm0 b.img
p1 patch --first 1 --data $first gm0
p2 patch --data $second --first 0 gm0
k5 configure --prov b.img --priority 3 --balance prefer gm0
k6 rebuild gm0 b.img
k7 deactivate gm0 b.img
k8 activate gm0 b.img
k9 advance gm0 b.img
k10 remove gm0 b.img
k11 clear c.img
k12 label --mid 8 --did 4 --balance split --slice 8192 --autosync off --failsync off --hardcode on gm1 b.img
k13 insert --did 5 --priority 7 --hardcode on gm1 c.img
k14 lost gm1 c.img
k15 forget gm1
k16 adopt gm2 f.img
k17 destroy gm1
END
at_bench batch <"$work/lines"
[ "$status" = 1 ] && [ "$(grep -c ' ok ' "$work/output")" = 18 ] && pass 'eighteen commands of twenty are accepted' ||
    fail 'eighteen commands of twenty are accepted' "status $status, '$(cat "$work/output")'"
cat >"$work/all" <<'END'
1 k1 label --mid 7 --did 1 --balance load --slice 4096 --autosync on --failsync on --hardcode off gm0 a.img: ok
2 k2 insert --did 2 --priority 0 --hardcode off gm0 b.img: ok
3 k3 advance gm0 b.img: copied 3 of 3
4 p1 patch --first 1 --data 0a1b2c3d... (1 sector) gm0: ok
5 p2 patch --first 0 --data 00ff00ff... (2 sectors) gm0: ok
6 k5 configure --balance prefer --prov b.img --priority 3 gm0: ok
7 k6 rebuild gm0 b.img: ok
8 k7 deactivate gm0 b.img: ok
9 k8 activate gm0 b.img: ok
10 k9 advance gm0 b.img: copied 3 of 3
11 k10 remove gm0 b.img: ok
12 k11 clear c.img: ok
13 k12 label --mid 8 --did 4 --balance split --slice 8192 --autosync off --failsync off --hardcode on gm1 b.img: ok
14 k13 insert --did 5 --priority 7 --hardcode on gm1 c.img: ok
15 k14 lost gm1 c.img: ok
16 k15 forget gm1: ok
17 k16 adopt gm2 f.img: ok
18 k17 destroy gm1: ok
END
# The lines with these numbers.
numbered() {
    for number; do
        grep "^$number " "$work/all"
    done
}
cp -R "$bench" "$work/kept-bench"
log
expect 'each command that was accepted, and no other' 0 "$(cat "$work/all")" ''
log --last 3
expect 'the last three' 0 "$(numbered 16 17 18)" ''
log --last 1
expect 'the last' 0 "$(numbered 18)" ''
log --last 18
expect 'the last eighteen' 0 "$(cat "$work/all")" ''
log --last 100000
expect 'more than there are' 0 "$(cat "$work/all")" ''
log gm0
expect 'those of a mirror' 0 "$(numbered 1 2 3 4 5 6 7 8 9 10 11)" ''
log gm1
expect 'those of a mirror that was destroyed' 0 "$(numbered 13 14 15 16 18)" ''
log --last 2 gm1
expect 'its last two' 0 "$(numbered 16 18)" ''
log --last 5 gm1
expect 'its last five' 0 "$(numbered 13 14 15 16 18)" ''
log gm2 --last 2
expect 'one that was adopted' 0 "$(numbered 17)" ''
for name in gm9 a.img c.img gm clear ok; do
    log "$name"
    expect "$name is no mirror that a command names" 0 '' "no command names $name"
done
log --last 1 --json gm9
expect 'the same as JSON' 0 '{"commands":[]}' 'no command names gm9'
if other=$(diff -r "$bench" "$work/kept-bench" 2>&1); then
    pass 'nothing was written, nor put beside the registry'
else
    fail 'nothing was written, nor put beside the registry' "$other"
fi

# Far more than one page, with more than one stretch of an advance.
fresh_bench stretches
truncate -s 20M "$bench/images/a.img" "$bench/images/b.img"
{
    printf "$label$insert"
    number=0
    while [ $((number += 1)) -le 160 ]; do
        echo "a$number advance gm0 b.img"
    done
} >"$work/lines"
at_bench batch <"$work/lines"
log --last 159
{
    number=1
    while [ $((number += 1)) -le 159 ]; do
        echo "$((number + 2)) a$number advance gm0 b.img: copied $((number * 256)) of 40959"
    done
    echo '162 a160 advance gm0 b.img: copied 40959 of 40959'
} >"$work/wanted"
expect 'pages of advances' 0 "$(cat "$work/wanted")" ''
for last in 63 64 65 128 129; do
    log --last "$last" gm0
    expect "the last $last of a mirror" 0 "$(tail -n "$last" "$work/wanted")" ''
done

# ---- names that begin with a hyphen

fresh_bench hyphens
cat >"$work/lines" <<'END'
k1 label --mid 7 --did 1 -- -m a.img
k2 insert --did 2 -- -m b.img
k3 configure --prov=b.img --priority 1 -- -m
END
at_bench batch <"$work/lines"
log -- -m
cat >"$work/wanted" <<'END'
1 k1 label --mid 7 --did 1 --balance load --slice 4096 --autosync on --failsync on --hardcode off -m a.img: ok
2 k2 insert --did 2 --priority 0 --hardcode off -m b.img: ok
3 k3 configure --prov b.img --priority 1 -m: ok
END
expect 'a mirror whose name begins with a hyphen' 0 "$(cat "$work/wanted")" ''

# ---- words that are wrong

fresh_bench wrong
batch "$label"
for words in '--last 0' '--last 100001' '--last -1' '--last x' '--last' 'gm0 gm1' 'two/words' '--read-only' \
    '--first 1' '--unchecked'; do
    log $words
    expect_words "'log $words'"
done
run log --registry "$registry" --shelf "$bench/images"
expect_words 'it takes no folder'
run log
expect_words 'it wants a registry'

# ---- JSON

# The commands of a registry as JSON, beside what the tables hold by another reader.
if has_python 'the commands as JSON'; then
    cat >"$work/compare.py" <<'END'
import json, sqlite3, sys

text = open(sys.argv[1]).read()
told = json.loads(text)
rows = sqlite3.connect(f"file:{sys.argv[2]}?mode=ro", uri=True).execute(
    "SELECT seq, call_key, words, copied, of_total FROM commands ORDER BY seq").fetchall()
wanted = []
for number, key, words, copied, total in rows:
    it = {"answer": "ok", "key": key, "number": number, "words": words.split(" ")}
    wanted.append(it | ({"copied": copied, "of": total} if total else {}))
compact = json.dumps({"commands": wanted}, sort_keys=True, separators=(",", ":")) + "\n"
print(len(wanted), told == {"commands": wanted}, text == compact)
END
    compare() {
        [ "$status" = 0 ] && [ ! -s "$work/complaints" ] &&
            found=$(python3 "$work/compare.py" "$work/output" "$registry" 2>&1) && [ "$found" = "$2 True True" ] &&
            pass "$1" || fail "$1" "status $status, '$found', '$(head -n 1 "$work/complaints")'"
    }
    for kept in recalled:18 stretches:162 wrong:1; do
        registry=$work/${kept%:*}/registry
        log --json
        compare "the commands of ${kept%:*} as JSON" "${kept#*:}"
    done
fi
registry=$work/recalled/registry
log --json --last 1 gm0
expect 'one command as JSON' 0 \
    '{"commands":[{"answer":"ok","key":"k10","number":11,"words":["remove","gm0","b.img"]}]}' ''
log --json --last 2 gm1
expect 'two commands as JSON' 0 '{"commands":[{"answer":"ok","key":"k15","number":16,"words":["forget","gm1"]},'\
'{"answer":"ok","key":"k17","number":18,"words":["destroy","gm1"]}]}' ''

# ---- registries without commands, of the first schema, and with something pending

fresh_bench empty
at_bench recover
log
expect 'a registry that accepted nothing' 0 '' ''
log --last 5 gm0
expect 'a mirror of none' 0 '' 'no command names gm0'
log --json
expect 'a registry that accepted nothing, as JSON' 0 '{"commands":[]}' ''

of_three=$(
    cat <<'END'
1 k1 label --mid 7 --did 1 --balance load --slice 4096 --autosync on --failsync on --hardcode off gm0 a.img: ok
2 k2 insert --did 2 --priority 0 --hardcode off gm0 b.img: ok
3 k3 remove gm0 b.img: ok
END
)
of_label=$(echo "$of_three" | head -n 1)
for kept in pending first-schema; do
    stopped_remove "of-$kept"
    cp "$top/examples/$kept.sqlite" "$registry"
    keep_bench
    log
    expect "the commands of $kept.sqlite" 0 "$of_three" ''
    expect_kept "$kept.sqlite is as it was"
    expect_none "$kept.sqlite has no log" "$registry-wal"
    at_bench pending
    expect "what is pending in $kept.sqlite is pending still" 0 \
        "$(lines 'clear b.img: member\nmetadata of a.img: member')" ''
    chmod 444 "$registry"
    expect_as_reader "the commands of $kept.sqlite, to a user who may only read" "$of_three" log --registry "$registry"
done

# Commands that only the log of a batch has that was killed.
fresh_bench killed
kill_batch "$label$insert"
[ -s "$registry-wal" ] && pass 'a log is left' || fail 'a log is left' "$(ls "$bench")"
cat "$registry" "$registry-wal" >"$work/before"
log gm0
[ "$status" = 0 ] && [ "$(head -n 1 "$work/output")" = "$of_label" ] &&
    pass 'the commands of a registry and its log' ||
    fail 'the commands of a registry and its log' "status $status, '$(cat "$work/output" "$work/complaints")'"
cat "$registry" "$registry-wal" >"$work/after"
expect_same 'both are as they were' "$work/after" "$work/before"

# ---- faults

# Whether the last run ended by this fault, printed nothing else, and said this of it.
expect_fault() {
    expect "$1" 3 '' "$(lines "gmbench: $2\n$3")"
}
run log --explain --registry "$work/there-is-none"
expect_fault 'there is no registry' 'F2 store' "F2: there is no registry at $work/there-is-none"
expect_none 'none is made' "$work/there-is-none"
: >"$work/empty-file"
run log --explain --registry "$work/empty-file"
expect_fault 'an empty file' 'F2 store' "F2: $work/empty-file holds no registry: it is empty, or its making was stopped"
echo text, and more than sixteen bytes of it >"$work/text"
run log --explain --registry "$work/text"
expect_fault 'a text' 'F2 store' "F2: $work/text isn't a registry: no database begins as it does"
fresh_bench used
begin_batch "$label"
log --explain
expect_fault 'a registry that is in use' 'F2 store' "F2: another program has $registry open"
timeout 60 "$gmbench" log --wait 50 --registry "$registry" >"$bench/waited" 2>&1 3>&- &
waiting=$!
sleep 1
end_batch
wait "$waiting"
status=$?
cp "$bench/waited" "$work/output"
: >"$work/complaints"
expect 'it is waited for' 0 "$of_label" ''

if command -v sqlite3 >/dev/null; then
    change=0
    for changed in "UPDATE commands SET words = 'forget gm0' || char(27) WHERE seq = 2" \
        "UPDATE commands SET words = 'forget gm0: ok' WHERE seq = 2" \
        "UPDATE commands SET call_key = 'k 2' WHERE seq = 2" \
        "UPDATE commands SET copied = -1 WHERE seq = 3" "UPDATE commands SET of_total = 1048577 WHERE seq = 3" \
        "DELETE FROM commands WHERE seq = 2" "UPDATE commands SET seq = 4 WHERE seq = 3"; do
        stopped_remove "changed-$((change += 1))"
        sqlite3 "$registry" "$changed"
        log
        expect "a registry changed by '$changed'" 3 '' 'gmbench: F6 registry unreadable'
    done
    stopped_remove foreign
    sqlite3 "$registry" 'CREATE TABLE other(a INTEGER) STRICT'
    log
    expect 'a registry with a table more' 3 '' 'gmbench: F6 registry unreadable'
fi

registry=$work/recalled/registry
for form in '' --json; do
    timeout 20 "$gmbench" log --registry "$registry" $form >&- 2>"$work/complaints"
    status=$?
    : >"$work/output"
    expect "log $form without standard output" 3 '' "$broken"
    if [ -e /dev/full ]; then
        timeout 20 "$gmbench" log --registry "$registry" $form >/dev/full 2>"$work/complaints"
        status=$?
        expect "log $form to a full disk" 3 '' "$broken"
    fi
done

finish
