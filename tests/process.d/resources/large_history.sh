# As many commands as a registry takes, and large ones, told in little more memory than any look at the registry takes.
. "$helpers/bench.sh"

# ---- as many commands as may be, and large ones, in little memory

# Runs `log` on the registry of that bench, in so many KB, or in 60,000.
log_in() {
    kilobytes=$1
    shift
    (ulimit -v "$kilobytes" && exec timeout 120 "$gmbench" log --registry "$registry" "$@") \
        >"$work/output" 2>"$work/complaints"
    status=$?
}
log_in_little() {
    log_in 60000 "$@"
}

# In how many KB a status is shown of that registry, without an opening.
needed_for_status() {
    kilobytes=16000
    while [ "$kilobytes" -le 400000 ]; do
        (ulimit -v "$kilobytes" && exec timeout 120 "$gmbench" status --read-only --registry "$registry" \
            --shelf "$bench/images") >"$work/output" 2>"$work/complaints" && break
        kilobytes=$((kilobytes + 2000))
    done
    echo "$kilobytes"
}
expect_told() {
    if [ "$status" = 0 ] && [ ! -s "$work/complaints" ] && cmp -s "$work/output" "$2"; then
        pass "$1"
    else
        fail "$1" "status $status, $(wc -l <"$work/output") lines, '$(cat "$work/complaints")'"
    fi
}
if command -v sqlite3 >/dev/null; then
    fresh_bench full
    batch "$label"
    put_accepted 1 100000
    {
        printf '1 k1 label --mid 7 --did 1 --balance load --slice 4096 --autosync on --failsync on '
        echo '--hardcode off gm0 a.img: ok'
        seq 2 100000 | sed 's/.*/& n& forget gm9: ok/'
    } >"$work/wanted"
    log_in_little
    expect_told 'a hundred thousand commands' "$work/wanted"
    log_in_little --last 2 gm9
    expect 'the last of them' 0 "$(tail -n 2 "$work/wanted")" ''
    log_in_little --last 1 gm0
    expect 'the first of them' 0 "$(head -n 1 "$work/wanted")" ''
    # Of no number is anything printed that comes after one that isn't there.
    sqlite3 "$registry" 'DELETE FROM commands WHERE seq = 50000'
    log_in_little
    [ "$status" = 3 ] && [ "$(cat "$work/complaints")" = 'gmbench: F6 registry unreadable' ] &&
        [ "$(wc -l <"$work/output")" -lt 50000 ] &&
        cmp -s -n "$(wc -c <"$work/output")" "$work/output" "$work/wanted" &&
        pass 'a gap ends it' || fail 'a gap ends it' "status $status, $(wc -l <"$work/output") lines"

    # 800 patches of 64 sectors are 52 MB.
    fresh_bench patched
    batch "$label"
    sqlite3 "$registry" "WITH RECURSIVE numbers(n) AS (SELECT 2 UNION ALL SELECT n + 1 FROM numbers WHERE n < 801)
        INSERT INTO commands SELECT 'p' || n, n,
        'patch --first 0 --data ' || replace(hex(zeroblob(32768)), '0', 'a') || ' gm0', 0, 0 FROM numbers"
    {
        head -n 1 "$work/wanted"
        seq 2 801 | sed 's/.*/& p& patch --first 0 --data aaaaaaaa... (64 sectors) gm0: ok/'
    } >"$work/wanted-patches"
    # A page of 64 patches of 65,536 digits is 4 MB.
    needed=$(needed_for_status)
    log_in $((needed + 4000))
    expect_told "large patches, in little more than a status takes ($needed KB)" "$work/wanted-patches"
    digits=$(head -c 65536 /dev/zero | tr '\0' a)
    log_in $((needed + 16000)) --json
    {
        printf '{"commands":[{"answer":"ok","key":"k1","number":1,"words":["label","--mid","7","--did","1",'
        printf '"--balance","load","--slice","4096","--autosync","on","--failsync","on","--hardcode","off",'
        printf '"gm0","a.img"]}'
        number=1
        while [ $((number += 1)) -le 801 ]; do
            printf ',{"answer":"ok","key":"p%d","number":%d,"words":["patch","--first","0","--data","%s","gm0"]}' \
                "$number" "$number" "$digits"
        done
        echo ']}'
    } >"$work/wanted-json"
    expect_told 'the same as JSON' "$work/wanted-json"
else
    skip 'as many commands as may be' 'there is no sqlite3'
fi
finish
