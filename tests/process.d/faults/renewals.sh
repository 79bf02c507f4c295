# A registry that is renewed, stopped before each call that changes a file, by a fault and by a kill.
. "$helpers/bench.sh"
. "$helpers/python.sh"

run_stopped_calls 'a renewal that is stopped' faults/renewals.py

# Whoever waited for the lock of the old file goes on with the new one, under the same name. The second lock is slow here, with
# which the registry is opened to be written: when it is tried the opened file has lost its name.
fresh_bench waited
batch "$label$insert"
if command -v strace >/dev/null; then
    mkdir "$bench/other"
    put_image "$bench/other/d.img" d bare
    strace -f -o "$bench/locks" -P "$registry" -e trace=fcntl -e inject=fcntl:delay_enter=5000000:when=2 \
        "$gmbench" label --mid 9 --did 9 --key w1 --registry "$registry" --shelf "$bench/other" gm9 d.img >"$bench/waited" 2>&1 &
    sleep 2
    at_bench renew
    [ "$status" = 0 ] && pass 'a renewal while another one waits' || fail 'a renewal while another one waits' "$(cat "$work/complaints")"
    wait $!
    [ "$(grep -c F_WRLCK "$bench/locks")" = 2 ] && pass 'it locked another file' || fail 'it locked another file' "$(cat "$bench/locks")"
    echo 'w1 ok 2' >"$work/wanted"
    expect_same 'whoever waited has its command in the new registry' "$bench/waited" "$work/wanted"
    at_bench status
    grep -q '^gm9 ' "$work/output" && pass 'it is there' || fail 'it is there' "$(cat "$work/output")"
else
    skip 'whoever waited goes on with the new registry' 'there is no strace here'
fi
finish
