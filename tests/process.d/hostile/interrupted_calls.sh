# Calls that signals interrupt, or that take some of the bytes.
. "$helpers/bench.sh"

# ---- calls that signals interrupt without end

# strace lets the calls on b.img alone answer that they were interrupted: each time, or so many times in a row.
traced() {
    printf "$label$insert" >"$work/lines"
    timeout 60 strace -f -qq -o "$work/trace" -P "$bench/images/b.img" -e trace="$1" -e inject="$1:error=EINTR$2" \
        "$gmbench" batch --registry "$registry" --shelf "$bench/images" \
        <"$work/lines" >"$work/output" 2>"$work/complaints"
    status=$?
}

fresh_bench try
if command -v strace >/dev/null && traced pwrite64 :when=1 && grep -q INJECTED "$work/trace"; then
    expect 'a write that is interrupted once' 0 "$(lines 'k1 ok 1\nk2 ok 2')" ''
    for call in pread64 pwrite64 fdatasync; do
        fresh_bench "once-$call"
        traced $call :when=1..999
        expect "999 times $call is interrupted in a row" 0 "$(lines 'k1 ok 1\nk2 ok 2')" ''
        fresh_bench "always-$call"
        traced $call ''
        case $call in
            # it is found before the line is accepted, and the batch settles the label at its end
            pread64) still_pending= ;;
            *) still_pending='metadata of a.img
metadata of b.img
' ;;
        esac
        expect "$call is interrupted each time" 3 "$(lines 'k1 ok 1\nk2 fault 3')" "${still_pending}gmbench: F3 disk"
        at_bench recover
        case $call in
            pread64) expect "a recovery behind $call" 0 'recovered 0' '' ;;
            *) expect "a recovery behind $call" 0 'recovered 2' '' ;;
        esac
        batch "$label$insert"
        case $call in
            pread64) expect "the same lines behind $call" 0 "$(lines 'k1 repeated 1\nk2 ok 2')" '' ;;
            *) expect "the same lines behind $call" 0 "$(lines 'k1 repeated 1\nk2 repeated 2')" '' ;;
        esac
    done
else
    skip 'calls that are interrupted' 'there is no strace here that can trace'
fi

# ---- calls that take a part of the bytes alone

if command -v cc >/dev/null && cc -O1 -fPIC -shared -o "$work/short_calls.so" "$tests/hostile/short_calls.c" 2>/dev/null; then
    fresh_bench short
    printf "$label${insert}k3 advance gm0 b.img\n" >"$work/lines"
    LD_PRELOAD=$work/short_calls.so SHORT=$bench/images/ timeout 20 "$gmbench" batch --registry "$registry" \
        --shelf "$bench/images" <"$work/lines" >"$work/output" 2>"$work/complaints"
    status=$?
    expect 'reads and writes of some bytes at a time' 0 "$(lines 'k1 ok 1\nk2 ok 2\nk3 ok 3 copied 3 of 3')" ''
    at_bench audit
    expect 'what was written so is whole' 0 '' ''
    expect_same_data 'what was copied so is whole' "$bench/images/a.img" "$bench/images/b.img" 1536
else
    skip 'reads and writes of some bytes at a time' 'there is no C compiler here'
fi
finish
