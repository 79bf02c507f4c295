# A sync that is killed while it copies up to 64 stretches together: it leaves all of them accepted, as one pending copy.
. "$helpers/bench.sh"

# Fills b.img of twenty stretches, and kills that before its Nth write to b.img.
kill_sync() {
    rm -rf "$bench/images" "$registry" "$registry-wal"
    cp -R "$work/kept-images" "$bench/images"
    cp "$work/kept-registry" "$registry"
    strace -f -o /dev/null -P "$bench/images/b.img" -e trace=pwrite64 -e inject=pwrite64:signal=SIGKILL:when="$1" \
        "$gmbench" sync --quiet --registry "$registry" --shelf "$bench/images" >/dev/null 2>&1
}

if command -v strace >/dev/null && command -v sqlite3 >/dev/null; then
    fresh_bench killed
    for one in a b; do
        head -c 2621440 /dev/urandom >"$bench/images/$one.img"
        head -c 512 /dev/zero >>"$bench/images/$one.img"
    done
    batch "$label$insert"
    keep_bench
    at_bench sync --quiet
    cp "$bench/images/b.img" "$work/filled"
    {
        echo 'copy 5120 sectors of a.img to b.img from 0'
        echo 'metadata of b.img'
    } >"$work/pending"
    # The copy goes by runs of 128 sectors, and the claim is the last write.
    for nth in 1 2 40 41; do
        kill_sync $nth
        run pending --registry "$registry"
        expect "a sync that is killed before write $nth leaves one copy" 0 "$(cat "$work/pending")" ''
        # These are rows that a program without series reads too: it leaves such ones of one advance.
        cp "$registry" "$work/rows"
        cp "$registry-wal" "$work/rows-wal"
        sqlite3 "$work/rows" 'SELECT * FROM intents ORDER BY ord; SELECT count(*), min(seq), max(seq) FROM commands' >"$work/found"
        lines '1|3|b.img|a.img|0|5120\n2|1|b.img||0|0\n22|1|22\n' >"$work/wanted"
        expect_same 'its rows are those of one copy and of twenty commands' "$work/found" "$work/wanted"
        at_bench recover
        expect 'it is carried out' 0 'recovered 2' ''
        expect_same 'the image is filled' "$bench/images/b.img" "$work/filled"
        at_bench status
        expect 'each stretch is accepted' 0 "$of_filled" ''
    done
else
    skip 'a sync that is killed' 'there is no strace or no sqlite3 here'
fi
finish
