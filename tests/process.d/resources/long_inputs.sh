# Memory for many lines, and for a long one.
. "$helpers/bench.sh"

# ---- many lines, and a long one

# The peak of memory is what GNU time says, in KB; a shell may have a time of its own.
gnu_time=$(command -v /usr/bin/time || true)
peak() {
    "$gnu_time" -f %M -o "$work/peak" "$gmbench" batch --registry "$registry" --shelf "$bench/images" \
        >"$work/output" 2>"$work/complaints"
    status=$?
    tail -n 1 "$work/peak"
}

# So many lines that the rules refuse.
refused_lines() {
    awk -v count="$1" 'BEGIN { for (i = 1; i <= count; i++) print "k" i " destroy gm1" }'
}

if [ -n "$gnu_time" ] && "$gnu_time" -f %M true 2>/dev/null; then
    fresh_bench memory
    few=$(refused_lines 1000 | peak)
    many=$(refused_lines 100000 | peak)
    answered=$(wc -l <"$work/output")
    if [ "$answered" -ne 100000 ]; then
        fail 'the memory of 100,000 refused lines' "$answered answers"
    elif [ "$many" -le $((few + few / 10 + 256)) ]; then
        pass "the memory of 100,000 refused lines is that of 1,000 ($many and $few KB)"
    else
        fail 'the memory of 100,000 refused lines is that of 1,000' "$many and $few KB"
    fi
    small=$(printf 'k1 paint\n' | peak)
    large=$({ head -c 1000000000 /dev/zero | tr '\0' x; echo; echo 'k1 paint'; } | peak)
    if [ "$(cat "$work/output")" != "$(lines '? refused 1\nk1 refused 1')" ]; then
        fail 'the memory of a line of a gigabyte' "it printed '$(head -c 100 "$work/output")'"
    elif [ "$large" -le $((small + small / 10 + 256)) ]; then
        pass "a line of a gigabyte takes no more memory ($large and $small KB)"
    else
        fail 'a line of a gigabyte takes no more memory' "$large and $small KB"
    fi
else
    skip 'the memory of many and of long lines' 'there is no GNU time'
fi
finish
