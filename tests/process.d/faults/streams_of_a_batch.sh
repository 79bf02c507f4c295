# Standard streams of a batch that fail, whose lines before are done.
. "$helpers/under_way.sh"

# ---- the standard streams of a batch

# What was accepted stays so.
fresh_bench no-input
timeout 20 "$gmbench" batch --registry "$registry" --shelf "$bench/images" <&- \
    >"$work/output" 2>"$work/complaints"
status=$?
expect 'a batch without standard input' 3 '' "$broken"
timeout 20 "$gmbench" batch --registry "$registry" --shelf "$bench/images" <"$bench/images" \
    >"$work/output" 2>"$work/complaints"
status=$?
expect 'a batch whose standard input is a folder' 3 '' "$broken"
for how in closed full gone; do
    fresh_bench "output-$how"
    printf "$label$insert" >"$work/lines"
    : >"$work/output"
    case $how in
        closed)
            timeout 20 "$gmbench" batch --registry "$registry" --shelf "$bench/images" <"$work/lines" \
                >&- 2>"$work/complaints"
            status=$?
            ;;
        full)
            if [ ! -e /dev/full ]; then
                skip 'a batch to a full disk' 'there is no /dev/full'
                continue
            fi
            timeout 20 "$gmbench" batch --registry "$registry" --shelf "$bench/images" <"$work/lines" \
                >/dev/full 2>"$work/complaints"
            status=$?
            ;;
        gone)
            rm -f "$work/status"
            {
                sleep 1
                timeout 20 "$gmbench" batch --registry "$registry" --shelf "$bench/images" <"$work/lines" \
                    2>"$work/complaints"
                echo $? >"$work/status"
            } | true
            wait_for "$work/status"
            status=$(cat "$work/status")
            ;;
    esac
    expect "a batch whose standard output is $how" 3 '' "$broken"
    batch "$label$insert"
    expect "what it accepted before its output was $how" 0 "$(lines 'k1 repeated 1\nk2 ok 2')" ''
done
# An input that fails after two lines: a pipe whose reads don't wait while nothing is in it.
fresh_bench input-fails
mkfifo "$bench/in"
exec 3<>"$bench/in"
if dd iflag=nonblock count=0 <&3 2>/dev/null; then
    send "$label$insert"
    timeout 20 "$gmbench" batch --registry "$registry" --shelf "$bench/images" <&3 \
        >"$work/output" 2>"$work/complaints"
    status=$?
    expect 'a batch whose standard input fails behind two lines' 3 "$(lines 'k1 ok 1\nk2 ok 2')" "$broken"
    expect_images 'it carried out both' pending-a pending-b
    batch 'k3 destroy gm0\n'
    expect 'a batch behind that one' 0 'k3 ok 3' ''
else
    skip 'a batch whose standard input fails behind two lines' 'this dd has no iflag=nonblock'
fi
exec 3>&-
# An output with room for the first answer alone, at the end of the longest file that may be written here: the second
# command is done, though its answer can't be printed, and the third line isn't taken.
fresh_bench output-narrow
printf "$label${insert}k3 destroy gm0\n" >"$work/lines"
(
    trap '' XFSZ
    ulimit -f 4096
    head -c 10000000 /dev/zero >"$bench/answers" 2>/dev/null
    dd if=/dev/null of="$bench/answers" bs=1 seek=$(($(wc -c <"$bench/answers") - 8)) 2>/dev/null
    exec timeout 20 "$gmbench" batch --registry "$registry" --shelf "$bench/images" \
        <"$work/lines" >>"$bench/answers"
) 2>"$work/complaints"
status=$?
tail -c 8 "$bench/answers" >"$work/output"
expect 'a batch whose standard output takes one answer' 3 'k1 ok 1' "$broken"
expect_images 'the second line is done anyway' pending-a pending-b
at_bench batch <"$work/lines"
expect 'the same batch behind that one' 0 "$(lines 'k1 repeated 1\nk2 repeated 2\nk3 ok 3')" ''
fresh_bench no-complaints
printf 'k1 label --mid 7 --did 1 gm0 a.img\nk2 destroy gm1\n' >"$work/lines"
timeout 20 "$gmbench" batch --registry "$registry" --shelf "$bench/images" <"$work/lines" \
    >"$work/output" 2>&-
status=$?
: >"$work/complaints"
expect 'a batch without standard error' 1 "$(lines 'k1 ok 1\nk2 refused 5')" ''
finish
