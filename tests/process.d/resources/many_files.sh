# Time in a folder of many files.
. "$helpers/images.sh"

# ---- a folder of many files

put_shelf
crowd=$work/crowd
mkdir "$crowd"
put_image "$crowd/a.img" a pending-a
(cd "$crowd" && seq 1 50000 | sed 's/^/f/' | xargs touch)

# How long 20 dumps in a folder take, in milliseconds.
time_dumps() {
    from=$(date +%s%N)
    for _ in 1 2 3 4 5 6 7 8 9 10 11 12 13 14 15 16 17 18 19 20; do
        "$gmbench" dump --shelf "$1" a.img >/dev/null
    done
    echo $((($(date +%s%N) - from) / 1000000))
}

# The least time of each folder in turns that go from one to the other, so that other work which begins or ends meanwhile is
# beside both: five turns, and up to 20 if the crowd takes longer still.
alone=$(time_dumps "$shelf")
among=$(time_dumps "$crowd")
turns=1
while [ "$turns" -lt 5 ] || { [ "$turns" -lt 20 ] && [ "$among" -gt $((2 * alone + 1)) ]; }; do
    took=$(time_dumps "$shelf")
    [ "$took" -ge "$alone" ] || alone=$took
    took=$(time_dumps "$crowd")
    [ "$took" -ge "$among" ] || among=$took
    turns=$((turns + 1))
done
if [ "$among" -le $((2 * alone + 1)) ]; then
    pass 'a dump among 50,000 files takes no longer'
else
    fail 'a dump among 50,000 files takes no longer' "$among ms for 20, and $alone ms for one file"
fi
finish
