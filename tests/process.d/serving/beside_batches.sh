# A thousand connections make what a batch makes; who else wants the folder or the port.
. "$helpers/serving.sh"

# ---- what a server makes is what a batch makes; and who else wants its folder, its registry or its port

if has_python 'a server beside batches'; then
    # A thousand connections in a row: rounds in which a mirror is made, filled and dropped, with a line that is refused and
    # one that is repeated.
    round=1
    while [ "$round" -le 125 ]; do
        printf "a$round label --mid 7 --did 1 gm0 a.img\nb$round insert --did 2 gm0 b.img\nc$round advance gm0 b.img\n"
        printf "c$round advance gm0 b.img\nd$round insert --did 3 gm0 b.img\ne$round deactivate gm0 b.img\n"
        printf "f$round remove gm0 b.img\ng$round destroy gm0\n"
        round=$((round + 1))
    done >"$work/rounds"
    echo 'z label --mid 7 --did 1 gm0 a.img' >>"$work/rounds"
    fresh_bench by-batch
    at_bench batch <"$work/rounds"
    cp "$work/output" "$work/told-by-batch"
    at_bench list
    cp "$work/output" "$work/list-by-batch"
    cp "$bench/images/b.img" "$work/b-by-batch"
    fresh_bench by-server
    begin_server --count 1001
    python3 -B "$tests/serving/many.py" "$port" "$work/rounds" >"$work/told-by-server" 2>&1
    end_server
    expect 'a server of 1,001 connections' 0 '' ''
    expect_same 'it answered as a batch does' "$work/told-by-batch" "$work/told-by-server"
    at_bench list
    expect_same 'and registered the same' "$work/list-by-batch" "$work/output"
    expect_same 'and left the same image' "$work/b-by-batch" "$bench/images/b.img"

    # While it serves, nobody else gets the folder, the registry or the port.
    fresh_bench held
    begin_server
    at_bench status
    expect 'a status in the folder of a server' 3 '' "$broken"
    mkdir "$work/elsewhere"
    timeout 20 "$gmbench" status --registry "$registry" --shelf "$work/elsewhere" >"$work/output" 2>"$work/complaints"
    status=$?
    expect 'a status over the registry of a server' 3 '' 'gmbench: F2 store'
    timeout 20 "$gmbench" serve --registry "$work/another" --shelf "$work/elsewhere" --port "$port" \
        >"$work/output" 2>"$work/complaints"
    status=$?
    expect 'a server on a port that is taken' 3 '' "$broken"
    stop_server 'a server that held all that'

    # It is killed while it fills an image. What was accepted is carried out then, and the image has what it claims.
    fresh_bench killed
    truncate -s 32M "$bench/images/a.img" "$bench/images/b.img"
    head -c 30000000 /dev/urandom | dd of="$bench/images/a.img" conv=notrunc 2>/dev/null
    batch "$label$insert"
    number=1
    while [ "$number" -le 256 ]; do
        echo "fill$number advance gm0 b.img"
        number=$((number + 1))
    done >"$work/fill"
    begin_server
    server=$(pgrep -P "$under_way")
    python3 -B "$tests/serving/many.py" "$port" "$work/fill" 100 "$server" >"$work/filled" 2>&1
    wait "$under_way" 2>/dev/null
    answered=$(grep -c copied "$work/filled")
    at_bench audit
    expect 'no image is amiss behind a server that was killed' 0 '' ''
    at_bench batch <"$work/fill"
    repeated=$(grep -c repeated "$work/output")
    if [ "$answered" = 100 ] && { [ "$repeated" = 100 ] || [ "$repeated" = 101 ]; }; then
        pass 'what it answered is done, and at most one line more'
    else
        fail 'what it answered is done, and at most one line more' "$answered answered, $repeated done"
    fi
    data=$((32 * 1024 * 1024 - 512))
    if cmp -s -n "$data" "$bench/images/a.img" "$bench/images/b.img"; then
        pass 'the lines behind that fill the image'
    else
        fail 'the lines behind that fill the image' "$(cmp -n "$data" "$bench/images/a.img" "$bench/images/b.img" 2>&1)"
    fi
fi
finish
