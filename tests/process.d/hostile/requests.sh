# Requests made at random, held to the first check that they don't pass.
. "$helpers/serving.sh"

# ---- requests that a generator makes, each held to the first check that it doesn't pass

# Heads, targets, methods, fields, lengths and bodies, each right or wrong, and requests with bytes that are others or gone,
# of which no more is said than that the response is whole.
case ${HOSTILE:-some} in
    all) count=20000 ;;
    *) count=4000 ;;
esac
if has_python 'requests that are made at random'; then
    fresh_bench requests
    batch "$label"
    keep_bench
    begin_server --count "$count"
    run_script hostile/requests.py "$port" "$count" "$tests/serving"
    end_server
    expect 'the server that was asked them ends' 0 '' ''
    at_bench status
    expect 'none of them was a command that is accepted' 0 "$of_one" ''
    expect_images 'none of them changed an image' fresh bare
fi
finish
