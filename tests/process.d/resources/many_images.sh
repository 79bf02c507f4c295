# 1,024 images with 64 descriptors, in as many mirrors as there may be.
. "$helpers/bench.sh"
. "$helpers/python.sh"

# ---- more images than there are descriptors

# Runs a command at that bench with 64 descriptors, for at most 60 seconds.
with_few_descriptors() {
    (ulimit -n 64 && exec timeout 60 "$gmbench" "$@") >"$work/output" 2>"$work/complaints"
    status=$?
}

# 64 mirrors of 16 components, each of four sectors, are adopted, so that each of the 1,024 images is read and written.
if has_python 'a thousand images with 64 descriptors'; then
    bench=$work/crowd
    registry=$bench/registry
    mkdir "$bench" "$bench/images"
    python3 -B "$tests/resources/many_images.py" "$bench/images" "$helpers" >"$work/lines"
    at_the_bench="--registry $registry --shelf $bench/images"
    with_few_descriptors batch $at_the_bench <"$work/lines"
    expect 'a batch over 1,024 images with 64 descriptors' 0 \
        "$(seq 0 63 | while read -r mirror; do echo "k$mirror ok $((mirror + 1))"; done)" ''
    with_few_descriptors audit $at_the_bench
    expect 'an audit of 1,024 images with 64 descriptors' 0 '' ''
    overwrite "$bench/images/m40-c07" 200 x
    with_few_descriptors audit $at_the_bench
    expect 'it finds the one that is another' 1 m40-c07 ''
    for mirror in $(seq -w 0 63); do
        echo "gm$mirror            mid $((1$mirror - 100)) genid 0 syncid 1"
        for component in $(seq -w 0 15); do
            echo "  m$mirror-c$component         ACTIVE"
        done
        echo "  source: m$mirror-c00"
    done >"$work/wanted-taste"
    with_few_descriptors taste --shelf "$bench/images"
    expect 'a taste of 1,024 images with 64 descriptors' 0 "$(cat "$work/wanted-taste")" ''
    # There are as many mirrors as there may be, each of as many components as it may have.
    put_image "$bench/images/more" m bare
    printf 'k64 label --mid 64 --did 1 gm64 more\nk64 insert --did 16 gm63 more\n' >"$work/lines"
    with_few_descriptors batch $at_the_bench <"$work/lines"
    expect 'one mirror or one component more' 1 "$(lines 'k64 refused 15\nk64 refused 14')" ''
fi
finish
