# Benches: a folder of images and a registry, the commands that are run there, and what is expected of them after that.

. "$helpers/expect.sh"
. "$helpers/images.sh"

# A folder with these last sectors on its images a.img and b.img, beside which a registry is to lie.
put_bench() {
    bench=$work/$1
    registry=$bench/registry
    mkdir "$bench" "$bench/images"
    put_image "$bench/images/a.img" a "$2"
    put_image "$bench/images/b.img" b "$3"
}

# The same with fresh images.
fresh_bench() {
    put_bench "$1" bare bare
}

# A bench of two mirrors that were found on images: gm0, with each flag, has one that is hardcoded and is being filled, and
# gm1 one that is out of use.
two_mirrors() {
    fresh_bench "$1"
    set -- 36 '\010' 44 '\002' 45 '\003' 49 '\004' 54 '\000\040' 58 '\001' 79 '\003'
    put_edited "$bench/images/a.img" a 40 '\002' "$@"
    put_edited "$bench/images/b.img" a 53 '\005' 71 '\000\002' 87 '\006' 95 b.img "$@"
    put_edited "$bench/images/c.img" c 20 gm1 44 '\002'
    put_edited "$bench/images/d.img" c 20 gm1 40 '\002' 44 '\002' 87 '\010'
    batch 'k1 adopt gm0 a.img b.img\nk2 adopt gm1 c.img d.img\n'
}

# A bench that stopped when it had accepted the removal of b.img from gm0, and had written nothing of it.
stopped_remove() {
    put_bench "$1" pending-a pending-b
    cp "$top/examples/pending.sqlite" "$registry"
}

# A bench that stopped when it was to copy the data of a.img to b.img, after its insertion, and had written nothing of it.
# No batch stops there by itself: so SQLite's own command line writes that into the registry.
stopped_copy() {
    fresh_bench "$1"
    batch "$label$insert"
    sqlite3 "$registry" "INSERT INTO intents VALUES (1, 3, 'b.img', 'a.img', 0, 3), (2, 1, 'b.img', '', 0, 0)"
}

# Writes into the registry of that bench, by SQLite's own command line, commands that were accepted after so many, up to as
# many in all.
put_accepted() {
    sqlite3 "$registry" "WITH RECURSIVE numbers(n) AS (SELECT $1 + 1 UNION ALL SELECT n + 1 FROM numbers WHERE n < $2)
        INSERT INTO commands SELECT 'n' || n, n, 'forget gm9', 0, 0 FROM numbers"
}

# Whether the images of that bench have their data still, and these last sectors.
expect_images() {
    put_image "$work/wanted-a" a "$2"
    put_image "$work/wanted-b" b "$3"
    if ! cmp -s "$bench/images/a.img" "$work/wanted-a"; then
        fail "$1" "a.img: $(cmp "$bench/images/a.img" "$work/wanted-a" 2>&1)"
    elif ! cmp -s "$bench/images/b.img" "$work/wanted-b"; then
        fail "$1" "b.img: $(cmp "$bench/images/b.img" "$work/wanted-b" 2>&1)"
    else
        pass "$1"
    fi
}

# Runs a command at that bench, for at most 20 seconds.
at_bench() {
    command=$1
    shift
    timeout 20 "$gmbench" "$command" --registry "$registry" --shelf "$bench/images" "$@" \
        >"$work/output" 2>"$work/complaints"
    status=$?
}

# Hands these lines to a batch at that bench.
batch() {
    printf "$1" >"$work/lines"
    at_bench batch <"$work/lines"
}

# Keeps the images and the registry of that bench.
keep_bench() {
    rm -rf "$work/kept-images"
    cp -R "$bench/images" "$work/kept-images"
    cp "$registry" "$work/kept-registry"
}

# Whether they are as they were kept, byte for byte.
expect_kept() {
    if other=$(diff -r "$bench/images" "$work/kept-images" 2>&1 && cmp "$registry" "$work/kept-registry" 2>&1); then
        pass "$1"
    else
        fail "$1" "$other"
    fi
}

# Puts the images and the registry back as they were kept.
put_back() {
    rm -rf "$bench/images" "$registry" "$registry-wal"
    cp -R "$work/kept-images" "$bench/images"
    cp "$work/kept-registry" "$registry"
}

# Begins a registry that knows nothing over the images that the bench before left.
forget_registry() {
    rm -f "$registry" "$registry-wal"
}

# The words that make the mirror gm0 of a.img, and add b.img to it.
label='k1 label --mid 7 --did 1 gm0 a.img\n'
insert='k2 insert --did 2 gm0 b.img\n'

# What a status says of that mirror.
of_one="$(lines 'gm0             COMPLETE 1/1\n  a.img           ACTIVE')"
of_two="$(lines 'gm0             DEGRADED 1/2\n  a.img           ACTIVE\n  b.img           SYNCHRONIZING 0 of 3')"
of_filled="$(lines 'gm0             COMPLETE 2/2\n  a.img           ACTIVE\n  b.img           ACTIVE')"

# What a list says of that mirror while it has a.img alone.
list_of_one='Mirror: gm0
State: COMPLETE
Mid: 7
All: 1
Genid: 0
Syncid: 1
Balance: load
Slice: 4096
Flags: NONE
Mediasize: 1536
Components: 1
- a.img
  State: ACTIVE
  Did: 1
  Priority: 0
  Syncid: 1
  Flags: NONE
  Offset: 0
  Provsize: 2048
  Hardcoded: no'
