# Files that are no registry, are in use, or are among the images.
. "$helpers/under_way.sh"
. "$helpers/python.sh"

# ---- a registry is made if there is none

fresh_bench new
registry=$bench/images/registry
printf 'SQLite format 3\000' >"$work/wanted-header"
for command in recover status list batch; do
    rm -f "$registry" "$registry-wal"
    case $command in
        recover) new='recovered 0' ;;
        batch) new='' ;;
        *) new='no mirrors' ;;
    esac
    for turn in 'a first' 'a second'; do
        at_bench $command </dev/null
        expect "$turn $command over a new registry" 0 "$new" ''
        head -c 16 "$registry" >"$work/header"
        expect_same "$turn $command leaves a database" "$work/header" "$work/wanted-header"
    done
done

# ---- files that are no registry

# A database of somebody else's: examples/notes.sqlite, which SQLite's own command line made, has another table.
fresh_bench foreign
for file in text database; do
    case $file in
        text)
            printf "Somebody's notes.\n" >"$work/kept-file"
            fault='gmbench: F2 store'
            ;;
        database)
            cp "$top/examples/notes.sqlite" "$work/kept-file"
            fault='gmbench: F6 registry unreadable'
            ;;
    esac
    registry=$bench/images/$file
    cp "$work/kept-file" "$registry"
    for command in recover status list batch; do
        at_bench $command </dev/null
        expect "a $command over somebody's $file" 3 '' "$fault"
        expect_same "it leaves the $file" "$registry" "$work/kept-file"
        expect_none "it puts nothing beside the $file" "$registry-wal"
    done
done

# A database that another program has open and writes to: its log is left as well.
if has_python 'a database that is written to'; then
    registry=$bench/live
    python3 - "$registry" "$work/live-ready" <<'END' &
import os
import sqlite3
import sys
import time

path, ready = sys.argv[1:]
store = sqlite3.connect(path)
store.execute("PRAGMA journal_mode = WAL")
store.execute("CREATE TABLE notes(text)")
store.commit()
store.execute("PRAGMA wal_checkpoint(TRUNCATE)")
store.execute("INSERT INTO notes VALUES ('kept')")
store.commit()
open(ready, "w").close()
while os.path.exists(ready):
    time.sleep(0.05)
END
    writer=$!
    for turn in $(seq 100); do
        [ -e "$work/live-ready" ] && break
        sleep 0.1
    done
    cp "$registry" "$work/kept-file"
    cp "$registry-wal" "$work/kept-log"
    [ -s "$work/kept-log" ] && pass 'its log has something' || fail 'its log has something' "$(ls -l "$bench")"
    for command in recover status batch; do
        at_bench $command --explain </dev/null
        [ "$status" = 3 ] && pass "a $command over a live database is a fault" ||
            fail "a $command over a live database is a fault" "status $status"
        expect_same "a $command leaves the live database" "$registry" "$work/kept-file"
        expect_same "a $command leaves its log" "$registry-wal" "$work/kept-log"
    done
    rm "$work/live-ready"
    wait "$writer"
    registry=$bench/registry
fi

# Bytes that no database begins with, at whatever place: the first, one in the middle, the last, and of a short file.
for bytes in 'XQLite format 3\000' 'SQLite gormat 3\000' 'SQLite format 3\001' 'SQLX'; do
    registry=$bench/images/first-bytes
    printf "$bytes" >"$registry"
    head -c 4096 /dev/zero >>"$registry"
    cp "$registry" "$work/kept-file"
    printf log >"$registry-wal"
    at_bench status --explain
    expect "a file that begins with $bytes" 3 '' "gmbench: F2 store
F2: $registry isn't a registry: no database begins as it does"
    expect_same "it is left, $bytes" "$registry" "$work/kept-file"
    printf log >"$work/kept-file"
    expect_same "what lies beside it is left, $bytes" "$registry-wal" "$work/kept-file"
done
for registry in "$bench/nowhere/registry" "$bench/images" '' :memory:; do
    at_bench recover
    expect "the registry '${registry#"$work/"}'" 3 '' 'gmbench: F2 store'
done
expect_images 'no fault of a registry touches an image' bare bare

# ---- registries with something beside their tables

# Whether a registry to which this adds something isn't opened, says that fault and keeps each byte, and is opened again after
# that was dropped.
expect_more() {
    put_back
    sqlite3 "$registry" "$3"
    cp "$registry" "$work/kept-file"
    for command in recover status; do
        at_bench $command
        expect "a $command with $1" 3 '' "gmbench: $2"
        expect_same "it leaves the registry with $1" "$registry" "$work/kept-file"
    done
    sqlite3 "$registry" "$4"
    at_bench status
    expect "a status after $1 is gone" 0 "$of_one" ''
}

# What SQLite keeps in the file is F6 if the program's own SQLite reads it, and F2 if that refuses the file: a window function is
# outside its grammar, and a table with a trigger isn't read, so that a row which refers to it refers to none.
if command -v sqlite3 >/dev/null; then
    fresh_bench more
    batch "$label"
    keep_bench
    unreadable='F6 registry unreadable'
    expect_more 'a view' "$unreadable" 'CREATE VIEW who AS SELECT prov, mirror FROM components' 'DROP VIEW who'
    expect_more 'statistics' "$unreadable" 'ANALYZE' 'DROP TABLE sqlite_stat1; DROP TABLE IF EXISTS sqlite_stat4'
    expect_more 'an index' "$unreadable" 'CREATE INDEX by_total ON mirrors(total)' 'DROP INDEX by_total'
    expect_more 'a table' "$unreadable" 'CREATE TABLE notes(text)' 'DROP TABLE notes'
    expect_more 'a trigger on writes' "$unreadable" \
        'CREATE TRIGGER cut AFTER INSERT ON intents BEGIN DELETE FROM commands; END' 'DROP TRIGGER cut'
    expect_more 'a trigger on mirrors' 'F2 store' \
        'CREATE TRIGGER cut AFTER INSERT ON mirrors BEGIN DELETE FROM commands; END' 'DROP TRIGGER cut'
    expect_more 'a view of another grammar' 'F2 store' \
        'CREATE VIEW ranked AS SELECT row_number() OVER (ORDER BY prov) FROM components' 'DROP VIEW ranked'
    expect_images 'none of them touches an image' fresh bare
else
    skip 'something beside the tables of a registry' 'there is no sqlite3'
fi

# ---- folders that are none

fresh_bench no-folder
for folder in nowhere images/a.img; do
    for command in recover status list batch; do
        run $command --registry "$registry" --shelf "$bench/$folder" </dev/null
        expect "a $command in the folder $folder" 3 '' "$broken"
    done
done
expect_none 'no registry is made for them' "$registry"

# ---- a folder and a registry in use

# A batch holds its folder, and has its registry open.
put_bench others pending-a pending-b
others=$bench
stopped_remove in-use
begin_batch 'k4 clear b.img\n'
for command in recover status list batch; do
    run $command --registry "$bench/another" --shelf "$bench/images" </dev/null
    expect "a $command in a folder that is in use" 3 '' "$broken"
done
expect_none 'no registry is made for that folder' "$bench/another"
run dump --shelf "$bench/images" a.img
expect 'a dump in a folder that is in use' 0 "$said_by_one" ''
for command in recover status list batch; do
    run $command --registry "$registry" --shelf "$others/images" </dev/null
    expect "a $command with a registry that is in use" 3 '' 'gmbench: F2 store'
done
end_batch
expect 'the batch that used both' 1 'k4 refused 29' ''
run recover --registry "$bench/another" --shelf "$bench/images"
expect 'a recovery once the folder is free' 0 'recovered 0' ''
bench=$others
expect_images 'a registry in use leaves the images' pending-a pending-b

# Another program may hold them as well.
if command -v flock >/dev/null; then
    stopped_remove held
    for command in recover status list batch; do
        timeout 20 flock "$bench/images" "$gmbench" $command --registry "$bench/another" --shelf "$bench/images" \
            </dev/null >"$work/output" 2>"$work/complaints"
        status=$?
        expect "a $command in a folder that another program holds" 3 '' "$broken"
    done
    expect_none 'no registry is made for a folder that another program holds' "$bench/another"
    timeout 20 flock "$bench/images" "$gmbench" dump --shelf "$bench/images" a.img >"$work/output" 2>"$work/complaints"
    status=$?
    expect 'a dump in a folder that another program holds' 0 "$said" ''
else
    skip 'a folder that another program holds' 'there is no flock'
fi
if command -v sqlite3 >/dev/null; then
    stopped_remove open-elsewhere
    mkfifo "$bench/in"
    timeout 60 sqlite3 "$registry" <"$bench/in" >"$bench/answers" 2>&1 &
    under_way=$!
    exec 3>"$bench/in"
    send 'PRAGMA journal_mode = DELETE;\nBEGIN EXCLUSIVE;\nSELECT 1;\n'
    wait_for "$bench/answers"
    at_bench recover
    expect 'a recovery with a registry that another program has open' 3 '' 'gmbench: F2 store'
    expect_images 'it leaves the images' pending-a pending-b
    exec 3>&-
    wait "$under_way"
    at_bench recover
    expect 'a recovery once the registry is free' 0 'recovered 2' ''
else
    skip 'a registry that another program has open' 'there is no sqlite3'
fi

# ---- a registry among the images

# Its name is that of an image that something pending needs, and it is named by three paths.
stopped_remove in-its-place
mv "$registry" "$bench/images/b.img"
ln -s b.img "$bench/images/link"
for path in b.img link ../images/./b.img; do
    registry=$bench/images/$path
    at_bench recover
    expect "a registry in the place of an image, as $path" 3 '' 'gmbench: F5 absent b.img'
    expect_same "it stays, as $path" "$bench/images/b.img" "$top/examples/pending.sqlite"
done

# It has whole sectors, and so have the files beside it, but none of them is an image, whatever path names it.
for path in r link ../images/./r; do
    fresh_bench "among-${path##*/}-${path%%/*}"
    registry=$bench/images/r
    at_bench recover
    ln -s r "$bench/images/link"
    for file in r-shm r-journal r-log s-wal; do
        head -c 1024 /dev/zero >"$bench/images/$file"
    done
    truncate -s 1024 "$bench/images/r-wal"
    registry=$bench/images/$path
    batch 'k1 label --mid 1 --did 1 gm1 r
k2 label --mid 2 --did 1 gm2 r-wal
k3 label --mid 3 --did 1 gm3 r-shm
k4 label --mid 4 --did 1 gm4 r-journal
k5 label --mid 5 --did 1 gm5 r-log
k6 label --mid 6 --did 1 gm6 s-wal
k7 label --mid 7 --did 1 gm7 a.img
'
    expect "what lies beside a registry, as $path" 1 "$(lines \
        'k1 refused 8\nk2 refused 8\nk3 refused 8\nk4 refused 8\nk5 ok 1\nk6 ok 2\nk7 ok 3')" ''
    at_bench recover
    expect "it is a registry still, as $path" 0 'recovered 0' ''
done

# The log that a killed batch leaves, with zeros after it up to a whole sector: it is no image either, and what it holds is
# found.
fresh_bench log-of-a-killed-one
registry=$bench/images/r
kill_batch "$label"
log_length=$(wc -c <"$registry-wal")
head -c $((512 - log_length % 512)) /dev/zero >>"$registry-wal"
batch "${label}k2 label --mid 8 --did 1 gm1 r-wal\n"
expect 'the log of a registry' 1 "$(lines 'k1 repeated 1\nk2 refused 8')" ''
expect_images 'its batch is kept' fresh bare

# ---- another file that has the name of a registry's log

# What opens a registry and makes one, what only opens one, and what only reads one.
makers='list status audit recover batch do@k9@label@--mid@8@--did@1@gm1@a.img label@gm1@a.img serve@--port@0@--count@1'
openers='do@k9@clear@b.img clear@b.img sync scrub recover@--existing list@--existing'
readers='check pending list@--read-only status@--read-only audit@--read-only'

# Whether each of these commands says this of the registry, and leaves each byte of the folder of images as it was kept.
expect_untouched() {
    GMBENCH_EXPLAIN=1
    export GMBENCH_EXPLAIN
    for words in $3; do
        tried=$(echo "$words" | tr @ ' ')
        at_bench $tried </dev/null
        expect "$tried: $1" 3 '' "gmbench: F2 store
F2: $2"
        if other=$(diff -r "$bench/images" "$work/kept-folder" 2>&1); then
            pass "$tried leaves each byte: $1"
        else
            fail "$tried leaves each byte: $1" "$other"
        fi
    done
    unset GMBENCH_EXPLAIN
}
keep_folder() {
    rm -rf "$work/kept-folder"
    cp -R "$bench/images" "$work/kept-folder"
}

# An image that a mirror has is named as the log of a registry, which isn't there yet.
fresh_bench log-of-none
put_image "$bench/images/x-wal" x bare
batch 'k1 label --mid 7 --did 1 gm0 x-wal\n'
registry=$bench/images/x
keep_folder
expect_untouched 'an image has the name of its log' "$registry-wal isn't a registry's log: another file has its name" "$makers"
expect_untouched 'there is none beside an image' "there is no registry at $registry" "$openers $readers"

# The registry is there.
cp "$bench/registry" "$registry"
keep_folder
expect_untouched 'an image beside it' "$registry-wal isn't a registry's log: another file has its name" \
    "$makers $openers $readers"

# A log with commands in it, of which one of the first bytes is another: it isn't sure whose it is.
fresh_bench other-heads
registry=$bench/images/x
kill_batch "$label"
keep_folder
cp -R "$work/kept-folder" "$work/logged"
for other in '0 \001' '0 \067\000' '1 \176' '2 \007' '3 \201' '3 \204'; do
    rm -rf "$bench/images"
    cp -R "$work/logged" "$bench/images"
    printf "${other#* }" | dd of="$registry-wal" bs=1 seek="${other%% *}" conv=notrunc 2>/dev/null
    keep_folder
    expect_untouched "a log with other bytes, $other" "$registry-wal isn't a registry's log: another file has its name" \
        'recover pending'
done
rm -rf "$bench/images"
cp -R "$work/logged" "$bench/images"
at_bench recover
expect 'the log as it was' 0 'recovered 0' ''

# What is no longer than an empty log is none, whatever is in it.
for length in 41 42; do
    fresh_bench "zeros-$length"
    registry=$bench/images/x
    head -c $length /dev/zero >"$registry-wal"
    keep_folder
    if [ "$length" = 41 ]; then
        at_bench recover
        expect "$length bytes with the name of a log" 0 'recovered 0' "a new registry was made at $registry"
    else
        expect_untouched "$length bytes with the name of a log" \
            "$registry-wal isn't a registry's log: another file has its name" recover
    fi
done

# ---- files that hold no registry

# Empty, or of one byte, as a stop leaves one while a registry is made: what makes a registry makes it there.
turn=0
for content in '' '\000' S; do
    turn=$((turn + 1))
    fresh_bench "blank-$turn"
    registry=$bench/images/x
    printf "$content" >"$registry"
    keep_folder
    expect_untouched "a file of '$content'" "$registry holds no registry: it is empty, or its making was stopped" \
        "$openers $readers"
    run pending --registry "$registry" --explain
    expect "pending without a folder: a file of '$content'" 3 '' "gmbench: F2 store
F2: $registry holds no registry: it is empty, or its making was stopped"
    at_bench status
    expect "a status over a file of '$content' makes one" 0 'no mirrors' ''
    at_bench check
    [ "$status" = 1 ] && grep -qx 'no mirrors' "$work/output" &&
        pass "it knows no mirror then, after '$content'" || fail "it knows no mirror then, after '$content'" "status $status"
done

# A registry that was emptied or taken away beside its log with commands.
fresh_bench emptied
registry=$bench/images/x
kill_batch "$label"
cp -R "$bench/images" "$work/emptied-kept"
: >"$registry"
keep_folder
expect_untouched 'emptied beside its log' "$registry holds no registry, but its log may hold commands of one" \
    "$makers $openers $readers"
rm "$registry"
keep_folder
expect_untouched 'away from its log' "$registry holds no registry, but its log may hold commands of one" "$makers"
expect_untouched 'away from its log' "there is no registry at $registry" "$openers $readers"
rm -rf "$bench/images"
cp -R "$work/emptied-kept" "$bench/images"
at_bench recover
expect 'both as they were' 0 'recovered 0' ''

# ---- files that are refused get no log

# Zeros, and what begins as a database does and isn't one.
fresh_bench refused
registry=$bench/images/x
head -c 2048 /dev/zero >"$work/zeros"
{
    printf 'SQLite format 3\000'
    head -c 2032 /dev/zero
} >"$work/header-alone"
printf 'SQL' >"$work/three-bytes"
for file in zeros header-alone three-bytes; do
    cp "$work/$file" "$registry"
    keep_folder
    for command in recover status list batch sync check pending; do
        at_bench $command </dev/null
        case $command in
            # What these say after it is told above.
            sync | check | pending) sed -n 1p "$work/complaints" >"$work/first" && mv "$work/first" "$work/complaints" ;;
        esac
        expect "a $command over a file of $file" 3 '' 'gmbench: F2 store'
        expect_none "a $command puts nothing beside $file" "$registry-wal"
        expect_same "a $command leaves $file" "$registry" "$work/$file"
    done
done
finish
