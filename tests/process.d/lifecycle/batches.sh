# Lines that are carried out, refused or repeated; one at a time, and two batches at once.
. "$helpers/under_way.sh"
. "$helpers/lists.sh"

# ---- lines that are carried out

fresh_bench session
batch "$label$insert"
expect 'a batch of two lines' 0 "$(lines 'k1 ok 1\nk2 ok 2')" ''
expect_images 'an insertion changes two last sectors' pending-a pending-b
cp "$registry" "$work/kept-registry"
for turn in 'a second' 'a third'; do
    batch "$label$insert"
    expect "the same batch $turn time" 0 "$(lines 'k1 repeated 1\nk2 repeated 2')" ''
    expect_images "it changes no image $turn time" pending-a pending-b
    expect_same "it changes no byte of the registry $turn time" "$registry" "$work/kept-registry"
done
# The registry's own file has all that was accepted.
rm -f "$registry-wal"
batch "$label$insert"
expect 'the same batch without the log' 0 "$(lines 'k1 repeated 1\nk2 repeated 2')" ''
at_bench status
expect 'a status of a component to be filled' 0 "$of_two" ''
batch 'k3 deactivate gm0 b.img\nk3b rebuild gm0 b.img\nk3c forget gm0\n'
expect 'a component goes out of use' 1 "$(lines 'k3 ok 3\nk3b refused 21\nk3c refused 20')" ''
at_bench status
expect 'a status of a component out of use' 0 "$(lines \
    'gm0             DEGRADED 1/2\n  a.img           ACTIVE\n  b.img           INACTIVE')" ''
batch 'k4 activate gm0 b.img\nk5 rebuild gm0 b.img\n'
expect 'it comes back, and is filled anew' 0 "$(lines 'k4 ok 4\nk5 ok 5')" ''
at_bench status
expect 'a status of a component that came back' 0 "$of_two" ''
batch 'k6 destroy gm1\nk7 destroy gm0'
expect 'a batch with a refused line' 1 "$(lines 'k6 refused 5\nk7 ok 6')" ''
expect_images 'a mirror that is dropped leaves bare sectors' bare bare
at_bench list
expect 'a list without mirrors' 0 'no mirrors' ''

# A key repeats its command, and refuses others, whatever became of the images.
fresh_bench away
batch "$label"
mv "$bench/images" "$bench/elsewhere"
mkdir "$bench/images"
keep_bench
expect_list 'a key repeats its command without the images' 1 <<'END'
k1 label --mid 7 --did 1 gm0 a.img|k1 repeated 1
k1 label --did 1 --mid 7 --slice 4096 gm0 a.img|k1 repeated 1
k1 destroy gm0|k1 refused 3
k1 label --mid 8 --did 1 gm0 a.img|k1 refused 3
k1 gm0 a.img|k1 refused 1
END
expect_kept 'it changes nothing'
at_bench status
expect 'a status of it then' 0 "$of_one" ''

# A mirror from beginning to end, a run for each line, with the registry among the images.
fresh_bench to-and-fro
registry=$bench/images/registry
batch "$label"
expect 'a mirror is made' 0 'k1 ok 1' ''
expect_images 'its component is labelled' fresh bare
at_bench status
expect 'a status of it' 0 "$of_one" ''
at_bench list
expect 'a list of it' 0 "$list_of_one" ''
batch "$insert"
expect 'a component is added' 0 'k2 ok 2' ''
expect_images 'both are labelled' pending-a pending-b
at_bench status
expect 'a status of both' 0 "$of_two" ''
batch 'k3 remove gm0 b.img\n'
expect 'a component is taken out' 0 'k3 ok 3' ''
expect_images 'its last sector is wiped' fresh bare
batch 'k4 destroy gm0'
expect 'a line without its line feed' 0 'k4 ok 4' ''
expect_images 'no last sector says anything' bare bare
at_bench status
expect 'a status behind all' 0 'no mirrors' ''

# Metadata of another mirror have to be cleared first.
put_bench foreign-metadata fresh bare
relabel='k1 label --mid 8 --did 1 gm1 a.img\n'
batch "$relabel"
expect 'an image with metadata' 1 'k1 refused 10' ''
expect_images 'it is left' fresh bare
batch 'k2 clear a.img\n'
expect 'it is cleared' 0 'k2 ok 1' ''
expect_images 'it is bare then' bare bare
batch "$relabel"
expect 'the same image without metadata' 0 'k1 ok 2' ''

# ---- lines that are refused, or are none

fresh_bench refused
batch ''
expect 'an empty batch' 0 '' ''
batch '\n'
expect 'a line without words' 0 '' ''
batch '\n   \n\n '
expect 'lines of spaces' 0 '' ''
batch "${label}k1 destroy gm0
k2 destroy gm1
k3 remove gm0 a.img
k4 paint gm0
k/5 destroy gm0
k6 insert --did 2 gm0 c.img
"
expect 'a refused line is answered with its number' 1 "$(lines \
    'k1 ok 1\nk1 refused 3\nk2 refused 5\nk3 refused 17\nk4 refused 1\n? refused 2\nk6 refused 8')" ''
expect_images 'it changes no image' fresh bare
batch 'k2 destroy gm0\n'
expect 'its key is free' 0 'k2 ok 2' ''
fresh_bench no-text
{
    head -c 131073 /dev/zero | tr '\0' x
    printf '\nk1 destroy \377\n'
    printf "${label%??}"
} >"$work/lines"
at_bench batch <"$work/lines"
expect 'a line that is too long, or no text' 1 "$(lines '? refused 1\n? refused 1\nk1 ok 1')" ''
expect_images 'the line behind them is carried out' fresh bare

# ---- one line at a time, and two at once

# Through pipes, each line is answered before the next is sent.
fresh_bench dialogue
mkfifo "$bench/in" "$bench/out"
timeout 60 "$gmbench" batch --registry "$registry" --shelf "$bench/images" \
    <"$bench/in" >"$bench/out" 2>"$work/complaints" &
dialogue=$!
exec 3>"$bench/in" 4<"$bench/out"
said_in_turn=
for line in "$label" '\n  \n' "$insert" 'k3 destroy gm0\n'; do
    send "$line"
    case $line in
        k*)
            read -r answer <&4 || answer=
            said_in_turn="$said_in_turn$answer;"
            ;;
    esac
done
exec 3>&-
wait $dialogue
status=$?
cat <&4 >"$work/output"
exec 4<&-
expect 'a batch through pipes ends with them' 0 '' ''
[ "$said_in_turn" = 'k1 ok 1;k2 ok 2;k3 ok 3;' ] && pass 'each line is answered before the next is sent' ||
    fail 'each line is answered before the next is sent' "$said_in_turn"

# Two at once: the second finds the folder held, and the first goes on.
fresh_bench two-at-once
begin_batch "$label"
for command in batch status list recover; do
    at_bench $command </dev/null
    expect "a $command beside a batch" 3 '' "$broken"
done
send "$insert"
end_batch
expect 'the batch that came first' 0 "$(lines 'k1 ok 1\nk2 ok 2')" ''
at_bench recover
expect 'a recovery behind it' 0 'recovered 0' ''
finish
