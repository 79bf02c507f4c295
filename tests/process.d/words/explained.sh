# Sentences beside refusals and faults.
. "$helpers/rights.sh"
. "$helpers/under_way.sh"
. "$helpers/python.sh"

# ---- a batch that says why lines are refused

fresh_bench explained
printf "${label}k2 forget gm0\nk2 destroy gm1\r\nk2 \377\n\nk2 destroy\nk1 repeated\nk2 label --mid 8 --did 1 gm0 b.img\nk2 lost gm0 b.img a.img\n" \
    >"$work/lines"
at_bench batch --explain <"$work/lines"
expect_complaint() {
    if grep -qxF -- "$2" "$work/complaints"; then
        pass "$1"
    else
        fail "$1" "it complained '$(cat "$work/complaints")'"
    fi
}
cp "$work/complaints" "$work/complained"
[ "$status" = 1 ] && pass 'it ends as a batch does' || fail 'it ends as a batch does' "status $status"
printf '%s\n' 'k1 ok 1' 'k2 refused 20' 'k2 refused 1' '? refused 1' 'k2 refused 1' 'k1 refused 1' 'k2 refused 6' \
    'k2 refused 12' >"$work/wanted"
expect_same 'it prints what it prints without the option' "$work/output" "$work/wanted"
expect_complaint 'a mirror of which nothing was lost' 'k2: refused 20: gm0 counts no component that was lost'
expect_complaint 'a line that ends with CR LF' 'k2: refused 1: the line ends with CR LF, not with LF alone'
expect_complaint 'a line that is no text' "?: refused 1: the line isn't UTF-8"
expect_complaint 'a name that was taken' 'k2: refused 6: a mirror is named gm0 already'
expect_complaint 'several images' "k2: refused 12: one of these images isn't a component of gm0, or is named twice"
expect_complaint 'a registry that is new' "a new registry was made at $registry"
grep -q '^k2: refused 1: .*<' "$work/complained" &&
    pass "words that are missing, as clap says it" || fail 'words that are missing' "$(cat "$work/complained")"
{
    head -c 131100 /dev/zero | tr '\0' k
    echo
} >"$work/lines"
at_bench batch --explain <"$work/lines"
expect 'a line that is too long' 1 '? refused 1' '?: refused 1: the line has more than 131,072 bytes'
printf 'k2 destroy gm9\n' >"$work/lines"
at_bench batch <"$work/lines"
expect 'without the option nothing is said' 1 'k2 refused 5' ''

# ---- what a terminal would act upon

# Whether the complaints have these words, and beside line feeds no control character.
expect_legible() {
    if LC_ALL=C tr -d '\n' <"$work/complaints" | LC_ALL=C grep -q '[[:cntrl:]]'; then
        fail "$1" "$(od -c "$work/complaints" | head -n 20)"
    elif grep -qF -- "$2" "$work/complaints"; then
        pass "$1"
    else
        fail "$1" "it complained '$(cat "$work/complaints")'"
    fi
}

fresh_bench legible
run "$(printf 'paint\033[2J')"
expect_legible 'a word that clap does not take' 'paint?[2J'
run status --explain --registry "$registry" --shelf "$(printf "$work/no\033\nfolder")"
expect_legible 'a path' "$work/no??folder"
at_bench recover
at_bench do k1 destroy "$(printf 'gm\302\2330')"
expect_legible 'a control character of two bytes' "'gm?0'"
at_bench do k1 destroy "$(printf 'gm\nF3 disk')"
expect_legible 'a word with a line feed' "'gm?F3 disk'"
at_bench do k1 destroy "$(printf 'gm\303\251 \342\200\256x\342\201\251')"
expect_legible 'characters that turn the direction, and others' "'gmé ?x?'"
printf 'k1 destroy gm\0000\n' >"$work/lines"
at_bench batch --explain <"$work/lines"
expect_legible 'a NUL in a line' "'gm?0'"

# ---- a refusal names the image, and what comes next

fresh_bench next
truncate -s 1024 "$bench/images/c.img"
data=$(head -c 512 /dev/zero | od -An -v -tx1 | tr -d ' \n')
printf "${label}${insert}k3 insert --did 3 gm0 c.img\nk4 patch --first 0 --data $data gm0\n" >"$work/lines"
at_bench batch --explain <"$work/lines"
expect 'images that are small or not filled' 1 "$(lines 'k1 ok 1\nk2 ok 2\nk3 refused 11\nk4 refused 30')" \
    "a new registry was made at $registry
k3: refused 11: c.img is too small: it needs a sector more than the Mediasize of gm0, see list
k4: refused 30: a component of gm0 is SYNCHRONIZING: sync it; or STALE: rebuild it, then sync it"
rm "$bench/images/b.img"
printf 'k5 configure --slice 8192 gm0\n' >"$work/lines"
at_bench batch --explain <"$work/lines"
expect 'a component whose image is away' 1 'k5 refused 8' \
    "k5: refused 8: a component of gm0 in its size isn't on the shelf; audit names it"

# ---- which image failed, and why

# Whether a fault at an image is told with the image and its cause, once that was done to b.img.
expect_cause() {
    title=$1
    sentence=$2
    shift 2
    fresh_bench "$title"
    begin_batch "$label$insert" --explain
    "$@"
    send 'k3 advance gm0 b.img\n'
    end_batch
    expect "an image that $title" 3 "$(lines 'k1 ok 1\nk2 ok 2\nk3 fault 3')" "a new registry was made at $registry
gmbench: F3 disk
F3: b.img $sentence"
}
replace() {
    cp "$bench/images/b.img" "$work/other"
    mv "$work/other" "$bench/images/b.img"
}
take_away() {
    rm "$bench/images/b.img"
}
lengthen() {
    head -c 512 /dev/zero >>"$bench/images/b.img"
}
expect_cause 'was-replaced' 'was replaced since the folder was read' replace
expect_cause 'grew' 'was replaced since the folder was read' lengthen
expect_cause 'went-away' 'went away since the folder was read' take_away
fresh_bench limited
truncate -s 4M "$bench/images/a.img" "$bench/images/b.img"
batch "$label$insert"
(
    # Whatever a block is there, 512 bytes or 1,024.
    ulimit -f 4000
    at_bench do k3 advance gm0 b.img
    expect 'an image that is longer than a file may be written' 3 'k3 fault 3' "gmbench: F3 disk
F3: b.img is longer than the system lets this process write a file"
    echo "$passed $failed" >"$work/counted"
)
[ -s "$work/counted" ] && read -r passed failed <"$work/counted"
at_bench recover
fresh_bench full
batch "$label"
(
    # The registry has more than that already, and can't grow.
    trap '' XFSZ
    ulimit -f 40
    at_bench do k2 configure --slice 8192 gm0
    full="gmbench: F2 store
F2: $registry can't be read or written: its medium may be full; or it is no registry"
    expect 'a registry that may not grow' 3 'k2 fault 2' "$full"
    at_bench do --json k2 configure --slice 8192 gm0
    expect 'the same as JSON' 3 '{"answer":"fault","key":"k2","number":2}' "$full"
    echo "$passed $failed" >"$work/counted"
)
[ -s "$work/counted" ] && read -r passed failed <"$work/counted"
at_bench status
expect 'it is as it was' 0 "$(lines 'gm0             COMPLETE 1/1\n  a.img           ACTIVE')" ''
if has_another_user; then
    fresh_bench forbidden
    batch "$label$insert"
    chmod -R a+rwX "$bench"
    chmod 600 "$bench/images/b.img"
    run_as_another do --registry "$registry" --shelf "$bench/images" k3 advance gm0 b.img
    skip_without_program 'an image that may not be read' ||
        expect 'an image that may not be read' 3 'k3 fault 3' "gmbench: F3 disk
F3: b.img may not be read or written by this user"
else
    skip 'an image that may not be read' 'there is no other user here'
fi

# ---- each refusal, fault and cause has a sentence, and docs/REFERENCE.md has the same

if has_python 'the sentences of the manual'; then
    python3 "$top/docs/sentences" --check 2>"$work/complaints" && pass 'the sentences of the manual are those of the program' ||
        fail 'the sentences of the manual' "$(cat "$work/complaints")"
fi

# ---- at a terminal everything is explained

# Runs the program with standard error at a terminal of so many columns; what it printed there is kept.
at_terminal() {
    columns=$1
    shift
    printf '%s' "stty columns $columns; timeout 60 \"$gmbench\"" >"$work/typed"
    for word in "$@"; do
        printf " '%s'" "$word" >>"$work/typed"
    done
    printf ' >"%s" </dev/null; echo "$?" >"%s"\n' "$work/output" "$work/ended" >>"$work/typed"
    script -qec "sh $work/typed" /dev/null </dev/null >"$work/terminal" 2>/dev/null
    status=$(cat "$work/ended")
    tr -d '\r' <"$work/terminal" >"$work/complaints"
}
if command -v script >/dev/null; then
    at_terminal 80 status --registry "$registry" --shelf "$work/nowhere"
    expect 'a folder that is not there' 3 '' "$broken
input or output: there is no folder $work/nowhere"
    at_terminal 80 dump --shelf "$bench/images" c.img
    expect 'a dump of nothing' 1 'refused 8' "refused 8: c.img isn't on the shelf"
    printf 'no database, whatever it is' >"$work/none"
    at_terminal 80 status --registry "$work/none" --shelf "$bench/images"
    expect 'a file that is no registry' 3 '' "gmbench: F2 store
F2: $work/none isn't a registry: no database begins as it does"
    at_terminal 80
    expect 'no words' 0 'gmbench: GEOM_MIRROR version 4' 'try gmbench --help'
    stopped_remove gone
    rm "$bench/images/b.img"
    at_terminal 80 recover --registry "$registry" --shelf "$bench/images"
    expect 'an image that is gone' 3 '' "gmbench: F5 absent b.img
F5: b.img isn't there as it was left, and a write to it is pending
F5: put it back, or recover --without b.img --key KEY gives it up"
    fresh_bench there
    batch "$label$insert"
    at_terminal 80 recover --registry "$registry" --shelf "$bench/images" --without b.img --key k9
    expect 'an image that is there is not given up' 1 'k9 refused 32' 'k9: refused 32: b.img is on the shelf'
else
    skip 'what is explained at a terminal' 'there is no script(1) here'
fi
finish
