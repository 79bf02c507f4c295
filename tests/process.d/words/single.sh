# One command from the words of the shell, and why one is refused.
. "$helpers/bench.sh"

# ---- one command from the words of the shell

fresh_bench single
at_bench do k1 label --mid 7 --did 1 gm0 a.img
expect 'a command by itself' 0 'k1 ok 1' "a new registry was made at $registry"
at_bench do k1 label --mid 7 --did 1 gm0 a.img
expect 'the same again' 0 'k1 repeated 1' 'k1: done before, as number 1; nothing is done now'
at_bench do --force k2 insert --did 2 gm0 b.img
expect 'another, over the data of its image' 0 'k2 ok 2' ''
at_bench do k3 advance gm0 b.img
expect 'its answer is that of a batch' 0 'k3 ok 3 copied 3 of 3' ''
at_bench status
expect 'they are carried out' 0 "$of_filled" ''

# ---- why one is refused

# Whether a command is refused with this number, and a complaint that has these words.
expect_refused() {
    if [ "$status" != 1 ] || [ "$(cat "$work/output")" != "$2" ] || ! grep -qF -- "$3" "$work/complaints"; then
        fail "$1" "status $status, '$(cat "$work/output")', '$(head -n 1 "$work/complaints")'"
    else
        pass "$1"
    fi
}

at_bench do k4 insert gm0 b.img
expect_refused 'an option that is missing' 'k4 refused 1' '--did'
at_bench do k4 insert --did x gm0 b.img
expect_refused 'a value that is no number' 'k4 refused 1' "'x' for --did: it is a number up to 4294967295"
at_bench do k4 destroy 'gm 0'
expect_refused 'a word with a space' 'k4 refused 1' "'gm 0' for a mirror: it is 1 to 15 of"
at_bench do k4 nothing
expect_refused 'a word that is no command' 'k4 refused 1' "'nothing'"
at_bench do k4 configure --prov a.img gm0
expect_refused 'one of two options' 'k4 refused 1' \
    '--prov is given without --priority, which is to be that of this image'
at_bench do k4 configure --priority 7 gm0
expect_refused 'the other of them' 'k4 refused 1' '--priority is given without --prov, the image that it is for'
at_bench do k4 patch --first=-1 --data 00 gm0
expect_refused 'a sector before the first' 'k4 refused 1' "'-1' for --first: it is a number up to 4294967295"
long=$(head -c 100 /dev/zero | tr '\0' A)
at_bench do k4 patch --first 1 --data $long gm0
expect_refused 'digits that are no sector' 'k4 refused 1' \
    "'$(printf %.40s $long)...' for --data: it is 1,024 digits of 0-9 and a-f a sector, 1 to 64 sectors"

# Each option of the table of words is known to the sentence: it names the one that is wrong.
sed -n 's/^    Word::\(Wanted\|Optional\|Possible\)("\([a-z]*\)".*/\2/p' "$top/crates/gm_words/src/clap_table.rt" |
    sort -u >"$work/options"
while read -r option; do
    case $option in
        mid) words="label --mid , --did 1 gm9 c.img" ;;
        did) words="insert --did , gm0 c.img" ;;
        first) words="patch --first , --data 00 gm0" ;;
        data) words="patch --first 0 --data , gm0" ;;
        prov) words="configure --prov , --priority 1 gm0" ;;
        priority) words="configure --prov a.img --priority , gm0" ;;
        *) words="configure --$option , gm0" ;;
    esac
    at_bench do k4 $words
    case $option in prov) shown='an image' ;; *) shown=--$option ;; esac
    expect_refused "a wrong value for --$option" 'k4 refused 1' "',' for $shown: it is "
done <"$work/options"
[ "$(wc -l <"$work/options")" -ge 11 ] && pass 'all options were tried' || fail 'all options were tried' "$(cat "$work/options")"
at_bench do k4 destroy gm1
expect 'a mirror that is not there' 1 'k4 refused 5' 'k4: refused 5: no mirror is named gm1'
at_bench do k4 insert --did 3 gm0 c.img
expect 'an image that is not there' 1 'k4 refused 8' "k4: refused 8: c.img isn't on the shelf"
mv "$bench/images/b.img" "$work/away"
at_bench do --unchecked k4 remove gm0 a.img
expect 'a component that is not there and not named' 1 'k4 refused 8' \
    "k4: refused 8: b.img, a component of gm0, isn't on the shelf with its 4 sectors"
mv "$work/away" "$bench/images/b.img"
truncate -s 1024 "$bench/images/e.img"
at_bench do k4 insert --did 3 gm0 e.img
expect 'an image that is too small' 1 'k4 refused 11' \
    'k4: refused 11: e.img has 1024 bytes; the data of gm0 and one sector more need 2048'
at_bench do k3 destroy gm0
expect 'a key that was taken' 1 'k3 refused 3' 'k3: refused 3: the key was accepted for another command'
at_bench do 'a key' destroy gm0
expect 'a key that is none' 1 '? refused 2' "a key: refused 2: a key is 1 to 32 of A-Z, a-z, 0-9, '.', '_' and '-'"

# ---- words of the program

at_bench do k4
expect_words 'a key without a command'
at_bench do
expect_words 'no key'
at_bench do k4 destroy "$byte"
expect_words 'a word that is no text'
at_bench status
expect 'none of these changed anything' 0 "$of_filled" ''
finish
