# Mirrors that are all adopted at once: those that images show whole, and what is said of the others.
. "$helpers/bench.sh"

# ---- a folder of mirrors

fresh_bench drawer
rm "$bench/images/a.img" "$bench/images/b.img"
for name in a b c d e f g h i; do
    head -c 2048 /dev/zero >"$bench/images/$name.img"
done
batch 'k1 label --mid 1 --did 1 gm0 a.img
k2 insert --did 2 gm0 b.img
k3 label --mid 2 --did 1 gm1 c.img
k4 label --mid 3 --did 1 gm2 d.img
k5 insert --did 2 gm2 e.img
k6 label --mid 4 --did 1 gm3 f.img
k7 insert --did 2 gm3 g.img
k8 advance gm0 b.img
k9 advance gm2 e.img
k10 advance gm3 g.img
k11 deactivate gm3 g.img
k12 label --mid 5 --did 1 gm4 h.img
'
expect 'they are made' 0 "$(
    for number in 1 2 3 4 5 6 7; do echo "k$number ok $number"; done
    for number in 8 9 10; do echo "k$number ok $number copied 3 of 3"; done
    for number in 11 12; do echo "k$number ok $number"; done
)" ''
mkdir "$work/away"
mv "$bench/images/e.img" "$bench/images/f.img" "$work/away"
"$gmbench" do --registry "$bench/other" --shelf "$bench/images" k1 label --mid 6 --did 1 gm4 i.img >/dev/null 2>&1
forget_registry

# ---- all at once

at_bench adopt --all
expect 'whole mirrors are adopted, others named' 1 "$(lines 'g000001 ok 1
g000002 ok 2
gm2 left: 1 of its 2 images are there
gm3 left: none of its images is ACTIVE
gm4 left: two mirrors have this name
gm4 left: two mirrors have this name')" "a new registry was made at $registry"
at_bench status
expect 'they are as they were' 0 "$(lines 'gm0             COMPLETE 2/2
  a.img           ACTIVE
  b.img           ACTIVE
gm1             COMPLETE 1/1
  c.img           ACTIVE')" ''
keep_bench
at_bench adopt --all
expect 'again: only the others are named' 1 "$(lines 'gm2 left: 1 of its 2 images are there
gm3 left: none of its images is ACTIVE
gm4 left: two mirrors have this name
gm4 left: two mirrors have this name')" ''
expect_kept 'nothing is written for them'
mv "$work/away/e.img" "$work/away/f.img" "$bench/images"
rm "$bench/images/i.img"
at_bench adopt --all
expect 'the others, when their images are there' 0 "$(lines 'g000003 ok 3\ng000004 ok 4\ng000005 ok 5')" ''
at_bench adopt --all
expect 'nothing is left' 0 '' ''

# ---- an image that was given up

mv "$bench/images/b.img" "$work/away"
at_bench lost gm0 b.img
at_bench forget gm0
mv "$work/away/b.img" "$bench/images"
forget_registry
at_bench adopt --all
[ "$status" = 0 ] && pass 'a BROKEN image is left out' || fail 'a BROKEN image is left out' "$(cat "$work/output" "$work/complaints")"
at_bench status
grep -q 'b.img' "$work/output" && fail 'its mirror is whole without it' "$(cat "$work/output")" || pass 'its mirror is whole without it'

# ---- words

for words in 'adopt --all gm0 a.img' 'adopt --all gm0' 'adopt --all --key k1' 'adopt gm0' 'adopt' 'label --all gm0 a.img'; do
    at_bench $words
    [ "$status" = 2 ] && [ ! -s "$work/output" ] && pass "wrong words: $words" || fail "wrong words: $words" "status $status"
done
finish
