# Commands that are refused: each for the least number that applies.
. "$helpers/lists.sh"

# ---- refusals, each for the least number that applies

# gm0 is of a.img and b.img. c.img carries nothing, and used.img what made it a component of gm9 elsewhere; one.img and
# two.img have so many sectors, and there is no d.img.
fresh_bench refusals
put_image "$bench/images/c.img" c bare
put_image "$bench/images/used.img" u bare
head -c 512 /dev/zero >"$bench/images/one.img"
{
    head -c 512 /dev/zero | tr '\0' t
    head -c 512 /dev/zero
} >"$bench/images/two.img"
registry=$bench/elsewhere
batch 'k1 label --mid 9 --did 1 gm9 used.img\n'
expect 'an image is used elsewhere' 0 'k1 ok 1' ''
run dump --shelf "$bench/images" used.img
expect 'a dump of it says so' 0 "$(dumped 1 1 NONE c574ffe1252eafe9eebdeeb8791410cd | sed '
    s/^name: .*/name: gm9/
    s/^mid: .*/mid: 9/')" ''
registry=$bench/registry
batch "$label$insert"
expect 'a mirror of two among other images' 0 "$(lines 'k1 ok 1\nk2 ok 2')" ''
keep_bench

cat >"$work/refused-lines" <<'END'
k3 insert --did 3 gm1 c.img|k3 refused 5
k3 insert --did 3 gm1 d.img|k3 refused 5
k3 remove gm1 a.img|k3 refused 5
k3 destroy gm1|k3 refused 5
k3 label --mid 8 --did 1 gm0 c.img|k3 refused 6
k3 label --mid 7 --did 1 gm0 d.img|k3 refused 6
k3 label --mid 7 --did 1 gm1 c.img|k3 refused 7
k3 label --mid 8 --did 1 gm1 d.img|k3 refused 8
k3 insert --did 3 gm0 d.img|k3 refused 8
k3 remove gm0 d.img|k3 refused 8
k3 clear d.img|k3 refused 8
k3 label --mid 8 --did 1 gm1 a.img|k3 refused 9
k3 insert --did 3 gm0 b.img|k3 refused 9
k3 clear a.img|k3 refused 9
k3 label --mid 8 --did 1 gm1 used.img|k3 refused 10
k3 insert --did 3 gm0 used.img|k3 refused 10
k3 insert --did 2 gm0 two.img|k3 refused 11
k3 remove gm0 c.img|k3 refused 12
k3 insert --did 1 gm0 c.img|k3 refused 13
k3 remove gm0 a.img|k3 refused 17
k3 label --mid 8 --did 1 gm1 one.img|k3 refused 28
k3 clear c.img|k3 refused 29
k3 configure --hardcode on gm1|k3 refused 5
k3 configure --prov d.img --priority 5 gm0|k3 refused 8
k3 configure --prov c.img --priority 5 gm0|k3 refused 12
k3 configure gm0|k3 refused 25
k3 lost gm1 d.img|k3 refused 5
k3 lost gm0 c.img|k3 refused 12
k3 lost gm0 b.img b.img|k3 refused 12
k3 lost gm0 b.img a.img|k3 refused 17
END
expect_list 'the least refusal is answered' 1 <"$work/refused-lines"
expect_kept 'a refused line changes no byte'
at_bench status
expect 'the mirror stands behind refused lines' 0 "$of_two" ''

# Each of them by itself, without its line feed, ends its batch as refused.
sed 's/$/\\n/' "$work/refused-lines" >"$work/refused-alone"
expect_inputs 'a refused line is told by the exit status' 1 <"$work/refused-alone"
expect_kept 'a refused line by itself changes no byte'
batch 'k3 clear used.img\nk4 insert --did 3 gm0 used.img\n'
expect 'the key of refused lines is free' 0 "$(lines 'k3 ok 3\nk4 ok 4')" ''
finish
