# Batches and servers that look at the images before each command.
. "$helpers/serving.sh"
. "$helpers/bench.sh"

# ---- batches and servers that look at the images before each command

fresh_bench audited
batch "$label${insert}k3 advance gm0 b.img\nk4 deactivate gm0 b.img\n"
printf 'k5 activate gm0 b.img\nk6 advance gm0 b.img\n' >"$work/lines"
keep_bench

# Names that were exchanged: a.img and b.img are each the other's image.
exchange() {
    mv "$bench/images/a.img" "$work/exchanged"
    mv "$bench/images/b.img" "$bench/images/a.img"
    mv "$work/exchanged" "$bench/images/b.img"
}

exchange
rm -rf "$work/kept-images"
cp -R "$bench/images" "$work/kept-images"
at_bench batch --audit <"$work/lines"
expect 'a batch over names that were exchanged' 1 \
    "$(lines 'k5 not done\na.img another component\nb.img another component')" ''
expect_kept 'it wrote no image, and accepted nothing'
if has_python 'a server over names that were exchanged'; then
    begin_server --audit --count 3
    post '{"key":"k5","words":["activate","gm0","b.img"]}'
    expect 'a server over such names' 0 \
        '{"error":"not done; a.img another component; b.img another component"}' ''
    post '{"key":"k4","words":["deactivate","gm0","b.img"]}'
    expect 'a command that was accepted is answered without a look' 0 '{"answer":"repeated","seq":4}' ''
    post '{"key":"k5","words":["activate"]}'
    expect 'words that are no command as well' 0 '{"answer":"refused","number":1}' ''
    end_server
    expect_kept 'it wrote nothing'
fi
exchange
at_bench batch --audit <"$work/lines"
expect 'a batch over images that are as registered' 0 "$(lines 'k5 ok 5\nk6 ok 6 copied 3 of 3')" ''
at_bench batch --audit <"$work/lines"
expect 'the same again' 0 "$(lines 'k5 repeated 5\nk6 repeated 6')" ''

# One that is away, one of another size, and a damaged one.
printf 'k5 activate gm0 b.img\nk7 rebuild gm0 b.img\nk8 advance gm0 b.img\n' >"$work/lines"
mv "$bench/images/b.img" "$work/away"
at_bench batch --audit <"$work/lines"
expect 'a batch without an image' 1 "$(lines 'k5 repeated 5\nk7 not done\nb.img absent')" ''
at_bench batch <"$work/lines"
expect 'without the option its lines are answered' 1 "$(lines 'k5 repeated 5\nk7 refused 8\nk8 refused 8')" ''
mv "$work/away" "$bench/images/b.img"
head -c 512 /dev/zero >>"$bench/images/b.img"
at_bench batch --audit <"$work/lines"
expect 'a batch with a longer image' 1 "$(lines 'k5 repeated 5\nk7 not done\nb.img another size')" ''
truncate -s 2048 "$bench/images/b.img"
damage "$bench/images/b.img" 1600 x
at_bench batch --audit <"$work/lines"
expect 'a batch with an image whose last sector is damaged' 1 "$(lines 'k5 repeated 5\nk7 not done\nb.img damaged')" ''
at_bench batch --audit </dev/null
expect 'without a line nothing is looked at' 0 '' ''
printf 'k9\nk9 none\n\377\nk9 destroy gm9\n' >"$work/lines"
at_bench batch --audit <"$work/lines"
expect 'lines that are no command, and one of a mirror that is not there' 1 \
    "$(lines 'k9 refused 1\nk9 refused 1\n? refused 1\nk9 refused 5')" ''
printf 'k9 destroy gm9\nk5 activate gm0 b.img\n' >"$work/lines"
at_bench batch --audit --stop <"$work/lines"
expect 'with both options it ends at the first line that is refused' 1 'k9 refused 5' ''

# Of which images a command is: b.img of gm0 carries nothing any more, and c.img never did. A list of commands, each with what
# is answered.
fresh_bench of-which
put_image "$bench/images/c.img" c bare
batch "$label$insert"
put_image "$bench/images/b.img" b bare
keep_bench
wrong=
while IFS='|' read -r asked told; do
    echo "k3 $asked" >"$work/lines"
    at_bench batch --audit <"$work/lines"
    [ "$told" = amiss ] && told='k3 not done
b.img no metadata'
    if [ "$status" != 1 ] || [ "$(cat "$work/output")" != "$told" ] || [ -s "$work/complaints" ]; then
        wrong=${wrong:-"'$asked': status $status, '$(cat "$work/output" "$work/complaints")', and not '$told'"}
    fi
done <<'END'
insert --did 3 gm0 c.img|amiss
remove gm0 a.img|amiss
clear b.img|amiss
adopt gm9 c.img b.img|amiss
lost gm0 a.img|amiss
clear a.img|k3 refused 9
insert --did 3 gm9 c.img|k3 refused 5
END
[ -z "$wrong" ] && pass 'a command is not done if an image that it is about is amiss' ||
    fail 'a command is not done if an image that it is about is amiss' "$wrong"
expect_kept 'and nothing of it was written'
echo 'k3 lost gm0 b.img' >"$work/lines"
at_bench batch --audit <"$work/lines"
expect 'the image that is given up may be as it is' 0 'k3 ok 3' ''

# What is pending is carried out before the first look.
stopped_remove pending
printf 'k4 destroy gm0\n' >"$work/lines"
at_bench batch --audit <"$work/lines"
expect 'a batch after a command that was stopped' 0 'k4 ok 4' ''

# A server whose images are as registered serves.
if has_python 'a server that looks first'; then
    fresh_bench serving
    batch "$label"
    begin_server --audit --count 1
    post '{"key":"k2","words":["insert","--did","2","gm0","b.img"]}'
    expect 'a server over images that are as registered' 0 '{"answer":"ok","seq":2}' ''
    end_server
    expect 'it ends as ever' 0 '' ''
fi
finish
