# What is a line, how long it may be, and its key.
. "$helpers/lists.sh"

# ---- what is a line, and what its pieces are

fresh_bench pieces
expect_inputs 'a line without pieces has no answer' 0 <<'END'
|
\n|
 |
  \n|
\n\n   \n\n|
\n    |
END
expect_inputs 'a line without a command is refused' 1 <<'END'
k/1 destroy gm0|? refused 2\n
k1|k1 refused 1\n
k/1|? refused 1\n
k1 destroy gm0|k1 refused 5\n
k1 destroy|k1 refused 1\n
k1 Destroy gm0|k1 refused 1\n
k1 dest gm0|k1 refused 1\n
k1 help|k1 refused 1\n
k1 --help|k1 refused 1\n
destroy gm0|destroy refused 1\n
k1 destroy gm0 \nk/1\n\n  k2  |k1 refused 5\n? refused 1\nk2 refused 1\n
k1\nk1 destroy gm0\nk1|k1 refused 1\nk1 refused 5\nk1 refused 1\n
k\0303\0251 destroy gm0|? refused 2\n
k\0303\0251|? refused 1\n
k1 destroy gm\0303\0251|k1 refused 1\n
k1 destroy gm0\0000|k1 refused 1\n
END
expect_inputs 'only a line feed ends a line, and only a space ends a piece' 1 <<'END'
k1 destroy gm0\r\n|k1 refused 1\n
k1\r\n|? refused 1\n
\r\n|? refused 1\n
k1 destroy gm0\rk2 destroy gm0\n|k1 refused 1\n
k1\tdestroy gm0|? refused 1\n
k1 destroy\tgm0|k1 refused 1\n
\tk1 destroy gm0|? refused 2\n
k1 destroy \0013gm0|k1 refused 1\n
k1\0302\0240destroy gm0|? refused 1\n
END
at_bench status
expect 'lines without a command make no mirror' 0 'no mirrors' ''

# Bytes that are no UTF-8, of which the first piece may be text.
printf 'k1 destroy \377\nk1\303\n\200 destroy gm0\nk1 destroy gm0\nk2 \355\240\200' >"$work/lines"
take_lines
expect 'a line that is no text is refused without its key' 1 "$(lines \
    '? refused 1\n? refused 1\n? refused 1\nk1 refused 5\n? refused 1')" ''

# More lines than are read at once.
{
    printf 'k1 destroy gm0\n'
    head -c 70000 /dev/zero | tr '\0' '\n'
} >"$work/lines"
take_lines
expect 'an input is taken to its end' 1 'k1 refused 5' ''

fresh_bench spaces
batch "$label"
expect 'a command that is spaced out' 0 'k1 ok 1' ''
expect_inputs 'spaces may stand before, between and behind pieces' 0 <<'END'
  k1  label --mid   7 --did 1  gm0 a.img  \n|k1 repeated 1\n
k1 label --mid 7 --did 1 gm0 a.img|k1 repeated 1\n
k1 label --mid 7 --did 1 gm0 a.img |k1 repeated 1\n
\n\nk1 label --mid 7 --did 1 gm0 a.img\n\n|k1 repeated 1\n
k1 label --mid 7 --did 1 gm0 a.img\nk1 label --mid 7 --did 1 gm0 a.img|k1 repeated 1\nk1 repeated 1\n
 \n k1 label --mid 7 --did 1 gm0 a.img\n |k1 repeated 1\n
END

# ---- how long a line may be

# A line of so many bytes that begins so and is filled up with this character, without its line feed.
filled() {
    printf '%s' "$1"
    head -c $(($3 - ${#1})) /dev/zero | tr '\0' "$2"
}

# Hands such a line and a second one to a batch.
take_filled() {
    {
        filled "$1" "$2" "$3"
        printf '\nk2 destroy gm0\n'
    } >"$work/lines"
    take_lines
}

fresh_bench lengths
for length in 131071 131072 131073 131074 262145 700000; do
    if [ $length -le 131072 ]; then
        first='k1 refused 5'
    else
        first='? refused 1'
    fi
    take_filled 'k1 destroy gm0' ' ' $length
    expect "a command in a line of $length bytes" 1 "$(lines "$first\nk2 refused 5")" ''
    take_filled '' k $length
    expect "a line of one piece of $length bytes" 1 "$(lines '? refused 1\nk2 refused 5')" ''
done
take_filled '' ' ' 131072
expect 'a line of 131072 spaces has no answer' 1 'k2 refused 5' ''
take_filled '' ' ' 131073
expect 'a line of 131073 spaces is too long' 1 "$(lines '? refused 1\nk2 refused 5')" ''
filled '' ' ' 131073 >"$work/lines"
take_lines
expect 'a last line of 131073 spaces, without its line feed' 1 '? refused 1' ''
filled '' ' ' 131072 >"$work/lines"
take_lines
expect 'a last line of 131072 spaces, without its line feed' 0 '' ''
{
    filled '' x 131072
    echo
    filled '' y 131073
    echo
    filled '' z 500000
    printf '\nnext'
} >"$work/lines"
take_lines
expect 'the longest line, two that are too long, and the next' 1 "$(lines \
    '? refused 1\n? refused 1\n? refused 1\nnext refused 1')" ''

# ---- keys

# Keys of 32 characters and of 33, of each character that a key may have, and of some that it may not.
fresh_bench keys
expect_inputs 'a key is shown where it is one' 1 <<'END'
ABCDEFGHIJKLMNOPQRSTUVWXYZ0._-z9|ABCDEFGHIJKLMNOPQRSTUVWXYZ0._-z9 refused 1\n
ABCDEFGHIJKLMNOPQRSTUVWXYZ0._-z9 destroy gm0|ABCDEFGHIJKLMNOPQRSTUVWXYZ0._-z9 refused 5\n
ABCDEFGHIJKLMNOPQRSTUVWXYZ0._-z98|? refused 1\n
ABCDEFGHIJKLMNOPQRSTUVWXYZ0._-z98 destroy gm0|? refused 2\n
abcdefghijklmnopqrstuvwxyz12345 paint gm0|abcdefghijklmnopqrstuvwxyz12345 refused 1\n
6789 destroy gm0|6789 refused 5\n
. destroy gm0|. refused 5\n
- destroy gm0|- refused 5\n
--did destroy gm0|--did refused 5\n
? destroy gm0|? refused 2\n
k:1 destroy gm0|? refused 2\n
k@1 destroy gm0|? refused 2\n
k[1 destroy gm0|? refused 2\n
k{1 destroy gm0|? refused 2\n
END
batch 'ABCDEFGHIJKLMNOPQRSTUVWXYZ0._-z9 label --mid 7 --did 1 gm0 a.img
ABCDEFGHIJKLMNOPQRSTUVWXYZ0._-z9 label --mid 7 --did 1 gm0 a.img
? insert --did 2 gm0 b.img
k insert --did 2 gm0 b.img
K destroy gm0
'
expect 'keys of one letter and of 32 characters' 1 "$(lines \
    'ABCDEFGHIJKLMNOPQRSTUVWXYZ0._-z9 ok 1\nABCDEFGHIJKLMNOPQRSTUVWXYZ0._-z9 repeated 1\n? refused 2\nk ok 2\nK ok 3')" ''
printf 'K destroy gm0\nk insert --did 2 gm0 b.img' >"$work/lines"
take_lines
expect 'a key in a capital letter is another one' 0 "$(lines 'K repeated 3\nk repeated 2')" ''
finish
