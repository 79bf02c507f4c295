# A batch with --stop ends at the first line that is refused.
. "$helpers/bench.sh"

# ---- a batch with --stop ends at the first line that is refused

fresh_bench stopping
printf "${label}\nk1 repeated?\nk2 insert --did 2 gm0 b.img\n" >"$work/lines"
at_bench batch --stop <"$work/lines"
expect 'a line that is no command is the last' 1 "$(lines 'k1 ok 1\nk1 refused 1')" ''
at_bench status
expect 'what follows it is not carried out' 0 "$of_one" ''
printf "${label}k2 insert --did 1 gm0 b.img\nk3 insert --did 2 gm0 b.img\n" >"$work/lines"
at_bench batch --stop --explain <"$work/lines"
expect 'a command that is refused is the last' 1 "$(lines 'k1 repeated 1\nk2 refused 13')" \
    'k2: refused 13: a component of gm0 has the same did'
{
    head -c 131100 /dev/zero | tr '\0' k
    printf '\nk3 insert --did 2 gm0 b.img\n'
} >"$work/lines"
at_bench batch --stop --explain <"$work/lines"
expect 'a line that is too long is the last' 1 '? refused 1' '?: refused 1: the line has more than 131,072 bytes'
printf "$label\n${insert}" | tr -d '\001' >"$work/lines"
at_bench batch --stop <"$work/lines"
expect 'a batch of which nothing is refused' 0 "$(lines 'k1 repeated 1\nk2 ok 2')" ''
at_bench batch --stop </dev/null
expect 'no lines' 0 '' ''
printf 'k9 forget gm0' >"$work/lines"
at_bench batch --stop <"$work/lines"
expect 'a last line without its line feed' 1 'k9 refused 20' ''
at_bench recover
expect 'nothing is left unsettled' 0 'recovered 0' ''
at_bench batch --stop <"$bench"
expect 'an input that can not be read' 3 '' "$broken"
finish
