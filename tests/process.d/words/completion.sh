# What bash, zsh and fish offer of the program's words.
. "$helpers/help.sh"
. "$helpers/expect.sh"

# ---- a folder of images, with what is no image beside them

completions=$top/completions
place=$work/place
mkdir -p "$place/images/folder" "$place/other/two words"
: >"$place/registry"
: >"$place/images/a.img"
: >"$place/images/b.img"
: >"$place/images/two words"
: >"$place/other/two words/c.img"
: >"$place/images/\$(touch made)"
ln -s a.img "$place/images/link.img"

# A registry with two mirrors, for which the program has to be found by its name.
mirrored=$work/mirrored
mkdir -p "$work/bin" "$mirrored/images"
ln -s "$gmbench" "$work/bin/gmbench"
PATH=$work/bin:$PATH
registered="--registry $mirrored/registry --shelf $mirrored/images"
for name in gm0 gm1; do
    dd if=/dev/zero of="$mirrored/images/$name.img" bs=512 count=4 2>/dev/null
    run do $registered "k-$name" label --mid "${name#gm}7" --did 1 "$name" "$name.img"
done
: >"$mirrored/images/spare.img"
cp "$mirrored/registry" "$work/registry-before"

# What the help says: the fourteen commands, and their words.
command_lines >"$work/commands"
commands=$(sed 's/ .*//' "$work/commands" | in_a_line)
expect_offered() {
    [ "$2" = "$3" ] && pass "$1" || fail "$1" "offered are '$2', and not '$3'"
}

# ---- bash

# What bash offers after `gmbench` and these words, of which the last one is at the cursor, sorted, in a line.
in_bash() {
    (
        cd "$place" || exit
        bash -c '. "$1"
            shift
            COMP_WORDS=("$@") COMP_CWORD=$(($# - 1))
            _gmbench
            [ "${#COMPREPLY[@]}" = 0 ] || printf "%s\n" "${COMPREPLY[@]}"' bash "$completions/gmbench.bash" gmbench "$@"
    ) 2>&1 | in_a_line
}
try_bash() {
    expect_offered 'bash: the subcommands' "$(in_bash '')" "$(subcommands | in_a_line)"
    expect_offered 'bash: a subcommand that is begun' "$(in_bash st)" status
    expect_offered 'bash: the options without a subcommand' "$(in_bash --)" "$(options_of)"
    expect_offered 'bash: the subcommands behind help' "$(in_bash help '')" "$(subcommands | in_a_line)"
    for word in $(subcommands | grep -v help); do
        expect_offered "bash: the options of $word" "$(in_bash "$word" --)" "$(options_of "$word")"
    done
    expect_offered 'bash: the options of status where nothing is begun' "$(in_bash status '')" "$(options_of status)"
    expect_offered 'bash: an option that is begun' "$(in_bash status --r)" '--read-only --registry'

    expect_offered 'bash: the images of a folder' "$(in_bash dump --shelf images '')" 'a.img b.img'
    expect_offered 'bash: an image that is begun' "$(in_bash dump --shelf images b)" b.img
    expect_offered 'bash: the images of a folder behind =' "$(in_bash dump --shelf = images '')" 'a.img b.img'
    expect_offered 'bash: an image that is given up' "$(in_bash recover --shelf images --without '')" 'a.img b.img'
    expect_offered 'bash: an image that is given up, behind =' "$(in_bash recover --shelf images --without =)" 'a.img b.img'
    expect_offered 'bash: an image to be filled' "$(in_bash sync --shelf images gm0 '')" 'a.img b.img'
    expect_offered 'bash: an image to be replaced' "$(in_bash replace --shelf images gm0 '')" 'a.img b.img'
    expect_offered 'bash: an image in its place' "$(in_bash replace --shelf images gm0 a.img b)" b.img
    expect_offered 'bash: no image after it' "$(in_bash replace --shelf images gm0 a.img b.img a)" ''
    expect_offered 'bash: a file with data' "$(in_bash write --first 2 --file '')" 'images other registry'
    expect_offered 'bash: the options of a check after --data' "$(in_bash check --data --j)" --json
    (
        export GMBENCH_SHELF=images
        in_bash dump ''
        GMBENCH_SHELF=other
        in_bash dump --shelf images ''
    ) >"$work/offered"
    lines 'a.img b.img\na.img b.img\n' >"$work/wanted"
    expect_same 'bash: the folder of the environment, and that of the words before it' "$work/offered" "$work/wanted"
    (
        export HOME="$place"
        in_bash dump --shelf '~/images' ''
    ) >"$work/offered"
    lines 'a.img b.img\n' >"$work/wanted"
    expect_same 'bash: a folder of the home' "$work/offered" "$work/wanted"
    for quoted in 'other/two\ words' "'other/two words'" '"other/two words"'; do
        expect_offered "bash: the folder $quoted" "$(in_bash dump --shelf "$quoted" '')" c.img
    done
    expect_offered 'bash: no folder, no images' "$(in_bash dump '')" "$(options_of dump)"
    expect_none 'bash: no name of a file is carried out' "$place/made"

    expect_offered 'bash: a registry' "$(in_bash status --registry '')" 'images other registry'
    expect_offered 'bash: a folder' "$(in_bash status --registry registry --shelf '')" 'images other'
    expect_offered 'bash: nothing for a number' "$(in_bash serve --port '')" ''

    expect_offered 'bash: a command by itself that is begun' "$(in_bash de)" 'deactivate destroy'
    expect_offered 'bash: an option of label that is begun' "$(in_bash label --m)" --mid
    expect_offered 'bash: the mirror of an insert by itself' "$(in_bash insert $registered '')" 'gm0 gm1'
    expect_offered 'bash: no mirror of a label by itself' "$(in_bash label $registered gm)" ''
    for words in 'insert gm0' 'label gm2' 'clear' 'adopt gm2' 'replace gm0 gm0.img' 'do k1 insert gm0'; do
        expect_offered "bash: only what is no component behind $words" "$(in_bash ${words%% *} $registered \
            $(expr "$words" : '[a-z]* *\(.*\)') '')" spare.img
    done
    expect_offered 'bash: all images of a sync' "$(in_bash sync $registered gm0 '')" 'gm0.img gm1.img spare.img'
    expect_offered 'bash: the image of a label by itself' "$(in_bash label --shelf images gm0 '')" 'a.img b.img'
    expect_offered 'bash: the same after options between the names' \
        "$(in_bash label gm0 --key k1 --shelf images --balance = load '')" 'a.img b.img'
    expect_offered 'bash: the image of a clear by itself' "$(in_bash clear --shelf images '')" 'a.img b.img'
    expect_offered 'bash: all images of an adopt by itself' "$(in_bash adopt --shelf images gm0 a.img '')" 'a.img b.img'
    expect_offered 'bash: no second image of a remove by itself' "$(in_bash remove --shelf images gm0 a.img a)" ''
    expect_offered 'bash: no image of a forget by itself' "$(in_bash forget --shelf images gm0 a)" ''
    expect_offered 'bash: the component of a priority, by itself' "$(in_bash configure --shelf images --prov '')" \
        'a.img b.img'
    expect_offered 'bash: how reads are shared out, by itself' "$(in_bash label --balance '')" \
        'load prefer round-robin split'
    expect_offered 'bash: on and off, by itself' "$(in_bash insert --hardcode '')" 'off on'
    expect_offered 'bash: nothing for a key' "$(in_bash label --key '')" ''

    expect_offered 'bash: the commands of do' "$(in_bash do k1 '')" "$commands"
    expect_offered 'bash: the same behind the options' "$(in_bash do --registry registry --shelf images k1 '')" "$commands"
    expect_offered 'bash: a command that is begun' "$(in_bash do k1 de)" 'deactivate destroy'
    while read -r word behind; do
        expect_offered "bash: the options of the command $word" "$(in_bash do k1 "$word" --)" \
            "$(echo "$behind" | long_options)"
    done <"$work/commands"
    expect_offered 'bash: the image of a label' "$(in_bash do --shelf images k1 label --mid 7 --did 1 gm0 '')" 'a.img b.img'
    expect_offered 'bash: the image of a clear' "$(in_bash do --shelf images k1 clear '')" 'a.img b.img'
    expect_offered 'bash: all images of an adopt' "$(in_bash do --shelf images k1 adopt gm0 a.img '')" 'a.img b.img'
    expect_offered 'bash: no second image of a remove' "$(in_bash do --shelf images k1 remove gm0 a.img '')" ''
    expect_offered 'bash: no image of a forget' "$(in_bash do --shelf images k1 forget gm0 '')" ''
    expect_offered 'bash: the component of a priority' "$(in_bash do --shelf images k1 configure --prov '')" 'a.img b.img'
    expect_offered 'bash: the mirrors of a registry' "$(in_bash scrub $registered '')" 'gm0 gm1'
    expect_offered 'bash: a mirror that data are written into' "$(in_bash write $registered --first 2 '')" 'gm0 gm1'
    expect_offered 'bash: a mirror that is begun' "$(in_bash do $registered k1 patch gm1)" gm1
    expect_offered 'bash: no mirror of a label' "$(in_bash do $registered k1 label gm)" ''
    expect_offered 'bash: the mirrors of the environment' "$(
        export GMBENCH_REGISTRY="$mirrored/registry" GMBENCH_SHELF="$mirrored/images"
        in_bash sync ''
    )" 'gm0 gm1'
    expect_offered 'bash: no registry, no mirrors' "$(in_bash sync --registry none --shelf images gm)" ''
    expect_same 'bash: the registry is as it was' "$mirrored/registry" "$work/registry-before"
    expect_offered 'bash: how reads are shared out' "$(in_bash do k1 label --balance '')" 'load prefer round-robin split'
    expect_offered 'bash: on and off' "$(in_bash do k1 label --autosync '')" 'off on'
}
if bash -c '[ "${BASH_VERSINFO[0]}" -ge 4 ]' 2>/dev/null; then
    try_bash
else
    skip 'what bash offers' 'there is no bash here, or one before 4'
fi

# ---- zsh and fish

# What zsh offers after a line that is begun, sorted, in a line.
in_zsh() {
    (
        cd "$place" || exit
        HOME=$place timeout 20 zsh -f "$tests/words/completion.zsh" "$completions" "$1" 2>&1
    ) | in_a_line
}
if ! command -v zsh >/dev/null; then
    skip 'zsh reads its file, and what it offers' 'there is no zsh here'
elif ! zsh -n "$completions/_gmbench" 2>"$work/complaints"; then
    fail 'zsh reads its file' "$(head -n 1 "$work/complaints")"
elif ! zsh -f -c 'zmodload zsh/zpty && autoload -U compinit && compinit -D -u' 2>/dev/null; then
    skip 'what zsh offers' 'there is a zsh here that can not complete'
else
    expect_offered 'zsh: the subcommands' "$(in_zsh 'gmbench ')" "$(subcommands | in_a_line)"
    expect_offered 'zsh: a subcommand that is begun' "$(in_zsh 'gmbench st')" status
    expect_offered 'zsh: the options without a subcommand' "$(in_zsh 'gmbench --')" "$(options_of)"
    expect_offered 'zsh: the subcommands behind help' "$(in_zsh 'gmbench help ')" "$(subcommands | in_a_line)"
    for word in $(subcommands | grep -v help); do
        expect_offered "zsh: the options of $word" "$(in_zsh "gmbench $word --")" "$(options_of "$word")"
    done
    for line in 'dump --shelf images' 'dump --shelf=images' 'sync --shelf images gm0' 'recover --shelf images --without' \
        'do --shelf images k1 clear' 'do --shelf images k1 label gm0' 'do --shelf images k1 adopt gm0 a.img' \
        'do --shelf images k1 configure --prov' 'dump --shelf ~/images' 'clear --shelf images' 'label --shelf images gm0' \
        'label gm0 --key k1 --shelf=images' 'adopt --shelf images gm0 a.img' 'configure --shelf images --prov' \
        'replace --shelf images gm0' 'replace --shelf images gm0 c.img'; do
        expect_offered "zsh: the images behind $line" "$(in_zsh "gmbench $line ")" 'a.img b.img'
    done
    for quoted in 'other/two\ words' "'other/two words'" '"other/two words"'; do
        expect_offered "zsh: the folder $quoted" "$(in_zsh "gmbench dump --shelf $quoted ")" c.img
    done
    expect_offered 'zsh: an image of the folder of the environment' "$(
        export GMBENCH_SHELF=images
        in_zsh 'gmbench dump b'
    )" b.img
    for line in "scrub $registered" "sync $registered" "do $registered k1 insert" "do $registered k1 lost" \
        "do $registered k1 patch" "insert $registered" "lost --key k1 $registered" "replace $registered" \
        "write --first 2 $registered"; do
        expect_offered "zsh: the mirrors behind ${line%% *} ${line##* }" "$(in_zsh "gmbench $line ")" 'gm0 gm1'
    done
    for line in "insert $registered gm0" "do $registered k1 label gm2" "clear $registered" \
        "replace $registered gm0 gm0.img"; do
        expect_offered "zsh: only what is no component behind ${line%% *}" "$(in_zsh "gmbench $line ")" spare.img
    done
    expect_offered 'zsh: all images of a sync' "$(in_zsh "gmbench sync $registered gm0 ")" 'gm0.img gm1.img spare.img'
    expect_offered 'zsh: no mirror of a label' "$(in_zsh "gmbench do $registered k1 label ")" ''
    expect_offered 'zsh: no mirror of a label by itself' "$(in_zsh "gmbench label $registered gm")" ''
    expect_offered 'zsh: the mirrors of the environment' "$(
        export GMBENCH_REGISTRY="$mirrored/registry" GMBENCH_SHELF="$mirrored/images"
        in_zsh 'gmbench sync '
    )" 'gm0 gm1'
    expect_same 'zsh: the registry is as it was' "$mirrored/registry" "$work/registry-before"
    expect_offered 'zsh: no image of a forget' "$(in_zsh 'gmbench do --shelf images k1 forget gm0 ')" ''
    expect_offered 'zsh: no image of a forget by itself' "$(in_zsh 'gmbench forget --shelf images gm0 a')" ''
    expect_offered 'zsh: nothing for a key' "$(in_zsh 'gmbench label --key ')" ''
    expect_offered 'zsh: on and off, by itself' "$(in_zsh 'gmbench insert --hardcode ')" 'off on'
    expect_none 'zsh: no name of a file is carried out' "$place/made"
    expect_offered 'zsh: a registry' "$(in_zsh 'gmbench status --registry r')" registry
    expect_offered 'zsh: nothing for a number' "$(in_zsh 'gmbench serve --port ')" ''
    expect_offered 'zsh: the commands of do' "$(in_zsh 'gmbench do k1 ')" "$commands"
    expect_offered 'zsh: a command that is begun' "$(in_zsh 'gmbench do k1 de')" 'deactivate destroy'
    while read -r word behind; do
        expect_offered "zsh: the options of the command $word" "$(in_zsh "gmbench do k1 $word --" </dev/null)" \
            "$(echo "$behind" | long_options)"
    done <"$work/commands"
    expect_offered 'zsh: how reads are shared out' "$(in_zsh 'gmbench do k1 label --balance ')" \
        'load prefer round-robin split'
fi

# What fish offers after a line that is begun, sorted, in a line.
in_fish() {
    (
        cd "$place" || exit
        HOME=$work fish -c "source $completions/gmbench.fish; complete -C '$1'" 2>&1 | cut -f 1
    ) | in_a_line
}
if command -v fish >/dev/null; then
    fish -n "$completions/gmbench.fish" 2>"$work/complaints" && pass 'fish reads its file' ||
        fail 'fish reads its file' "$(head -n 1 "$work/complaints")"
    expect_offered 'fish: the subcommands' "$(in_fish 'gmbench ')" "$(subcommands | in_a_line)"
    for word in $(subcommands | grep -v help); do
        expect_offered "fish: the options of $word" "$(in_fish "gmbench $word --")" "$(options_of "$word")"
    done
    expect_offered 'fish: the images of a folder' "$(in_fish 'gmbench dump --shelf images ')" 'a.img b.img'
    expect_offered 'fish: the images after a mirror to be replaced in' "$(in_fish 'gmbench replace --shelf images gm0 ')" \
        'a.img b.img'
    expect_offered 'fish: an image in its place' "$(in_fish 'gmbench replace --shelf images gm0 a.img b')" b.img
    expect_offered 'fish: the options of a check after --data' "$(in_fish 'gmbench check --data --j')" --json
    expect_offered 'fish: an image that is given up' "$(in_fish 'gmbench recover --shelf=images --without ')" 'a.img b.img'
    expect_offered 'fish: all images of an adopt' "$(in_fish 'gmbench do --shelf images k1 adopt gm0 a.img ')" 'a.img b.img'
    expect_offered 'fish: no second image of a remove' "$(in_fish 'gmbench do --shelf images k1 remove gm0 a.img ')" ''
    expect_offered 'fish: no image of a forget' "$(in_fish 'gmbench do --shelf images k1 forget gm0 ')" ''
    for line in 'clear --shelf images' 'label --shelf images gm0' 'label gm0 --key k1 --shelf=images' \
        'adopt --shelf images gm0 a.img' 'configure --shelf images --prov'; do
        expect_offered "fish: the images after $line" "$(in_fish "gmbench $line ")" 'a.img b.img'
    done
    expect_offered 'fish: no second image of a remove by itself' "$(in_fish 'gmbench remove --shelf images gm0 a.img ')" ''
    expect_offered 'fish: no image of a forget by itself' "$(in_fish 'gmbench forget --shelf images gm0 ')" ''
    expect_offered 'fish: on and off, by itself' "$(in_fish 'gmbench insert --hardcode ')" 'off on'
    expect_offered 'fish: a folder whose name has a space' "$(in_fish 'gmbench dump --shelf other/two\ words ')" c.img
    for line in "scrub $registered" "sync $registered" "do $registered k1 remove" "insert $registered" \
        "replace $registered" "write --first 2 $registered" "patch --data 00 $registered"; do
        expect_offered "fish: the mirrors behind ${line%% *} ${line##* }" "$(in_fish "gmbench $line ")" 'gm0 gm1'
    done
    for line in "insert $registered gm0" "do $registered k1 label gm2" "clear $registered" \
        "replace $registered gm0 gm0.img"; do
        expect_offered "fish: only what is no component behind ${line%% *}" "$(in_fish "gmbench $line ")" spare.img
    done
    expect_offered 'fish: all images of a sync' "$(in_fish "gmbench sync $registered gm0 ")" 'gm0.img gm1.img spare.img'
    expect_offered 'fish: no mirror of a label' "$(in_fish "gmbench do $registered k1 label ")" ''
    expect_offered 'fish: no mirror of a label by itself' "$(in_fish "gmbench label $registered ")" ''
    expect_same 'fish: the registry is as it was' "$mirrored/registry" "$work/registry-before"
    expect_none 'fish: no name of a file is carried out' "$place/made"
    expect_offered 'fish: the commands of do' "$(in_fish 'gmbench do k1 ')" "$commands"
    while read -r word behind; do
        expect_offered "fish: the options of the command $word" "$(in_fish "gmbench do k1 $word --")" \
            "$(echo "$behind" | long_options)"
    done <"$work/commands"
else
    skip 'fish reads its file, and what it offers' 'there is no fish here'
fi
finish
