# What ./install puts where, what it refuses, what a stop leaves, and what it takes away.
. "$helpers/rights.sh"

# ---- a repository with the program, and what has to be there for it to be installed

here=$work/here
mkdir -p "$here/bin" "$here/docs" "$here/crates/gmbench/src"
cp -R "$top/install" "$top/tools" "$top/completions" "$top/crates.txt" "$top/HANDLES" "$here"
cp "$top/docs/gmbench.8" "$here/docs"
cp "$top/crates/gmbench/src/main.rt" "$here/crates/gmbench/src"
unset DESTDIR

# Runs ./install with these words; what it prints and how it ends is kept.
install() {
    "$here/install" "$@" >"$work/output" 2>"$work/complaints" </dev/null
    status=$?
}

# Whatever is in a folder, with its kind and its mode, a line each.
all_in() {
    (cd "$1" && find . -exec stat -c '%A %n' {} + | LC_ALL=C sort)
}

# Whether just these lines are in a file.
expect_lines() {
    whole_lines "$3" >"$work/wanted"
    expect_same "$1" "$2" "$work/wanted"
}

# The places of what is installed, the list of it first, below a prefix; zsh has another place below /usr.
places() {
    cat <<END
$1/share/gmbench/installed
$1/bin/gmbench
$1/share/man/man8/gmbench.8
$1/share/bash-completion/completions/gmbench
$1/share/zsh/${2:-site-functions}/_gmbench
$1/share/fish/vendor_completions.d/gmbench.fish
END
}

# What is said of what is removed there.
removals() {
    { places "$1" | sed 1d && places "$1" | sed 1q; } | sed 's/^/removed /'
}

# Whether each file of the repository lies at its place below a prefix, byte for byte.
expect_installed() {
    expect_same "$1: the program" "$2/bin/gmbench" "$gmbench"
    expect_same "$1: the manual page" "$2/share/man/man8/gmbench.8" "$top/docs/gmbench.8"
    expect_same "$1: what bash completes" "$2/share/bash-completion/completions/gmbench" "$top/completions/gmbench.bash"
    expect_same "$1: what zsh completes" "$2/share/zsh/${3:-site-functions}/_gmbench" "$top/completions/_gmbench"
    expect_same "$1: what fish completes" "$2/share/fish/vendor_completions.d/gmbench.fish" \
        "$top/completions/gmbench.fish"
}

# ---- what isn't proved isn't installed

first='run ./quickstart or ./check first'
install "$work/prefix"
expect 'no program' 1 '' "install: there is no proved program: $first"
cp "$gmbench" "$here/bin/gmbench"
install "$work/prefix"
expect 'a program of which nothing says that it was proved' 1 '' \
    "install: nothing says that bin/gmbench was proved: $first"
sources=$("$here/tools/proved" sources)
"$here/tools/proved" note bin/gmbench ./quickstart "$sources"
cp -p "$here/bin/gmbench" "$work/proved"
printf x >>"$here/bin/gmbench"
install "$work/prefix"
expect 'a program with a byte more' 1 '' "install: bin/gmbench isn't the program that was proved: $first"
cp -p "$work/proved" "$here/bin/gmbench"
printf x | dd of="$here/bin/gmbench" bs=1 seek=100 conv=notrunc 2>/dev/null
install "$work/prefix"
expect 'a program with another byte' 1 '' "install: bin/gmbench isn't the program that was proved: $first"
cp -p "$work/proved" "$here/bin/gmbench"
echo >>"$here/crates/gmbench/src/main.rt"
install "$work/prefix"
expect 'sources that changed since' 1 '' "install: the sources have changed since bin/gmbench was proved: $first"
"$here/tools/proved" note bin/gmbench ./quickstart "$sources" 2>"$work/complaints"
expect_lines 'sources that changed meanwhile' "$work/complaints" \
    "the sources changed while bin/gmbench was proved, so that ./install won't take it"
expect_none 'sources that changed meanwhile: no note' "$here/bin/gmbench.proved"
cp "$top/crates/gmbench/src/main.rt" "$here/crates/gmbench/src"
mkdir "$here/crates/gmbench/out"
"$here/tools/proved" note bin/gmbench ./quickstart "$sources"
expect_none 'of all these nothing was installed' "$work/prefix"

# ---- words

usage='usage: ./install [--remove] [PREFIX] | --deb FILE | --tar FILE'
for word in --prefix -x --removed --; do
    install "$word"
    expect "the word $word" 2 '' "$(lines "install: unknown word $word\n$usage")"
done
install --remove --remove
expect 'the word --remove twice' 2 '' "$(lines "install: unknown word --remove\n$usage")"
install "$work/prefix" more
expect 'a word too many' 2 '' "$(lines "install: too many words: more\n$usage")"
install ''
expect 'an empty prefix' 2 '' "$(lines "install: PREFIX is empty\n$usage")"
install --help
[ "$status" = 0 ] && [ "$(head -n 1 "$work/output")" = "$usage" ] && [ ! -s "$work/complaints" ] && pass 'its help' ||
    fail 'its help' "status $status, '$(head -n 1 "$work/output")'"

# ---- a fresh prefix

said=$("$here/tools/proved" say bin/gmbench)
case $said in
    'bin/gmbench, proved by ./quickstart with '*', of '*) pass 'it says what was proved by what' ;;
    *) fail 'it says what was proved by what' "$said" ;;
esac
install "$work/prefix"
expect 'a fresh prefix' 0 "$(echo "$said" && places "$work/prefix")" ''
expect_installed 'a fresh prefix' "$work/prefix"
all_in "$work/prefix" >"$work/there"
expect_lines 'a fresh prefix: all that is there, with its modes' "$work/there" "$(
    {
        places . | sed 's/^/-rw-r--r-- /; s|.* \./bin|-rwxr-xr-x ./bin|'
        places . | sed 's|/[^/]*$||' | awk -F / '{ path = "."; print path
            for (i = 2; i <= NF; i++) { path = path "/" $i; print path } }' | sort -u | sed 's/^/drwxr-xr-x /'
    } | LC_ALL=C sort
)"
[ "$("$work/prefix/bin/gmbench" --version)" = "$("$gmbench" --version)" ] && pass 'the installed program runs' ||
    fail 'the installed program runs' "$("$work/prefix/bin/gmbench" --version 2>&1)"
install "$work/prefix"
expect 'once more' 0 "$(echo "$said" && places "$work/prefix")" ''
all_in "$work/prefix" >"$work/there-again"
expect_same 'once more: all is as before' "$work/there-again" "$work/there"

# ---- the manual page and the completions are found where they lie

page=$work/prefix/share/man/man8/gmbench.8
if ! command -v man >/dev/null || man --version 2>&1 | grep -q minimized; then
    skip 'man finds the page, and shows it' 'there is no man here'
else
    [ "$(MANPATH=$work/prefix/share/man man -w gmbench 2>&1)" = "$page" ] && pass 'man finds the page' ||
        fail 'man finds the page' "$(MANPATH=$work/prefix/share/man man -w gmbench 2>&1 | head -n 1)"
    MANPATH=$work/prefix/share/man MANPAGER=cat man gmbench >"$work/shown" 2>"$work/complaints"
    [ ! -s "$work/complaints" ] && grep -q 'workshop for disk images' "$work/shown" && pass 'man shows the page' ||
        fail 'man shows the page' "$(head -n 1 "$work/complaints")"
fi
mkdir "$work/images"
: >"$work/images/a.img"
: >"$work/images/b.img"
# Whether just these words are offered.
expect_offered() {
    [ "$2" = "$3" ] && pass "$1" || fail "$1" "offered are '$2', and not '$3'"
}
# What bash offers, by the installed file, after `gmbench` and these words.
in_bash() {
    bash -c '. "$1"
        shift
        COMP_WORDS=("$@") COMP_CWORD=$(($# - 1))
        _gmbench
        echo "${COMPREPLY[@]}"' bash "$work/prefix/share/bash-completion/completions/gmbench" gmbench "$@" 2>&1
}
if bash -c '[ "${BASH_VERSINFO[0]}" -ge 4 ]' 2>/dev/null; then
    expect_offered 'bash offers a command' "$(in_bash ta)" taste
    expect_offered 'bash offers an option' "$(in_bash status --re)" '--registry --read-only'
    expect_offered 'bash offers an image' "$(in_bash dump --shelf "$work/images" b)" b.img
else
    skip 'what bash offers' 'there is no bash here, or one before 4'
fi
if command -v zsh >/dev/null; then
    expect_offered 'zsh takes its file from the prefix' "$(zsh -f -c 'fpath=("$1" $fpath)
        autoload -U compinit && compinit -D -u && print -r -- $_comps[gmbench]' zsh \
        "$work/prefix/share/zsh/site-functions" 2>&1)" _gmbench
else
    skip 'zsh takes its file from the prefix' 'there is no zsh here'
fi
if command -v fish >/dev/null; then
    expect_offered 'fish takes its file from the prefix' "$(
        export HOME="$work" XDG_DATA_DIRS="$work/prefix/share" PATH="$work/prefix/bin:$PATH"
        fish -c "complete -C 'gmbench ta'" 2>&1 | cut -f 1
    )" taste
else
    skip 'fish takes its file from the prefix' 'there is no fish here'
fi

# ---- removing

install --remove "$work/prefix"
expect 'removing' 0 "$(removals "$work/prefix")" ''
expect_none 'removing: the prefix, which was made, is gone' "$work/prefix"
install --remove "$work/prefix"
expect 'removing what is not there' 1 '' \
    "install: nothing says what was installed: there is no $work/prefix/share/gmbench/installed"

# A prefix with folders and files of others, of which one is empty.
mkdir -p "$work/used/bin" "$work/used/share/man/man1"
echo page >"$work/used/share/man/man1/other.1"
all_in "$work/used" >"$work/before"
install "$work/used"
install "$work/used"
install --remove "$work/used"
expect 'a prefix in use: removing' 0 "$(removals "$work/used")" ''
all_in "$work/used" >"$work/after"
expect_same 'a prefix in use is as it was' "$work/after" "$work/before"
install "$work/used"
echo foreign >"$work/used/share/zsh/site-functions/_foreign"
install --remove "$work/used"
expect 'a foreign file in a folder that was made: removing' 0 "$(removals "$work/used")" ''
(cd "$work/used" && find . -type f | LC_ALL=C sort) >"$work/after"
expect_lines 'a foreign file stays' "$work/after" "$(lines './share/man/man1/other.1\n./share/zsh/site-functions/_foreign')"
expect_none 'the folders beside it are gone' "$work/used/share/fish"

install "$work/changed"
echo >>"$work/changed/share/man/man8/gmbench.8"
install --remove "$work/changed"
expect 'a file that somebody changed: removing' 1 "$(removals "$work/changed" |
    sed 's/^removed \(.*\.8\)$/left \1, which isn'"'"'t what was installed/')" ''
(cd "$work/changed" && find . -type f) >"$work/after"
expect_lines 'a file that somebody changed stays' "$work/after" ./share/man/man8/gmbench.8

# A list that somebody changed, so that it names folders that lie elsewhere.
mkdir -p "$work/elsewhere/bin" "$work/beside"
install "$work/elsewhere/below"
printf '%s\n' 'folder ../bin' 'folder share/../../../beside' 'folder ..' 'above x' >>"$work/elsewhere/below/share/gmbench/installed"
install --remove "$work/elsewhere/below"
expect 'a list with paths that lead out: removing' 0 "$(removals "$work/elsewhere/below")" ''
[ -d "$work/elsewhere/bin" ] && [ -d "$work/beside" ] && pass 'a list with paths that lead out: what is elsewhere stays' ||
    fail 'a list with paths that lead out: what is elsewhere stays' "$(ls "$work/elsewhere" "$work")"
expect_none 'a list with paths that lead out: what was made is gone' "$work/elsewhere/below"

# ---- over what is there, and if names have spaces

mkdir -p "$work/older/bin" "$work/older/share/man/man8"
echo older >"$work/older/bin/gmbench"
echo older >"$work/older/share/man/man8/gmbench.8"
chmod 600 "$work/older/share/man/man8/gmbench.8"
install "$work/older"
expect 'over older files' 0 "$(echo "$said" && places "$work/older")" ''
expect_installed 'over older files' "$work/older"
modes=$(stat -c %a "$work/older/bin/gmbench" "$work/older/share/man/man8/gmbench.8" | paste -sd ' ' -)
[ "$modes" = '755 644' ] && pass 'over older files: their modes' || fail 'over older files: their modes' "$modes"
(umask 077 && install "$work/two words/or  three")
install "$work/two words/or  three"
expect 'a prefix with spaces' 0 "$(echo "$said" && places "$work/two words/or  three")" ''
expect_installed 'a prefix with spaces' "$work/two words/or  three"
[ "$(find "$work/two words" -type d ! -perm 755)" = '' ] && pass 'a mask changes no mode' ||
    fail 'a mask changes no mode' "$(find "$work/two words" -type d ! -perm 755)"
install --remove "$work/two words/or  three/"
expect 'a prefix with spaces: removing' 0 "$(removals "$work/two words/or  three")" ''
expect_none 'a prefix with spaces: what was made above it is gone' "$work/two words"
odd='a\nb'"'"'c"d*'
install "$work/$odd"
expect 'a prefix of other characters' 0 "$(printf '%s\n' "$said" && printf '%s\n' "$work/$odd" >"$work/odd-name" &&
    places PREFIX | awk -v file="$work/odd-name" 'BEGIN { getline name <file } { print name substr($0, 7) }')" ''
expect_installed 'a prefix of other characters' "$work/$odd"
install --remove "$work/$odd"
expect_none 'a prefix of other characters: removing' "$work/$odd"
(cd "$work" && CDPATH=/ && export CDPATH && install relative)
expect_installed 'a prefix from the folder where it is said' "$work/relative"

# Nobody reads what it prints.
"$here/install" "$work/unread" 2>"$work/complaints" </dev/null | :
expect_installed 'where nobody reads what it prints' "$work/unread"
expect_lines 'where nobody reads what it prints: no complaints' "$work/complaints" ''
"$here/install" --remove "$work/unread" </dev/null >&- 2>&-
expect_none 'where nothing can be printed: removing' "$work/unread"

# ---- DESTDIR

DESTDIR=$work/staged
export DESTDIR
install /usr
expect 'DESTDIR' 0 "$(echo "$said" && places "$work/staged/usr" vendor-completions)" ''
expect_installed 'DESTDIR' "$work/staged/usr" vendor-completions
install
expect 'DESTDIR, without a prefix' 0 "$(echo "$said" && places "$work/staged/usr/local")" ''
install --remove
expect 'DESTDIR: removing' 0 "$(removals "$work/staged/usr/local")" ''
expect_none 'DESTDIR: only what was made for it goes' "$work/staged/usr/local"
install --remove /usr
[ "$status" = 0 ] && pass 'DESTDIR: removing the rest' || fail 'DESTDIR: removing the rest' "$(cat "$work/complaints")"
expect_none 'DESTDIR: all is gone' "$work/staged"
unset DESTDIR

# ---- what can't be written

# Runs ./install with these words as a user who owns nothing here.
install_as_another() {
    setpriv --reuid=65534 --regid=65534 --clear-groups "$here/install" "$@" >"$work/output" 2>"$work/complaints" </dev/null
    status=$?
}
mkdir -p "$work/closed/bin"
chmod 555 "$work/closed" "$work/closed/bin"
all_in "$work/closed" >"$work/before"
if [ "$(id -u)" != 0 ]; then
    install "$work/closed"
    expect 'a folder that may not be written' 1 '' "install: $work/closed/bin can't be written"
elif ! has_another_user; then
    skip 'a folder that may not be written' 'there is no setpriv'
elif ! setpriv --reuid=65534 --regid=65534 --clear-groups test -x "$here/install"; then
    skip 'a folder that may not be written' 'another user can not come here'
else
    install_as_another "$work/closed"
    expect 'a folder that may not be written' 1 '' "install: $work/closed/bin can't be written"
    install_as_another "$work/closed/below"
    expect 'a folder that may not be made' 1 '' "install: $work/closed can't be written"
    install_as_another --remove "$work/older"
    expect 'a folder from which nothing may be removed' 1 '' "install: $work/older/bin can't be written"
    expect_installed 'a folder from which nothing may be removed' "$work/older"
fi
all_in "$work/closed" >"$work/after"
expect_same 'where nothing can be written nothing was' "$work/after" "$work/before"
mkdir -p "$work/odd/share"
echo >"$work/odd/share/man"
install "$work/odd"
expect 'a file in the place of a folder' 1 '' "install: $work/odd/share/man isn't a folder"
mkdir -p "$work/odder/bin/gmbench"
install "$work/odder"
expect 'a folder in the place of a file' 1 '' "install: $work/odder/bin/gmbench is a folder"
expect_lines 'neither was begun' "$work/output" ''

# ---- stops

# The prefix of older files, which then is to be as it was.
rm -rf "$work/older"
mkdir -p "$work/older/bin" "$work/older/share/man/man8"
echo older >"$work/older/bin/gmbench"
echo older >"$work/older/share/man/man8/gmbench.8"
all_in "$work/older" >"$work/before"
expect_older() {
    all_in "$work/older" >"$work/after"
    expect_same "$1: nothing more is there" "$work/after" "$work/before"
    expect_lines "$1: the older program" "$work/older/bin/gmbench" older
    expect_lines "$1: the older page" "$work/older/share/man/man8/gmbench.8" older
}
(
    ulimit -f 8
    install "$work/older"
    echo "$status" >"$work/status"
)
[ "$(cat "$work/status")" = 1 ] && tail -n 1 "$work/complaints" | grep -q "^install: $work/older/.* can't be written$" &&
    pass 'a file that can be written in part' || fail 'a file that can be written in part' "$(cat "$work/complaints")"
expect_older 'a file that can be written in part'

# Has another program stand for one of the system's: it counts its calls, and at one of them kills who calls.
stand_in() {
    mkdir -p "$work/path"
    rm -f "$work/path"/* "$work/calls"
    cat >"$work/path/$1" <<END
#!/bin/sh
echo >>"$work/calls"
[ "\$(wc -l <"$work/calls")" != $2 ] || { kill -$3 \$PPID && exec sleep 1; }
PATH=${PATH#"$work/path:"} exec $1 "\$@"
END
    chmod +x "$work/path/$1"
}
for call in 1 3 5; do
    stand_in sync "$call" TERM
    (
        PATH=$work/path:$PATH
        install "$work/older"
        echo "$status" >"$work/status"
    )
    expect_lines "ended while file $call was written: its status" "$work/status" 1
    expect_older "ended while file $call was written"
done
# The same, but it does first what it is called for.
stand_in_behind() {
    stand_in "$1" 0 "$3"
    cat >"$work/path/$1" <<END
#!/bin/sh
echo >>"$work/calls"
PATH=${PATH#"$work/path:"} $1 "\$@" || exit
[ "\$(wc -l <"$work/calls")" != $2 ] || kill -$3 \$PPID
END
    chmod +x "$work/path/$1"
}
for call in 1 2 4; do
    stand_in_behind mkdir "$call" TERM
    (
        PATH=$work/path:$PATH
        install "$work/new/below"
        echo "$status" >"$work/status"
    )
    expect_lines "ended when folder $call was made: its status" "$work/status" 1
    expect_none "ended when folder $call was made: none is left" "$work/new"
done
# The list and the program are renamed by then, and the page isn't.
stand_in mv 3 KILL
(
    PATH=$work/path:$PATH
    install "$work/older" 2>/dev/null
)
expect_same 'killed between two files: the program is new' "$work/older/bin/gmbench" "$gmbench"
expect_lines 'killed between two files: the page is old' "$work/older/share/man/man8/gmbench.8" older
expect_none 'killed between two files: the next is not there' "$work/older/share/bash-completion/completions/gmbench"
install "$work/older"
expect 'killed between two files: once more' 0 "$(echo "$said" && places "$work/older")" ''
expect_installed 'killed between two files: once more' "$work/older"

# ---- the gate's program comes first, if it is proved

cp "$gmbench" "$here/crates/gmbench/out/gmbench"
install "$work/prefix"
[ "$(head -n 1 "$work/output")" = "$said" ] && pass "a program of the gate's without a note is passed over" ||
    fail "a program of the gate's without a note is passed over" "$(head -n 1 "$work/output")"
"$here/tools/proved" note crates/gmbench/out/gmbench ./check "$sources"
install "$work/prefix"
case $(head -n 1 "$work/output") in
    'crates/gmbench/out/gmbench, proved by ./check with '*) pass "the gate's program comes first" ;;
    *) fail "the gate's program comes first" "$(head -n 1 "$work/output")" ;;
esac
finish
