# What ./install packs for other machines: the same bytes each time, whatever packs it, and what dpkg makes of it.
. "$helpers/expect.sh"

# ---- a repository with the program

here=$work/here
mkdir -p "$here/bin" "$here/crates/gmbench/src"
cp -R "$top/install" "$top/tools" "$top/completions" "$top/docs" "$top/CHANGELOG.md" "$top/crates.txt" "$top/HANDLES" "$here"
cp "$top/crates/gmbench/src/main.rt" "$here/crates/gmbench/src"
unset DESTDIR SOURCE_DATE_EPOCH

# Runs ./install with these words; what it prints and how it ends is kept.
install() {
    "$here/install" "$@" >"$work/output" 2>"$work/complaints" </dev/null
    status=$?
}

# The files of a folder, each with its mode and its checksum, a line each.
all_in() {
    (cd "$1" && find . -type f | LC_ALL=C sort | while read -r file; do
        echo "$(stat -c %A "$file") $(sha256sum "$file")"
    done)
}

# Whether a text is the wanted one.
expect_text() {
    [ "$2" = "$3" ] && pass "$1" || fail "$1" "it is '$2', and not '$3'"
}

# ---- what isn't proved isn't packed

first='run ./quickstart or ./check first'
mkdir "$work/packed"
deb=$work/packed/gmbench.deb
archive=$work/packed/gmbench.tar.gz
install --deb "$deb"
expect 'no program' 1 '' "install: there is no proved program: $first"
cp "$gmbench" "$here/bin/gmbench"
install --tar "$archive"
expect 'a program of which nothing says that it was proved' 1 '' \
    "install: nothing says that bin/gmbench was proved: $first"
"$here/tools/proved" note bin/gmbench ./quickstart "$("$here/tools/proved" sources)"
printf x >>"$here/bin/gmbench"
install --deb "$deb"
expect 'a program with a byte more' 1 '' "install: bin/gmbench isn't the program that was proved: $first"
cp -p "$gmbench" "$here/bin/gmbench"
expect_text 'nothing was packed' "$(ls -A "$work/packed")" ''

# ---- words

usage='usage: ./install [--remove] [PREFIX] | --deb FILE | --tar FILE'
for word in --deb --tar; do
    install "$word"
    expect "$word without a file" 2 '' "$(lines "install: FILE is left out\n$usage")"
    install "$word" ''
    expect "$word with an empty name" 2 '' "$(lines "install: FILE is empty\n$usage")"
    install "$word" "$deb" more
    expect "$word and a word too many" 2 '' "$(lines "install: too many words: more\n$usage")"
    install "$word" --remove
    expect "$word and another word" 2 '' "$(lines "install: unknown word --remove\n$usage")"
    install "$word" "$work/packed"
    expect "$word over a folder" 1 '' "install: $work/packed is a folder"
    install "$word" "$work/nowhere/file"
    expect "$word below a folder that there is not" 1 '' "install: $work/nowhere/file can't be written"
    SOURCE_DATE_EPOCH=today
    export SOURCE_DATE_EPOCH
    install "$word" "$deb"
    expect "$word at a time that is none" 1 '' "install: SOURCE_DATE_EPOCH isn't a number of seconds"
    unset SOURCE_DATE_EPOCH
done
expect_text 'nothing was packed then' "$(ls -A "$work/packed")" ''

# ---- a package and an archive

said=$("$here/tools/proved" say bin/gmbench)
install --deb "$deb"
expect 'a package' 0 "$(lines "$said\n$deb")" ''
install --tar "$archive"
expect 'an archive' 0 "$(lines "$said\n$archive")" ''
expect_text 'nothing else is left' "$(ls -A "$work/packed" | paste -sd ' ' -)" 'gmbench.deb gmbench.tar.gz'

# Once more, by another mask, in another zone, over files with other times, and from another folder.
find "$here" -exec touch -d '2001-02-03 04:05:06' {} +
(umask 077 && cd "$work" && TZ=Asia/Tokyo LANG=C.UTF-8 "$here/install" --deb again.deb && "$here/install" --tar again.tar.gz) \
    >"$work/output" 2>&1
expect_same 'a package that is made twice' "$work/again.deb" "$deb"
expect_same 'an archive that is made twice' "$work/again.tar.gz" "$archive"

# ---- what the archive has

version=$("$gmbench" --version)
version=${version#gmbench }
mkdir "$work/unpacked"
tar -xzf "$archive" -C "$work/unpacked"
tree=$work/unpacked/gmbench-$version
document=share/doc/gmbench
expect_same 'the archive has the program' "$tree/bin/gmbench" "$gmbench"
gzip -dc "$tree/share/man/man8/gmbench.8.gz" >"$work/page"
expect_same 'it has the manual' "$work/page" "$top/docs/gmbench.8"
gzip -dc "$tree/$document/changelog.gz" >"$work/changelog"
sed '1,2d; s/^  //' "$work/changelog" | head -n -2 >"$work/changes"
expect_same 'it has the changes' "$work/changes" "$top/CHANGELOG.md"
expect_text 'they are of its version' "$(head -n 1 "$work/changelog" | cut -d ' ' -f 1,2)" "gmbench ($version)"
expect_same 'it has the licences' "$tree/$document/copyright" "$top/docs/copyright"
expect_same 'it has what zsh completes' "$tree/share/zsh/site-functions/_gmbench" "$top/completions/_gmbench"
for page in USE REFERENCE; do
    sed -n 's/.*<img src="\([^"]*\)".*/\1/p' "$tree/$document/$page.md" | while read -r picture; do
        [ -f "$tree/$document/$picture" ] || echo "$picture"
    done >"$work/missing"
    expect_text "it has the pictures of $page.md" "$(cat "$work/missing")" ''
done
expect_text 'modes of its files' "$(find "$tree" -type f ! -perm 644 ! -path '*/bin/gmbench' -o -type d ! -perm 755)" ''

# The note: what stood beside the program, and the checksum of each other file.
(cd "$tree" && sed -n 's/^file \([0-9a-f]*\) /\1  /p' "$document/proved" | sha256sum -c 2>&1 | grep -v ': OK$') >"$work/wrong"
expect_text 'the checksums of the note fit' "$(cat "$work/wrong")" ''
(cd "$tree" && find . -type f ! -name proved | sed 's|^\./||' | LC_ALL=C sort) >"$work/wanted"
sed -n 's/^file [0-9a-f]* //p' "$tree/$document/proved" >"$work/there"
expect_same 'the note has each file' "$work/there" "$work/wanted"
head -n 5 "$tree/$document/proved" >"$work/there"
expect_same 'the note says by what the program was proved' "$work/there" "$here/bin/gmbench.proved"

# ---- what the package has

if command -v dpkg-deb >/dev/null; then
    # A field of a package.
    field() {
        dpkg-deb -f "$1" "$2"
    }
    expect_text 'its name' "$(field "$deb" Package)" gmbench
    expect_text 'its version is that of the program' "$(field "$deb" Version)" "$version"
    expect_text 'its architecture' "$(field "$deb" Architecture)" amd64
    expect_text 'its section' "$(field "$deb" Section)" admin
    for name in Maintainer Description Installed-Size; do
        [ -n "$(field "$deb" "$name")" ] && pass "it has the field $name" || fail "it has the field $name" 'it has not'
    done
    if ldd "$gmbench" 2>/dev/null | grep -q 'libc\.so'; then
        case $(field "$deb" Depends) in
            'libc6 (>= 2.'*')') pass 'it wants a C library' ;;
            *) fail 'it wants a C library' "it wants '$(field "$deb" Depends)'" ;;
        esac
    fi
    dpkg-deb -x "$deb" "$work/files" && dpkg-deb -e "$deb" "$work/control"
    (cd "$work/files" && md5sum -c "$work/control/md5sums" 2>&1 | grep -v ': OK$') >"$work/wrong"
    expect_text 'its checksums fit' "$(cat "$work/wrong")" ''
    (cd "$work/files" && find . -type f | sed 's|^\./||' | LC_ALL=C sort) >"$work/wanted"
    sed 's/^[0-9a-f]*  //' "$work/control/md5sums" >"$work/there"
    expect_same 'they are of each file' "$work/there" "$work/wanted"
    (cd "$work/files/usr" && sed -n 's/^file \([0-9a-f]*\) /\1  /p' "$document/proved" | sha256sum -c 2>&1 | grep -v ': OK$') \
        >"$work/wrong"
    expect_text 'the checksums of its note fit' "$(cat "$work/wrong")" ''

    # The files of the archive, but that zsh reads another folder, and lintian one file more; the note tells so too.
    for files in "$work/files/usr" "$tree"; do
        {
            all_in "$files" | grep -v ' \./share/doc/gmbench/proved$'
            cat "$files/$document/proved"
        } | sed 's|zsh/site-functions|zsh/vendor-completions|; /share\/lintian\//d' >"$work/files-of-${files##*/}"
    done
    expect_same 'the package and the archive have the same files' "$work/files-of-usr" "$work/files-of-${tree##*/}"

    # The same by tar and gzip alone, where no dpkg-deb is found.
    mkdir "$work/path"
    for folder in /bin /usr/bin /usr/local/bin; do
        ln -s "$folder"/* "$work/path" 2>/dev/null
    done
    rm -f "$work/path/dpkg-deb"
    (PATH=$work/path && install --deb "$work/other.deb" && echo "$status" >"$work/status")
    expect_text 'without dpkg-deb: its status' "$(cat "$work/status")" 0
    for part in fsys ctrl; do
        for file in "$deb" "$work/other.deb"; do
            dpkg-deb "--$part-tarfile" "$file" | tar -tvf - | LC_ALL=C sort >"$work/listed-${file##*/}"
        done
        expect_same "without dpkg-deb: what is listed, $part" "$work/listed-other.deb" "$work/listed-gmbench.deb"
    done
    dpkg-deb -R "$deb" "$work/taken" && dpkg-deb -R "$work/other.deb" "$work/other"
    expect_text 'without dpkg-deb: the content' "$(diff -r "$work/taken" "$work/other" 2>&1)" ''
    (PATH=$work/path && "$here/install" --deb "$work/other-again.deb" >"$work/output" 2>&1)
    expect_same 'without dpkg-deb: a package that is made twice' "$work/other-again.deb" "$work/other.deb"
else
    skip 'what the package has' 'there is no dpkg-deb here'
fi

# ---- its commit and its time

# When the files of an archive were changed, by seconds.
times_of() {
    tar --full-time -tvzf "$1" | awk '{ print $4, $5 }' | sort -u
}
expect_text 'without git: the commit' "$(sed -n 's/^packed of //p' "$tree/$document/proved")" 'commit unknown'
expect_text 'without git: the time' "$(TZ=UTC times_of "$archive")" '1980-01-01 00:00:00'
(SOURCE_DATE_EPOCH=1000000000 "$here/install" --tar "$work/dated.tar.gz") >"$work/output" 2>&1
expect_text 'the time that is asked for' "$(TZ=UTC times_of "$work/dated.tar.gz")" '2001-09-09 01:46:40'
if command -v git >/dev/null && command -v dpkg-deb >/dev/null; then
    # Runs git in the repository, as somebody, at a time.
    in_git() {
        (cd "$here" && GIT_CONFIG_GLOBAL=/dev/null GIT_COMMITTER_DATE='1200000000 +0100' GIT_AUTHOR_DATE='1100000000 +0100' \
            git -c user.name=tester -c user.email=tester@localhost "$@")
    }
    { in_git init && in_git add install tools docs CHANGELOG.md && in_git commit -m one; } >"$work/output" 2>&1
    commit=$(in_git rev-parse HEAD)
    install --deb "$work/of-git.deb"
    expect_text 'the commit' "$(field "$work/of-git.deb" Git-Commit)" "$commit"
    dpkg-deb -x "$work/of-git.deb" "$work/of-git"
    expect_text 'the commit in the note' "$(sed -n 's/^packed of //p' "$work/of-git/usr/$document/proved")" "commit $commit"
    expect_text 'the time of the commit' "$(stat -c %Y "$work/of-git/usr/bin/gmbench" "$work/of-git/usr" | sort -u)" 1200000000
    echo >>"$here/CHANGELOG.md"
    install --deb "$work/of-git.deb"
    expect_text 'a file that was changed since' "$(field "$work/of-git.deb" Git-Commit)" "$commit with changes"
    rm -rf "$here/.git"
    cp "$top/CHANGELOG.md" "$here"
else
    skip 'the commit' 'there is no git or no dpkg-deb here'
fi

# ---- dpkg installs it, and takes it away

# Runs dpkg over a root of its own. It leaves out nothing, as it may be told to here.
in_root() {
    dpkg --root="$work/root" --log=/dev/null --path-include='/*' --force-script-chrootless "$@" >"$work/output" 2>&1
}
# The files of that root, but for those of dpkg.
files_of_root() {
    (cd "$work/root" && find . -type f ! -path './var/*' | LC_ALL=C sort)
}
if ! command -v dpkg >/dev/null || [ "$(id -u)" != 0 ]; then
    skip 'what dpkg makes of the package' 'there is no dpkg here, or not root'
else
    mkdir -p "$work/root/var/lib/dpkg/info" "$work/root/var/lib/dpkg/updates" "$work/root/var/lib/dpkg/triggers"
    : >"$work/root/var/lib/dpkg/status"
    if [ -n "$(field "$deb" Depends)" ]; then
        in_root --install "$deb" && fail 'without a C library it is not installed' 'it was' ||
            pass 'without a C library it is not installed'
        in_root --purge gmbench
    fi
    cat >"$work/root/var/lib/dpkg/status" <<'END'
Package: libc6
Status: install ok installed
Version: 99
Architecture: amd64
Maintainer: nobody <nobody@localhost>
Description: stands for a C library

END
    in_root --install "$deb" && pass 'dpkg installs it' || fail 'dpkg installs it' "$(tail -n 1 "$work/output")"
    all_in "$work/files" >"$work/wanted"
    (cd "$work/root" && mv var ../var) && all_in "$work/root" >"$work/there"
    mv "$work/var" "$work/root"
    expect_same 'dpkg installs just its files' "$work/there" "$work/wanted"
    expect_text 'the installed program runs' "$("$work/root/usr/bin/gmbench" --version 2>&1)" "gmbench $version"
    in_root --verify gmbench
    expect_text 'dpkg finds each file as it was put' "$(cat "$work/output")" ''
    echo >>"$work/root/usr/$document/USE.md"
    in_root --verify gmbench
    grep -q 'USE\.md$' "$work/output" && pass 'dpkg finds a file that was changed' ||
        fail 'dpkg finds a file that was changed' "$(cat "$work/output")"
    in_root --install "$deb" && pass 'dpkg installs it over itself' || fail 'dpkg installs it over itself' "$(tail -n 1 "$work/output")"
    in_root --remove gmbench && pass 'dpkg removes it' || fail 'dpkg removes it' "$(tail -n 1 "$work/output")"
    expect_text 'no file of it is left' "$(files_of_root)" ''
    expect_none 'no folder of it is left' "$work/root/usr"
    in_root --install "$deb" && in_root --purge gmbench && pass 'dpkg purges it' || fail 'dpkg purges it' "$(tail -n 1 "$work/output")"
    expect_none 'purged: no folder of it is left' "$work/root/usr"
    grep -q '^Package: gmbench' "$work/root/var/lib/dpkg/status" && fail 'purged: dpkg forgot it' 'it lists it' ||
        pass 'purged: dpkg forgot it'
fi
if command -v lintian >/dev/null; then
    lintian --no-cfg --allow-root --fail-on error "$deb" >"$work/output" 2>&1 && pass 'lintian finds no error' ||
        fail 'lintian finds no error' "$(grep '^E:' "$work/output" | head -n 1)"
else
    skip 'lintian finds no error' 'there is no lintian here'
fi

# ---- stops

# Has another program stand for one of the system's, which kills who calls.
mkdir "$work/stops" "$work/temporary"
for tool in gzip sync mv; do
    rm -f "$work/stops"/*
    printf '#!/bin/sh\nkill -TERM $PPID\nexec sleep 0.2\n' >"$work/stops/$tool"
    chmod +x "$work/stops/$tool"
    (PATH=$work/stops:$PATH TMPDIR=$work/temporary "$here/install" --tar "$archive" >"$work/output" 2>"$work/complaints")
    expect_text "ended by $tool: its status" $? 1
    expect_text "ended by $tool: nothing is left" "$(ls -A "$work/temporary" "$work/packed" | paste -sd ' ' -)" \
        "$work/packed: gmbench.deb gmbench.tar.gz  $work/temporary:"
    expect_same "ended by $tool: the older archive stays" "$archive" "$work/again.tar.gz"
done
(ulimit -f 8 && "$here/install" --tar "$archive" >"$work/output" 2>"$work/complaints")
expect_text 'a file that can be written in part: its status' $? 1
expect_same 'a file that can be written in part: the older archive stays' "$archive" "$work/again.tar.gz"

# ---- docs/copyright names what is linked in: by crates.txt, and below that by the kit, where that is here

# The libraries that a copyright names.
named_in() {
    sed -n 's/^\([a-z][a-z0-9_]*\)\(, [a-z].*\)\{0,1\}$/\1/p' "$1" | grep -vx gmbench | LC_ALL=C sort
}
# The libraries of the kit that the crates of the program name.
listed_in() {
    awk -F '[: ]+' '!/^#/ { names[++count] = $1; for (i = 2; i <= NF; i++) below[$1] = below[$1] " " $i }
        END { wanted["gmbench"] = 1
            for (at = count; at > 0; at--) { known[names[at]] = 1
                if (names[at] in wanted) { split(below[names[at]], each, " "); for (i in each) wanted[each[i]] = 1 } }
            for (name in wanted) if (!(name in known)) print name }' "$1" | LC_ALL=C sort
}
# What a copyright lacks of those, a line each.
lacking() {
    named_in "$1" >"$work/named"
    listed_in "$2" | LC_ALL=C comm -23 - "$work/named"
}
expect_text 'docs/copyright names each library of crates.txt' "$(lacking "$top/docs/copyright" "$top/crates.txt")" ''
sed '/^md5, /d; /^sqlite_rules$/d' "$top/docs/copyright" >"$work/copyright"
expect_text 'one that lacks two' "$(lacking "$work/copyright" "$top/crates.txt" | paste -sd ' ' -)" 'md5 sqlite_rules'
sed 's/^gm_metadata: .*/& serde/; s/^gm_test_media: .*/& regex/' "$top/crates.txt" >"$work/crates.txt"
sed '/^serde, /d' "$top/docs/copyright" >"$work/copyright"
expect_text 'a library that the program takes in, and one of a test' "$(lacking "$work/copyright" "$work/crates.txt")" serde

# All that the kit says is below some libraries, and std.
all_below() {
    below=$(LC_ALL=C sort -u)
    while :; do
        more=$(
            {
                printf '%s\n' "$below"
                cd "$kit/rlibs" && sed -n 's/^dep \([a-z0-9_]*\)$/\1/p' $(printf '%s.rlib/format ' $below)
            } | LC_ALL=C sort -u
        )
        [ "$more" != "$below" ] || break
        below=$more
    done
    printf '%s\n' "$below"
}
kit=$(readlink -f "$(command -v rt)" 2>/dev/null)
kit=${kit%/bin/rt}
if [ -f "$kit/rlibs/std.rlib/format" ]; then
    { listed_in "$top/crates.txt" && echo std; } | all_below >"$work/wanted"
    named_in "$top/docs/copyright" >"$work/named"
    expect_same 'docs/copyright names just what is linked in' "$work/named" "$work/wanted"
    for name in $(named_in "$top/docs/copyright"); do
        [ -d "$kit/rattle/$name" ] || continue
        grep -qE "^$name, .*\((MIT|Apache)" "$top/docs/copyright" && told=some || told=none
        found=none
        for file in "$kit/rattle/$name"/LICENSE*; do
            [ ! -f "$file" ] || found=some
        done
        expect_text "docs/copyright says whether the kit has a licence of $name" "$told" "$found"
    done
else
    skip 'docs/copyright names just what is linked in' 'there is no kit here'
fi
grep -o 'rattle-kit-[0-9a-z]*' "$top/docs/GATE.md" | sort -u >"$work/wanted"
grep -o 'rattle-kit-[0-9a-z]*' "$top/docs/copyright" | sort -u >"$work/there"
expect_same 'docs/copyright has the kit' "$work/there" "$work/wanted"
finish
