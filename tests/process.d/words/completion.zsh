# Prints what zsh offers after a line, by the completions of a folder, a line each:
#
#     zsh -f completion.zsh FOLDER LINE
#
# It types the line into another zsh, at a terminal of its own, in which each word that is offered is printed between two
# marks, and presses the tabulator.

zmodload zsh/zpty || exit
setup='PROMPT=
fpath=('${(q)1}' $fpath)
autoload -U compinit && compinit -D -u
bindkey "^I" complete-word
zstyle ":completion:*" insert-tab false
mark() { print -r -- "<>" }
compprefuncs=(mark)
comppostfuncs=(mark exit)
compadd() {
    if [[ ${@[1,(i)(-|--)]} != *-(O|A|D)\ * ]]; then
        local -a hits
        builtin compadd -A hits "$@"
        [[ -z $hits ]] || print -rl -- "offered "${^hits}
    fi
    builtin compadd "$@"
}
print ready'
zpty inner zsh -f -i
zpty -w inner "source =(<<<${(qq)setup})"
while zpty -r inner told; do
    [[ $told != ready* ]] || break
done
zpty -n -w inner "$2"$'\t'
marks=0
while zpty -r inner told; do
    [[ $told != *'<>'* ]] || ((++marks < 2)) || break
    [[ $told != 'offered '* ]] || print -r -- ${${told#offered }%%[$'\r\n']*}
done
zpty -d inner
