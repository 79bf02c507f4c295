# Completes gmbench's words in bash. Source this file, or put it as `gmbench` into a folder of bash-completion.

# Keeps that the command has this option, or a name at this place, and what that may be, if it is one of these commands.
# COMMAND is each that changes mirrors, and 2+ each place from the second on.
_gmbench_takes() {
    local taken=$1 kind=$2 it
    shift 2
    for it; do
        if [[ $it = "$command" || $it = COMMAND && " ${changes[*]} " = *" $command "* ]]; then
            [[ $taken != --* ]] || options+=("$taken")
            kinds[${taken/#*+/more}]=$kind
        fi
    done
}

# docs/words begins
# The commands that change mirrors, and all subcommands.
_gmbench_commands() {
    changes=(label insert remove deactivate activate forget rebuild configure clear destroy lost advance adopt patch)
    subcommands=("${changes[@]}" dump taste pending recover status list audit scrub check log do batch replace mend \
        write sync renew serve help)
}

# The options of a subcommand. COMMAND is each that changes mirrors.
_gmbench_options() {
    _gmbench_takes --registry file COMMAND recover status list audit do batch serve
    _gmbench_takes --registry file pending scrub check log replace mend write sync renew
    _gmbench_takes --shelf folder COMMAND dump taste recover status list audit scrub check do batch replace mend write \
        sync renew serve
    _gmbench_takes --shelf folder pending
    _gmbench_takes --existing '' COMMAND recover status list audit do batch serve
    _gmbench_takes --explain '' COMMAND dump taste pending recover status list audit scrub check log do batch replace \
        mend write sync renew serve
    _gmbench_takes --wait other COMMAND pending recover status list audit scrub check log do batch replace mend write \
        sync renew serve
    _gmbench_takes --json '' COMMAND dump taste pending recover status list audit scrub check log do mend sync renew
    _gmbench_takes --unchecked '' COMMAND do replace write sync
    _gmbench_takes --unchecked '' recover
    _gmbench_takes --unchecked '' mend
    _gmbench_takes --force '' COMMAND do replace mend write
    _gmbench_takes --force '' recover sync renew
    _gmbench_takes --key other COMMAND mend
    _gmbench_takes --key other recover
    _gmbench_takes --key other replace write
    _gmbench_takes --all '' adopt
    _gmbench_takes --without image recover
    _gmbench_takes --read-only '' status list audit
    _gmbench_takes --quiet '' scrub check replace mend write sync
    _gmbench_takes --data '' check
    _gmbench_takes --last other log
    _gmbench_takes --audit '' batch serve
    _gmbench_takes --guarded '' batch serve
    _gmbench_takes --stop '' batch
    _gmbench_takes --first other write
    _gmbench_takes --file file write
    _gmbench_takes --port other serve
    _gmbench_takes --count other serve
    _gmbench_takes --log '' serve
    _gmbench_takes --any-origin '' serve
}

# Those of a command that changes mirrors, also after `do`.
_gmbench_words() {
    _gmbench_takes --mid other label
    _gmbench_takes --did other label insert
    _gmbench_takes --balance 'load prefer round-robin split' label configure
    _gmbench_takes --slice other label configure
    _gmbench_takes --autosync 'on off' label configure
    _gmbench_takes --failsync 'on off' label configure
    _gmbench_takes --hardcode 'on off' label insert configure
    _gmbench_takes --priority other insert configure
    _gmbench_takes --prov image configure
    _gmbench_takes --first other patch
    _gmbench_takes --data other patch
}

# The names of a command, each at its place.
_gmbench_names() {
    _gmbench_takes 1 '' label adopt
    _gmbench_takes 1 mirror insert remove deactivate activate forget rebuild configure destroy lost advance patch \
        scrub log replace write sync
    _gmbench_takes 1 spare clear
    _gmbench_takes 1 image dump mend
    _gmbench_takes 2 spare label insert
    _gmbench_takes 2 image remove deactivate activate rebuild advance sync
    _gmbench_takes 2 image replace
    _gmbench_takes 2+ image lost
    _gmbench_takes 2+ spare adopt
    _gmbench_takes 3 spare replace
}
# docs/words ends

# Offers those of these words that begin as the word at the cursor.
_gmbench_offer() {
    local offered
    for offered; do
        [[ $offered != "$word"* ]] || COMPREPLY+=("$offered")
    done
}

# Offers the regular files of the folder, if their names are such as images have.
_gmbench_offer_images() {
    local path name
    [[ -n $shelf ]] || return
    for path in "${shelf/#\~\//$HOME/}/$word"*; do
        name=${path##*/}
        [[ ! -f $path || -L $path || $name == *[!A-Za-z0-9._-]* ]] || COMPREPLY+=("$name")
    done
}

# Prints the status of the registry's mirrors. It is only looked at.
_gmbench_status() {
    [[ -n $registry && -n $shelf ]] || return
    command gmbench status --read-only --registry "${registry/#\~\//$HOME/}" --shelf "${shelf/#\~\//$HOME/}" 2>/dev/null
}

# Offers the images of the folder that are no components by the registry.
_gmbench_offer_spares() {
    local line name members=' ' images
    while IFS= read -r line; do
        if [[ $line == ' '* ]]; then
            read -r name line <<<"$line"
            members+="$name "
        fi
    done < <(_gmbench_status)
    _gmbench_offer_images
    images=("${COMPREPLY[@]}") COMPREPLY=()
    for name in "${images[@]}"; do
        [[ $members == *" $name "* ]] || COMPREPLY+=("$name")
    done
}

# Offers the mirrors of the registry.
_gmbench_offer_mirrors() {
    local line
    while IFS= read -r line; do
        [[ $line == ' '* || $line == 'no mirrors' ]] || _gmbench_offer "${line%% *}"
    done < <(_gmbench_status)
}

# Offers files or folders of any name.
_gmbench_offer_paths() {
    mapfile -t COMPREPLY < <(compgen "$1" -- "$word")
    compopt -o filenames 2>/dev/null
}

# Offers what a value or a name may be.
_gmbench_offer_kind() {
    case $1 in
        file) _gmbench_offer_paths -f ;;
        folder) _gmbench_offer_paths -d ;;
        image) _gmbench_offer_images ;;
        spare) _gmbench_offer_spares ;;
        mirror) _gmbench_offer_mirrors ;;
        other) ;;
        *) _gmbench_offer $1 ;;
    esac
}

_gmbench() {
    local word=${COMP_WORDS[COMP_CWORD]} registry=${GMBENCH_REGISTRY-} shelf=${GMBENCH_SHELF-} before option='' place
    local changes=() subcommands=() command='' handed='' names=() options=(--help --version)
    local -A kinds=()
    COMPREPLY=()
    _gmbench_commands

    # What is before the cursor: names, the subcommand first, and maybe an option that wants a value.
    for before in "${COMP_WORDS[@]:1:COMP_CWORD-1}"; do
        if [[ -n $option ]]; then
            [[ $before != = ]] || continue
            # As it is typed it has the quotes of a shell, which xargs takes away, and nothing of it is carried out.
            case $option in
                --registry) registry=$(xargs printf %s <<<"$before" 2>/dev/null) ;;
                --shelf) shelf=$(xargs printf %s <<<"$before" 2>/dev/null) ;;
            esac
            option=
        elif [[ $before = -* ]]; then
            [[ -z ${kinds[$before]-} ]] || option=$before
        else
            names+=("$before")
            case ${names[0]},${#names[@]} in
                *,1) command=$before options=(--help) && _gmbench_options && _gmbench_words && _gmbench_names ;;
                do,2) options=() ;;
                # After the key of `do` comes a command, which has its own words alone.
                do,3) command=$before kinds=() handed=yes && _gmbench_words && _gmbench_names ;;
            esac
        fi
    done
    if [[ -n $option ]]; then
        [[ $word != = ]] || word=
        _gmbench_offer_kind "${kinds[$option]}"
        return
    fi

    # The place of the next name after the command.
    place=$((${#names[@]} - (${#handed} ? 2 : 0)))
    if [[ $word != -* ]]; then
        case $command,$place in
            ,0 | help,1) _gmbench_offer "${subcommands[@]}" ;;
            do,2) _gmbench_offer "${changes[@]}" ;;
            *) _gmbench_offer_kind "${kinds[$place]-${kinds[more]-}}" ;;
        esac
    fi
    [[ ${#COMPREPLY[@]} -gt 0 ]] || _gmbench_offer "${options[@]}"
}

complete -F _gmbench gmbench
