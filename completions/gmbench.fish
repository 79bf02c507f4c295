# Completes gmbench's words in fish. Put this file into ~/.config/fish/completions.

# The words before the cursor that are names, the subcommand first.
function __gmbench_names
    set -l names
    set -l wants no
    for word in (commandline -opc)[2..-1]
        if test $wants = yes
            set wants no
        else if string match -q -- '-*' $word
            set -l command $names[1]
            # After the key of `do` comes a command.
            test (count $names) -lt 3 -o "$command" != do; or set command $names[3]
            contains -- "$command $word" $__gmbench_valued; and set wants yes
        else
            set -a names $word
        end
    end
    string join -- \n $names
end

# Whether the options of one of these subcommands may be here. COMMAND is each that changes mirrors. After a key of `do`
# its own may not.
function __gmbench_in
    set -l names (__gmbench_names)
    test "$names[1]" = do -a (count $names) -gt 1; and return 1
    contains -- "$names[1]" $argv; and return
    contains COMMAND $argv; and contains -- "$names[1]" $__gmbench_changes
end

# Whether so many names follow that subcommand.
function __gmbench_behind
    set -l names (__gmbench_names)
    test "$names[1]" = $argv[1] -a (count $names) -eq (math $argv[2] + 1)
end

# A command by itself or after the key of `do`, and the names after it.
function __gmbench_command
    set -l names (__gmbench_names)
    test "$names[1]" != do; or set names $names[3..-1]
    string join -- \n $names
end

# Whether this is one of these commands, by itself or after the key of `do`.
function __gmbench_doing
    set -l names (__gmbench_command)
    contains -- "$names[1]" $argv
end

# Whether the next name is at this place after one of these commands, or with 2+ from the second on.
function __gmbench_at
    set -l names (__gmbench_command)
    set -l place (string replace + '' $argv[1])
    contains -- "$names[1]" $argv[2..-1]; or return
    test (count $names) -eq $place; and return
    test $place != $argv[1] -a (count $names) -gt $place
end

# The path that an option before the cursor has, or else this one.
function __gmbench_path
    set -l path $argv[2]
    set -l before
    for word in (commandline -opc)
        if test "$before" = $argv[1]
            set path $word
        else if string match -q -- "$argv[1]=*" $word
            set path (string replace -- "$argv[1]=" '' $word)
        end
        set before $word
    end
    test -n "$path"; or return
    string replace -r -- '^~/' $HOME/ $path
    true
end

# The status of the registry's mirrors. It is only looked at.
function __gmbench_status
    set -l registry (__gmbench_path --registry "$GMBENCH_REGISTRY"); or return
    set -l shelf (__gmbench_path --shelf "$GMBENCH_SHELF"); or return
    command -q gmbench; or return
    command gmbench status --read-only --registry $registry --shelf $shelf 2>/dev/null
end

# The mirrors of the registry.
function __gmbench_mirrors
    __gmbench_status | string match -rv '^ |^no mirrors$' | string replace -r ' .*' ''
end

# The regular files of the folder that --shelf or the environment names.
function __gmbench_images
    set -l shelf (__gmbench_path --shelf "$GMBENCH_SHELF"); or return
    for path in $shelf/*
        set -l name (string replace -r '.*/' '' $path)
        test -f $path -a ! -L $path; and string match -r '^[A-Za-z0-9._-]+$' -- $name
    end
end

# Those that are no components by the registry.
function __gmbench_spares
    set -l members (__gmbench_status | string replace -rf '^ +(\S+).*' '$1')
    for name in (__gmbench_images)
        contains -- $name $members; or echo $name
    end
end

# Offers a subcommand, and after the key of `do` one that changes mirrors.
function __gmbench_offer
    complete -c gmbench -n 'test (count (__gmbench_names)) -eq 0' -a $argv[1] -d $argv[2]
    complete -c gmbench -n '__gmbench_behind help 0' -a $argv[1] -d $argv[2]
    not contains $argv[1] $__gmbench_changes; or complete -c gmbench -n '__gmbench_behind do 1' -a $argv[1] -d $argv[2]
end

# Offers an option, of which `complete` wants to know this, if the condition after `--` holds.
function __gmbench_option
    set -l at (contains -i -- -- $argv)
    set -l condition $argv[(math $at + 1)..-1]
    complete -c gmbench $argv[1..(math $at - 1)] -n "$condition"
    string match -qr -- '^-[rx]' $argv[3]; or return
    set -l commands (string replace COMMAND "$__gmbench_changes" $condition[2..-1] | string split ' ')
    set -ga __gmbench_valued $commands" --$argv[2]"
end

# Offers a name at this place after these commands.
function __gmbench_name
    complete -c gmbench -n "__gmbench_at $argv[1] $argv[3..-1]" -a "(__gmbench_$argv[2]s)" -d $argv[2]
end

complete -c gmbench -f
complete -c gmbench -n 'test (count (__gmbench_names)) -eq 0' -s V -l version -d 'Print version'
complete -c gmbench -n 'test (count (__gmbench_names)) -eq 0' -s h -l help -d 'Print help'
complete -c gmbench -n '__gmbench_in COMMAND $__gmbench_others' -s h -l help -d 'Print help'
set -g __gmbench_valued

# docs/words begins
set -g __gmbench_changes label insert remove deactivate activate forget rebuild configure clear destroy lost advance \
    adopt patch
set -g __gmbench_others dump taste pending recover status list audit scrub check log do batch replace mend write sync \
    renew serve

# The subcommands.
__gmbench_offer label 'Makes a mirror of an image'
__gmbench_offer insert 'Adds an image to a mirror, to be filled'
__gmbench_offer remove 'Takes a component out of a mirror'
__gmbench_offer deactivate 'Takes a component out of use'
__gmbench_offer activate 'Takes an INACTIVE component back into use, to be filled'
__gmbench_offer forget 'Stops counting components that were lost'
__gmbench_offer rebuild 'Has a component filled anew'
__gmbench_offer configure 'Changes settings of a mirror, or the priority of a component'
__gmbench_offer clear 'Wipes the metadata of an image that no registered mirror has'
__gmbench_offer destroy 'Drops a mirror'
__gmbench_offer lost "Drops components whose images won't come back"
__gmbench_offer advance 'Fills the next 256 sectors of a component'
__gmbench_offer adopt 'Registers a mirror that is found on images'
__gmbench_offer patch "Changes sectors of a mirror's data"
__gmbench_offer dump 'Prints what the last sector of an image says'
__gmbench_offer taste 'Prints which mirrors the images of a folder tell of by themselves'
__gmbench_offer pending 'Prints what a run that stopped left pending, and carries out nothing'
__gmbench_offer recover 'Carries out what a run that stopped left pending'
__gmbench_offer status 'Shows in a few lines how the mirrors stand'
__gmbench_offer list 'Shows all that is known of the mirrors and their components'
__gmbench_offer audit "Lists the components whose images aren't as they are registered"
__gmbench_offer scrub 'Compares the data of the components that are ACTIVE'
__gmbench_offer check 'Says whether all is well, and writes nothing'
__gmbench_offer log 'Prints which commands were accepted, and writes nothing'
__gmbench_offer do 'Carries out one command under a key'
__gmbench_offer batch 'Carries out the commands of standard input, a line each'
__gmbench_offer replace 'Puts an image in the place of another'
__gmbench_offer mend 'Writes the last sector of an image again as it is registered'
__gmbench_offer write 'Writes the data of a file into a mirror'
__gmbench_offer sync 'Fills the components that are SYNCHRONIZING'
__gmbench_offer renew 'Puts a new registry in the place of one that is nearly full'
__gmbench_offer serve 'Answers requests over HTTP, on 127.0.0.1 alone'
__gmbench_offer help 'Prints help'

# The options of a subcommand. COMMAND is each that changes mirrors.
__gmbench_option -l registry -r -F -d 'The registry, which is made if there is none' -- __gmbench_in COMMAND recover \
    status list audit do batch serve
__gmbench_option -l registry -r -F -d 'The registry' -- __gmbench_in pending scrub check log replace mend write sync \
    renew
__gmbench_option -l shelf -x -a '(__fish_complete_directories)' -d 'The folder with the images' -- __gmbench_in \
    COMMAND dump taste recover status list audit scrub check do batch replace mend write sync renew serve
__gmbench_option -l shelf -x -a '(__fish_complete_directories)' \
    -d 'The folder with the images, to say how they stand to what is pending' -- __gmbench_in pending
__gmbench_option -l existing -d "Makes no registry: one that isn't there is a fault" -- __gmbench_in COMMAND recover \
    status list audit do batch serve
__gmbench_option -l explain -d 'Says on standard error what a refusal or a fault means' -- __gmbench_in COMMAND dump \
    taste pending recover status list audit scrub check log do batch replace mend write sync renew serve
__gmbench_option -l wait -x -d 'How long a folder or a registry in use is tried again' -- __gmbench_in COMMAND pending \
    recover status list audit scrub check log do batch replace mend write sync renew serve
__gmbench_option -l json -d 'Prints JSON' -- __gmbench_in COMMAND dump taste pending recover status list audit scrub \
    check log do mend sync renew
__gmbench_option -l unchecked -d "Doesn't look first whether the images are as they are registered" -- __gmbench_in \
    COMMAND do replace write sync
__gmbench_option -l unchecked -d "Doesn't look first at what lies under the names of pending images" -- __gmbench_in \
    recover
__gmbench_option -l unchecked -d "Doesn't look first whether the other images are as they are registered" -- \
    __gmbench_in mend
__gmbench_option -l force -d 'Carries it out even if data are lost then, or something else uses an image' -- \
    __gmbench_in COMMAND do replace mend write
__gmbench_option -l force -d 'Writes to images even if something else uses them' -- __gmbench_in recover sync renew
__gmbench_option -l key -x -d "The key under which it is carried out, once, in place of one of gmbench's own" -- \
    __gmbench_in COMMAND mend
__gmbench_option -l key -x -d 'The key under which it is given up, once' -- __gmbench_in recover
__gmbench_option -l key -x -d "The key of its first command, in place of one of gmbench's own" -- __gmbench_in replace \
    write
__gmbench_option -l all -d 'Adopts each mirror that the images of the folder show whole' -- __gmbench_in adopt
__gmbench_option -l without -x -a '(__gmbench_images)' -d 'An image that is gone for good, which is given up' -- \
    __gmbench_in recover
__gmbench_option -l read-only -d 'Carries out nothing that is pending, and writes nothing at all' -- __gmbench_in \
    status list audit
__gmbench_option -l quiet -d "Doesn't say how far it is" -- __gmbench_in scrub check replace mend write sync
__gmbench_option -l data -d 'Compares the data of the components that are ACTIVE too' -- __gmbench_in check
__gmbench_option -l last -x -d 'Only so many of them, the last' -- __gmbench_in log
__gmbench_option -l audit -d "Carries out no command if an image of its mirror isn't as it is registered" -- \
    __gmbench_in batch serve
__gmbench_option -l guarded -d 'Carries out no command that `do` would ask about or hold back' -- __gmbench_in batch \
    serve
__gmbench_option -l stop -d 'Ends at the first line that is refused' -- __gmbench_in batch
__gmbench_option -l first -x -d 'The first sector, counted from 0' -- __gmbench_in write
__gmbench_option -l file -r -F -d 'The file with the data, or - for standard input' -- __gmbench_in write
__gmbench_option -l port -x -d 'The port on 127.0.0.1; 0 stands for one that is free' -- __gmbench_in serve
__gmbench_option -l count -x -d 'How many connections are served' -- __gmbench_in serve
__gmbench_option -l log -d 'Logs a line for each connection, on standard error' -- __gmbench_in serve
__gmbench_option -l any-origin -d 'Answers web pages too, which are turned away without it' -- __gmbench_in serve

# Those of a command that changes mirrors, also after `do`.
__gmbench_option -l mid -x -d "The mirror's number; if it is left out, one is drawn at random" -- __gmbench_doing \
    label
__gmbench_option -l did -x -d "The component's number; if it is left out, one is drawn at random" -- __gmbench_doing \
    label insert
__gmbench_option -l balance -x -a 'load prefer round-robin split' \
    -d 'How reads are shared out: load, prefer, round-robin or split' -- __gmbench_doing label configure
__gmbench_option -l slice -x -d 'The bytes by which split shares out' -- __gmbench_doing label configure
__gmbench_option -l autosync -x -a 'on off' -d 'on or off: whether components are filled that fell behind' -- \
    __gmbench_doing label configure
__gmbench_option -l failsync -x -a 'on off' -d 'on or off: off sets the flag NOFAILSYNC' -- __gmbench_doing label \
    configure
__gmbench_option -l hardcode -x -a 'on off' -d "on or off: whether an image's name is in its metadata" -- \
    __gmbench_doing label insert configure
__gmbench_option -l priority -x -d "The component's priority as a source, 0 to 255" -- __gmbench_doing insert \
    configure
__gmbench_option -l prov -x -a '(__gmbench_images)' -d 'The image of the component that gets the priority' -- \
    __gmbench_doing configure
__gmbench_option -l first -x -d 'The first sector, counted from 0' -- __gmbench_doing patch
__gmbench_option -l data -x -d '1 to 64 sectors, each as 1,024 digits of 0-9 and a-f' -- __gmbench_doing patch

# The names of a command, each at its place.
__gmbench_name 1 mirror insert remove deactivate activate forget rebuild configure destroy lost advance patch scrub \
    log replace write sync
__gmbench_name 1 spare clear
__gmbench_name 1 image dump mend
__gmbench_name 2 spare label insert
__gmbench_name 2 image remove deactivate activate rebuild advance sync
__gmbench_name 2 image replace
__gmbench_name 2+ image lost
__gmbench_name 2+ spare adopt
__gmbench_name 3 spare replace
# docs/words ends
