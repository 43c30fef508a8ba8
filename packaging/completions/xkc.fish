# Completions of xkc for fish.

# Names of a kind that are listed, with what they are, behind the names that are written already.
function __xkc_listed
    set -l written (string replace -r '^--[a-z]+=' '' -- (commandline -ct) | string replace -r '[^,]*$' '')
    xkc list $argv[1] 2>/dev/null | string replace -r '^(\S+)\s+' "$written\$1\t"
end

# A condition: one of these commands stands in the line.
function __xkc_is
    __fish_seen_subcommand_from $argv
end

set -l commands try compile replay print show find list rules names dump upgrade help
set -l named try compile replay print show find rules
complete -c xkc -n "not __xkc_is $commands" -f -a try -d 'Answer events from a source on standard input'
complete -c xkc -n "not __xkc_is $commands" -f -a compile -d 'Compile a source, or a layout by its names'
complete -c xkc -n "not __xkc_is $commands" -f -a replay -d 'Answer lines of events by a keymap'
complete -c xkc -n "not __xkc_is $commands" -f -a print -d 'Print all that a keymap tells as text'
complete -c xkc -n "not __xkc_is $commands" -f -a show -d 'Print a picture of the keyboard'
complete -c xkc -n "not __xkc_is $commands" -f -a find -d 'Print the keys that give a keysym'
complete -c xkc -n "not __xkc_is $commands" -f -a list -d 'Print the names of layouts, variants, options and models'
complete -c xkc -n "not __xkc_is $commands" -f -a rules -d 'Print the source that is made of names'
complete -c xkc -n "not __xkc_is $commands" -f -a names -d 'Print the names of keysyms in C headers'
complete -c xkc -n "not __xkc_is $commands" -f -a dump -d 'Print the bytes of an image in hexadecimal'
complete -c xkc -n "not __xkc_is $commands" -f -a upgrade -d 'Write an image anew, in the newest version'
complete -c xkc -n "not __xkc_is $commands" -f -a help -d 'Print what the words are'
complete -c xkc -n '__xkc_is help' -f -a "$commands"
complete -c xkc -n '__xkc_is list' -f -a 'layouts variants options models'
complete -c xkc -n '__xkc_is rules' -f
complete -c xkc -n '__xkc_is try compile replay print show find' -l names -r -d 'A file of names of keysyms'
complete -c xkc -n "__xkc_is $named list" -s I -l include -x -d 'A folder of included files' \
    -a '(__fish_complete_directories (commandline -ct))'
complete -c xkc -n "__xkc_is $named list" -l rules -x -d 'The rules by which names are read'
complete -c xkc -n "__xkc_is $named" -l model -x -a '(__xkc_listed models)' -d "A keyboard's model"
complete -c xkc -n "__xkc_is $named" -l layout -x -a '(__xkc_listed layouts)' -d 'Layouts by name'
complete -c xkc -n "__xkc_is $named" -l variant -x -a '(__xkc_listed variants)' -d 'A variant for each layout'
complete -c xkc -n "__xkc_is $named" -l options -x -a '(__xkc_listed options)' -d Options
complete -c xkc -n '__xkc_is try compile' -l quiet -d 'Say nothing of what is passed over'
complete -c xkc -n '__xkc_is try compile' -l warn -x -a all -d 'Say each place of what is passed over'
complete -c xkc -n '__xkc_is show' -l group -x -d 'The group that is shown'
complete -c xkc -n '__xkc_is show' -l svg -d 'Print a drawing'
complete -c xkc -s h -l help -d 'Print what the words are'
complete -c xkc -n "not __xkc_is $commands" -s V -l version -d 'Print the version'
