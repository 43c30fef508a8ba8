#!/bin/sh
# Tests of what only a whole program shows: its statuses, what it prints for each refusal, and the files that it writes.
#   tests/program.sh PROGRAM
# Each test that fails is a line, and the last line counts them.
set -u
tests=$(cd "$(dirname "$0")" && pwd)
program=$(cd "$(dirname "${1-}")" && pwd)/$(basename "${1-}")
if [ ! -f "$program" ] || [ ! -x "$program" ]; then
    echo "FAILED: there is no program '${1-}'"
    echo '0 passed, 1 failed'
    exit 1
fi
work=$(mktemp -d) || exit 2
trap 'rm -rf "$work"' EXIT
mkdir "$work/files" && cd "$work/files" || exit 2
passed=0
failed=0

# fails WHAT: a test that fails, on one line.
fails() {
    failed=$((failed + 1))
    printf 'FAILED: %s\n' "$1"
}

# holds WHAT COMMAND..: the command succeeds.
holds() {
    what=$1
    shift
    if "$@"; then passed=$((passed + 1)); else fails "$what"; fi
}

# How a run ended, with the number of lines of its output and the last of them.
end_of() {
    printf "status %d and %d lines, of which '%s' is the last" "$1" "$(wc -l < "$2")" "$(tail -n 1 "$2")"
}

# gives STATUS TEXT WORD..: the program ends with the status, and prints these lines alone, or nothing where there are none.
gives() {
    wanted=$1
    if [ "$2" ]; then printf '%s\n' "$2" > ../wanted; else : > ../wanted; fi
    shift 2
    status=0
    "$program" "$@" > ../out 2> ../err || status=$?
    if [ "$status" -eq "$wanted" ] && cmp -s ../out ../wanted; then
        passed=$((passed + 1))
    else
        fails "xkc $*: wanted $(end_of "$wanted" ../wanted); found $(end_of "$status" ../out)"
    fi
}

# keeps WHAT FILE: the file is as a caller wrote it before.
keeps() {
    holds "$1: $2 is left alone" [ "$(cat "$2")" = old ]
}

# The bytes of numbers in hexadecimal.
bytes() {
    for byte in "$@"; do
        # shellcheck disable=SC2059
        printf "\\$(printf %03o "0x$byte")"
    done
}

# One key `<A>` with code 38 and the keysym a: its source, its image in versions 1 and 2, and its printed text.
echo 'xkb_keymap { xkb_keycodes { <A>=38; }; xkb_symbols { key <A> {[a]}; }; };' > source
rows='01 00 01 00 01 00 00 00 00 00 01 00 00 00 01 00 00 00 0a 00 00 00'
records='00 01 00 00 09 00 00 00 00 00 00 00 00 00 00 00
    26 00 00 00 00 01 01 00 09 00 00 00 00 00 00 00 00 00 00 00 00 00 00 00
    01 00 00 00 00 00 00 00 00 00 00 00 61 00 00 00 4f 4e 45 5f 4c 45 56 45 4c 41'
one="4b 58 49 0a 01 00 $rows $records"
two="4b 58 49 0a 02 00 $rows 00 00 00 00 $records"
# shellcheck disable=SC2086
bytes $one > one
# shellcheck disable=SC2086
bytes $two > two
text='xkb_keymap {
xkb_keycodes {
<A>= 38;
};
xkb_types {
type "ONE_LEVEL" {
modifiers= none;
level_name[1]= "";
};
};
xkb_symbols {
key <A> {
type[1]= "ONE_LEVEL",
symbols[1]= [ a ],
actions[1]= [ NoAction() ]
};
};
};'
# What clients read of it.
client_text='xkb_keymap {
xkb_keycodes {
<A>= 38;
};
xkb_types {
type "ONE_LEVEL" {
modifiers= none;
level_name[1]= "";
};
};
xkb_compat {
interpret Any+AnyOf(all) {
action= NoAction();
};
};
xkb_symbols {
key <A> {
repeat= yes,
type[1]= "ONE_LEVEL",
symbols[1]= [ a ],
actions[1]= [ NoAction() ]
};
};
};'
printf 'down 38\nup 38\n' > events
{ cat source; echo %%; cat events; } > session
answers='38 down a consumed=none base=none latched=none locked=none group=1
38 up a consumed=none base=none latched=none locked=none group=1'
notes='notes keysyms=0 keys=0 types=0 levels=0 actions=0'

for part in tasks streams clients refusals words reading writing printing folders named looking messages; do
    . "$tests/program/$part.sh"
done
echo "$passed passed, $failed failed"
[ "$failed" -eq 0 ]
