# shellcheck shell=sh disable=SC2154
# What is refused: sources, images, names of keysyms, and lines of events.

# refused FAULT SOURCE FILE..: a session and `compile` refuse the source by this line alone, and OUT isn't touched.
refused() {
    fault=$1
    printf %s "$2" > refused
    shift 2
    gives 1 "$fault" try "$@" < refused
    echo old > kept
    gives 1 "$fault" compile refused kept "$@"
    keeps "$fault" kept
}

# no_image FAULT BYTE..: each task that opens an image refuses the bytes by this line alone, and OUT isn't touched.
no_image() {
    fault=$1
    shift
    bytes "$@" > none
    gives 1 "$fault" print none
    gives 1 "$fault" dump none
    gives 1 "$fault" replay none < events
    echo old > kept
    gives 1 "$fault" upgrade none kept
    keeps "$fault" kept
}

# names_are_refused FAULT LINES: each task that takes names of keysyms refuses them by this line alone.
names_are_refused() {
    printf '%s\n' "$2" > names
    gives 1 "$1" try --names names < session
    gives 1 "$1" compile --names names source kept
    gives 1 "$1" replay --names names two < events
}

# tells TEXT: standard error of the last run has this alone.
tells() {
    holds "standard error: wanted '$1', found '$(cat ../err)'" [ "$(cat ../err)" = "$1" ]
}

# Sources that are refused, with a fault of each kind but F1, want of memory.
codes='xkb_keymap { xkb_keycodes { <A>=38; };'
echo 'xkb_symbols { include "deep" };' > deep
refused 'F2 TooLong at 0:0-1048577' "$(head -c 1048576 /dev/zero | tr '\0' ' ')."
refused 'F3 BadByte at 0:13-14' 'xkb_keymap { @ };'
refused 'F4 OpenString at 0:25-27' 'xkb_keymap { xkb_symbols "x'
refused 'F5 OpenKeyName at 0:28-30' 'xkb_keymap { xkb_keycodes { <A =38; }; };'
refused 'F6 Syntax at 0:30-30' 'xkb_keymap { xkb_symbols { key'
refused 'F7 NumberTooBig at 0:32-42' 'xkb_keymap { xkb_keycodes { <A>=4294967296; }; };'
refused 'F8 BadInclude at 0:35-39' 'xkb_keymap { xkb_symbols { include "x(" }; };'
refused 'F9 FileMissing at 0:35-39' 'xkb_keymap { xkb_symbols { include "zz" }; };' map=map
refused 'F10 MapMissing at 0:35-46' 'xkb_keymap { xkb_symbols { include "map(nope)" }; };' map=map
refused 'F11 DepthOver16 at 1:22-28' 'xkb_keymap { xkb_symbols { include "deep" }; };' deep=deep
refused 'F12 UnknownModifier at 0:46-49' 'xkb_keymap { xkb_types { type "T" { modifiers=Foo; }; }; };'
refused 'F13 TooMany at 0:53-97' "$codes xkb_symbols { key <A> { [{ a, b, c, d, e, f, g, h, i }] }; }; };"
refused 'F14 UnknownField at 0:51-56' "$codes xkb_types { group 1 = Shift; }; };"
refused 'F15 BadValue at 0:72-75' "$codes xkb_types { type \"T\" { modifiers=256; }; }; };"
refused 'F16 GroupRange at 0:71-73' "$codes xkb_symbols { key <A> { symbols[33]=[a] }; }; };"
refused 'F17 LevelRange at 0:90-97' "$codes xkb_types { type \"T\" { modifiers=Shift; map[Shift]=Level65; }; }; };"
refused 'F18 CodeRange at 0:32-36' 'xkb_keymap { xkb_keycodes { <A>=4096; }; };'

# Images, names and events that are refused.
# shellcheck disable=SC2086
{
    no_image 'I2 Magic' 00 ${two#4b}
    no_image 'I1 Truncated' 4b 58 49 0a 02 00
    no_image 'I3 Version' 4b 58 49 0a 03 00 $rows 00 00 00 00 $records
    no_image 'I4 Length' $two 00
    no_image 'I5 BadRecord header 0' 4b 58 49 0a 01 00 02 ${rows#01} $records
    no_image 'I5 BadRecord name 9' ${one%41} 3e
}
: > none
gives 1 'I1 Truncated' print none
echo old > kept
names_are_refused 'N2 LineShape 1' 'one'
names_are_refused 'N3 Twice 3' 'one 0x1001

one 0x1002'
names_are_refused 'N4 Value 1' 'one 9'
keeps 'names that are refused' kept
printf 'down 38\n\nup 38\ndown\ndown 38\n' > faulty
gives 1 "$answers
P3 Line 4" replay two < faulty
{ cat source; echo %%; cat faulty; } > faulty_session
gives 1 "$answers
P3 Line 4" < faulty_session

# What standard error says of files that can't be used.
compiles="'xkc compile FILE OUT' makes an image of a keymap's source"
mkdir folder
gives 3 'cannot use nosuch' show nosuch
tells "error: 'nosuch' can't be used: there is no such file or folder"
gives 3 'cannot use folder' print folder
tells "error: 'folder' can't be used: it is a folder, where a file is wanted"
gives 3 'cannot use nosuch/out' compile source nosuch/out
tells "error: 'nosuch/out' can't be used: there is no such file or folder"
gives 3 'cannot use source' compile -I source source out
tells "error: 'source' can't be used: it is no folder, or lies below what is none"
gives 3 'cannot use source/more' compile source/more out
tells "error: 'source/more' can't be used: it is no folder, or lies below what is none"
if [ "$(id -u)" -ne 0 ]; then
    echo old > shut
    chmod 000 shut
    gives 3 'cannot use shut' show shut
    tells "error: 'shut' can't be used: permission is refused"
fi

# What it says of what stands in the place of an image.
gives 1 'I2 Magic' dump source
tells "error: no image but a keymap's source: 'xkc compile FILE OUT' makes an image of it"
printf '// of mine\n\ndefault partial alphanumeric_keys\nxkb_symbols "mine" { key <A> { [a] }; };\n' > kind
gives 1 'I2 Magic' show kind
tells "error: no image but a file that a source includes: 'xkc compile FILE OUT' makes an image of a source"
printf '// Rules\n\n! model = keycodes\n  * = evdev\n' > kind
gives 1 'I2 Magic' dump kind
tells "error: no image but rules for names: 'xkc compile --layout L OUT' makes an image by names"
printf '/* Names. */\n#ifndef NAMES\n#define XKB_KEY_a 0x61\n#endif\n' > kind
gives 1 'I2 Magic' replay kind < events
tells "error: no image but a C header: 'xkc names FILE' prints the names of keysyms that it has"
printf 'down 38\nup 38\ndown 39\nup 39\n' > kind
gives 1 'I2 Magic' upgrade kind out
tells "error: no image but events: 'xkc replay IMAGE' reads them from its input"
: > kind
gives 1 'I1 Truncated' print kind
tells "error: no image but an empty file: $compiles"
head -c 100 /dev/zero > kind
gives 1 'I2 Magic' print kind
tells "error: no image: $compiles"
# shellcheck disable=SC2086
{
    bytes 4b 58 49 0a 03 00 $rows 00 00 00 00 $records > kind
    gives 1 'I3 Version' print kind
    tells "error: an image of version 3, where 1 and 2 are read: $compiles"
    bytes 4b 58 49 0a 02 00 > kind
    gives 1 'I1 Truncated' replay kind < events
    tells "error: the image is cut short: $compiles"
    bytes $two 00 > kind
    gives 1 'I4 Length' print kind
    tells "error: the image has more bytes than it says: $compiles"
    bytes ${one%41} 3e > kind
    gives 1 'I5 BadRecord name 9' print kind
    tells "error: the image breaks a rule of images: $compiles"
}

# What it says of names of keysyms, of events, of input and of output.
printf '# mine\none\n' > names
gives 1 'N2 LineShape 2' try --names names < session
tells "error: line 2 of 'names': expected a name, blanks and a keysym's number, as 'EuroSign 0x20ac', with no blank before or behind"
printf 'one 0x1001\none 0x1002\n' > names
gives 1 'N3 Twice 2' replay --names names two < events
tells "error: line 2 of 'names': its name has another keysym already, which is built in or stands in a line before"
echo 'one 9' > names
gives 1 'N4 Value 1' compile --names names source out
tells "error: line 1 of 'names': expected a keysym's number from 0xa to 0x1fffffff"
gives 1 'no keysym is named nosuch' find two nosuch
tells "error: 'nosuch' is neither the name of a keysym, as EuroSign, nor one character"
event="expected 'down 38' or 'up 38', with a key's code from 0 to 65535 in decimal digits, and nothing behind it"
gives 1 "$answers
P3 Line 4" replay two < faulty
tells "error: line 4 of the events, 'down', is no event: $event"
gives 1 "$answers
P3 Line 4" < faulty_session
tells "error: line 4 of the events, 'down', is no event: $event"
{ cat source; echo %%; printf 'down 38\r\n'; } > faulty_session
gives 1 'P3 Line 1' < faulty_session
tells "error: line 1 of the events, 'down 38\r', is no event: $event"
{
    for _ in 1 2 3 4 5 6 7 8 9 10; do cat events events events events events events events events events events; done
    for _ in 1 2 3 4 5 6 7 8 9 10; do cat events events events events events events events events events events; done
    for _ in 1 2 3 4 5 6 7 8 9 10; do cat events events events events events events events events events events; done
    echo 'Down 38'
} > faulty
"$program" replay two < faulty > ../out 2> ../err || :
holds 'an event behind many is refused' [ "$(tail -n 1 ../out)" = 'P3 Line 601' ]
tells "error: line 601 of the events, 'Down 38', is no event: $event"
gives 3 'P4 Read' replay two < folder
tells "error: the input can't be read, or has more than 67,108,864 bytes"
if [ -c /dev/full ]; then
    status=0
    "$program" print two > /dev/full 2> ../err || status=$?
    holds 'output that cannot be written ends with status 3' [ "$status" -eq 3 ]
    tells "error: the output can't be written"
fi
