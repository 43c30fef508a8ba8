#!/bin/sh
# Compares the letters of layouts in many scripts with libxkbcommon's, by the include files as they are installed: every key, with
# and without Shift, Caps Lock and both. A line for each layout: what was passed over, how many keys were pressed, and how many
# answers differ, with the first of them. Needs Debian's libxkbcommon-dev and xkb-data. Words: other layouts to take.
set -eu
. "$(dirname "$0")/program.sh"
. "$(dirname "$0")/data.sh"
if ! pkg-config --exists xkbcommon || [ ! -d "$data" ]; then
    echo 'libxkbcommon-dev or xkb-data is not installed'
    exit 0
fi
cc -O2 -o "$work/player" "$top/bench/layouts/player.c" $(pkg-config --cflags --libs xkbcommon)

# Shift is the key 50, Caps Lock 66.
{
    for held in none shift caps both; do
        case $held in shift) echo 'down 50' ;; caps) printf 'down 66\nup 66\n' ;; both) printf 'down 66\nup 66\ndown 50\n' ;; esac
        for code in $(seq 10 21) $(seq 24 35) $(seq 38 49) 51 $(seq 52 61) 65 94; do printf 'down %s\nup %s\n' "$code" "$code"; done
        case $held in shift) echo 'up 50' ;; caps) printf 'down 66\nup 66\n' ;; both) printf 'up 50\ndown 66\nup 66\n' ;; esac
    done
} > "$work/events"

[ $# -gt 0 ] || set -- ru ua bg rs gr il ara am ge us tr kz mk de fr cz pl
for layout; do
    source_of "$layout" > "$work/keymap"
    "$program" compile --quiet -I "$data" "$work/keymap" "$work/image" > "$work/line"
    "$program" replay "$work/image" < "$work/events" > "$work/answers"
    "$work/player" "$work/keymap" check "$work/answers" > "$work/differences"
    echo "$layout: $(cat "$work/line"), $(grep -c ' down ' "$work/answers") presses, $(wc -l < "$work/differences") differences"
    head -1 "$work/differences"
done
