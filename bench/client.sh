#!/bin/sh
# What a client does when its compositor sends it a keymap: opens the image and starts a follower, through the library for C;
# and beside it, in the same run, libxkbcommon's xkb_keymap_new_from_string of the same keymap's text and xkb_state_new. Prints
# of both the median time of 501 times, the memory that one holds, and the instructions where valgrind is installed. Needs
# Debian's libxkbcommon-tools and libxkbcommon-dev.
set -eu
. "$(dirname "$0")/program.sh"
if ! command -v xkbcli > /dev/null || ! pkg-config --exists xkbcommon; then
    echo 'libxkbcommon-tools or libxkbcommon-dev is not installed'
    exit 1
fi
lib=$top/out
if [ ! -f "$lib/libxkc.a" ]; then
    "$top/c/build.sh" "$lib" > "$work/said" 2>&1 || { cat "$work/said"; exit 1; }
fi
# shellcheck disable=SC2046
cc -std=gnu11 -O2 -Wall -Wextra -Werror -I"$top/include" -o "$work/client" "$top/bench/client/client.c" "$lib/libxkc.a" \
    $(pkg-config --cflags --libs xkbcommon)
xkbcli compile-keymap --layout us,ru,de > "$work/text"
"$program" compile --quiet "$work/text" "$work/image" > "$work/notes"
echo "a desktop's keymap: $(wc -c < "$work/text") bytes of text, an image of $(wc -c < "$work/image") bytes"

# counted WHO FILE COUNT: the instructions of so many times.
counted() {
    valgrind --tool=callgrind --callgrind-out-file=/dev/null "$work/client" "$@" 2>&1 > /dev/null | sed -n 's/.*Collected : //p'
}

# told NAME WHO FILE
told() {
    name=$1
    shift
    line="$name: $("$work/client" "$@" 501)"
    if command -v valgrind > /dev/null; then
        line="$line, $((($(counted "$@" 11) - $(counted "$@" 1)) / 10)) instructions"
    fi
    echo "$line"
}

told '    xkc, image and follower' ours "$work/image"
told '    libxkbcommon, text and state' theirs "$work/text"
