#!/bin/sh
# Compares with libxkbcommon the characters and the case of every keysym, the keysym of every character, and what each key types
# in the states of 2,000 events over seven keymaps that libxkbcommon prints. Needs Debian's libxkbcommon-dev and
# libxkbcommon-tools.
#   bench/keysyms.sh [ARCHIVE]      ARCHIVE: libxkc.a, out/libxkc.a where it isn't said
set -eu
top=$(cd "$(dirname "$0")/.." && pwd)
work=$(mktemp -d)
trap 'rm -rf "$work"' EXIT
archive=${1:-$top/out/libxkc.a}
if ! pkg-config --exists xkbcommon || ! command -v xkbcli > /dev/null; then
    echo 'libxkbcommon-dev or libxkbcommon-tools is not installed'
    exit 0
fi
[ -f "$archive" ] || "$top/c/build.sh" "$top/out" > "$work/said" 2>&1 || { cat "$work/said"; exit 1; }
# shellcheck disable=SC2046
"${CC:-cc}" -std=gnu11 -O2 -Wall -Wextra -Werror -I"$top/include" -o "$work/keysyms" "$top/bench/keysyms/keysyms.c" "$archive" $(pkg-config --cflags --libs xkbcommon)

# made NAME WORDS..: a keymap that libxkbcommon prints.
made() {
    name=$1
    shift
    xkbcli compile-keymap "$@" > "$work/$name"
}
made us --layout us
made de-neo --layout de --variant neo
made gr --layout gr
made ru --layout ru
made us-ru-gr --layout us,ru,gr --options grp:alt_shift_toggle
made gr-ru-us --layout gr,ru,us --options grp:shifts_toggle
made tr-cz-de --layout tr,cz,de --variant f,,neo --options grp:alt_shift_toggle,caps:shiftlock
"$work/keysyms" "$work/us" "$work/de-neo" "$work/gr" "$work/ru" "$work/us-ru-gr" "$work/gr-ru-us" "$work/tr-cz-de"
