#!/bin/sh
# Compares what libxkc-xkbcommon.so and libxkbcommon answer of the keymaps of layouts of xkb-data: those that are named, or all.
#   bench/answers.sh FOLDER [LAYOUT..]     FOLDER has the built library
# A line tells the first answer of each kind that differs in a layout; the last counts. Needs Debian's libxkbcommon0 and
# xkb-data, and a C compiler.
set -eu
top=$(cd "$(dirname "$0")/.." && pwd)
library=$(cd "$1" && pwd)/libxkc-xkbcommon.so
shift
# shellcheck source=bench/data.sh
. "$top/bench/data.sh"
work=$(mktemp -d)
trap 'rm -rf "$work"' EXIT
"${CC:-cc}" -std=c11 -O2 -Wall -Wextra -o "$work/compare" "$top/bench/answers/compare.c" -ldl
if [ $# -gt 0 ]; then printf '%s\n' "$@"; else all_layouts; fi > "$work/layouts"
"$work/compare" "$library" libxkbcommon.so.0 < "$work/layouts"
