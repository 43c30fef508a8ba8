#!/bin/sh
# Draws the README's picture, docs/keyboard.svg, again: docs/draw.sh PROGRAM, where PROGRAM is a built xkc. The layout is the
# one that is installed (Debian's xkb-data).
set -eu
if [ $# -ne 1 ]; then
    echo 'usage: docs/draw.sh PROGRAM' >&2
    exit 2
fi
picture=$(dirname "$0")/keyboard.svg
part=$(mktemp "$picture.XXXXXX")
trap 'rm -f "$part"' EXIT
# The list of keys that aren't on the picture of a PC keyboard is cut off.
"$1" show --layout de --svg |
    sed '1s/viewBox="0 0 \([0-9]*\) [0-9]*" width="[0-9]*" height="[0-9]*"/viewBox="0 0 \1 830" width="\1" height="830"/' > "$part"
chmod 644 "$part"
mv "$part" "$picture"
