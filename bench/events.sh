#!/bin/sh
# Prints the nanoseconds that an event takes over ten million random events on 100 keys of a desktop-like keymap
# (mark: under 40), on tables in vectors and on those of an image, and beside them libxkbcommon's where Debian's package libxkbcommon-dev is installed.
set -eu
here=$(cd "$(dirname "$0")" && pwd)
work=$(mktemp -d)
trap 'rm -rf "$work"' EXIT

mkdir "$work/crates"
cp "$here/../crates.txt" "$here/../HANDLES" "$work/"
for crate in "$here"/../crates/*/; do
    cp -r "$crate" "$work/crates/"
done
mkdir -p "$work/crates/events/src"
cp "$here/events/main.rt.in" "$work/crates/events/src/main.rt"
echo 'events: kx_run kx_image kx_tables kx_mods ks_core anyhow' >> "$work/crates.txt"
(cd "$work/crates/events" && rt run | tail -2)

if pkg-config --exists xkbcommon 2>/dev/null; then
    cc -O2 -o "$work/libxkbcommon" "$here/libxkbcommon.c" $(pkg-config --cflags --libs xkbcommon)
    "$work/libxkbcommon"
else
    echo 'libxkbcommon-dev is not installed'
fi
