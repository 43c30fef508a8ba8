#!/usr/bin/env bash
# Times of `View::open`. Marks: 4,096 keys and 65,535 types under hostile names in a few milliseconds each;
# (names of 255 bytes that differ in their last four alone; nothing is hashed, so no names share a hash);
# a desktop's image (250 keys of 3 groups, about 40 KB) in well under 100 microseconds.
set -eu
top=$(cd "$(dirname "$0")/.." && pwd)
work=$(mktemp -d)
trap 'rm -rf "$work"' EXIT
mkdir -p "$work/crates"
for name in kx_basics kx_ordered kx_mods kx_tables ks_core kx_image; do
    # with what earlier checks kept in out/, so that only the program is proved afresh
    cp -r "$top/crates/$name" "$work/crates/$name"
done
mkdir -p "$work/crates/open/src"
cp "$top/bench/open/main.rt.in" "$work/crates/open/src/main.rt"
{ grep -E '^(kx_basics|kx_ordered|kx_mods|kx_tables|ks_core|kx_image):' "$top/crates.txt"; echo 'open: kx_image kx_tables kx_mods ks_core'; } > "$work/crates.txt"
cp "$top/HANDLES" "$work/HANDLES"
cd "$work/crates/open"
rt run
