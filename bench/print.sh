#!/usr/bin/env bash
# Times of `print`. Mark: a megabyte of text in well under 10 ms.
set -eu
top=$(cd "$(dirname "$0")/.." && pwd)
work=$(mktemp -d)
trap 'rm -rf "$work"' EXIT
mkdir -p "$work/crates"
for name in kx_basics kx_ordered kx_mods kx_tables ks_core kx_image kx_print; do
    # with what earlier checks kept in out/, so that only the program is proved afresh
    cp -r "$top/crates/$name" "$work/crates/$name"
done
mkdir -p "$work/crates/print/src"
cp "$top/bench/print/main.rt.in" "$work/crates/print/src/main.rt"
{ grep -E '^(kx_basics|kx_ordered|kx_mods|kx_tables|ks_core|kx_image|kx_print):' "$top/crates.txt"; echo 'print: kx_image kx_print ks_core'; } > "$work/crates.txt"
cp "$top/HANDLES" "$work/HANDLES"
cd "$work/crates/print"
rt run
