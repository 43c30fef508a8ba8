#!/bin/sh
# Times the names of keysyms. Run it from anywhere, as: sh bench/names.sh
# It copies the crates to a temporary folder, adds the program of bench/names to them (the gate refuses a
# source file outside of a crate, so it is kept under the name main.rt.in), proves it and runs it,
# which takes a few minutes. Marks, on one core of a desktop:
#   reading 2,500 lines: well under 2,000,000 ns
#   finding a name, of any kind: well under 200 ns
set -eu
top=$(cd "$(dirname "$0")/.." && pwd)
work=$(mktemp -d)
trap 'rm -rf "$work"' EXIT
cp -r "$top/crates" "$work/crates"
cp "$top/HANDLES" "$work/HANDLES"
cp "$top/crates.txt" "$work/crates.txt"
echo "names: ks_core arrayvec anyhow" >> "$work/crates.txt"
mkdir -p "$work/crates/names/src"
cp "$top/bench/names/main.rt.in" "$work/crates/names/src/main.rt"
cd "$work/crates/names"
rt run
