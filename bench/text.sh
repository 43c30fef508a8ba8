#!/bin/sh
# Times the reading of text. Run it from anywhere, as: sh bench/text.sh
# It copies the crates to a temporary folder, adds the program of bench/text to them (the gate refuses a
# source file outside of a crate, so it is kept under the name main.rt.in), proves it and runs it,
# which takes a few minutes. It prints the lowest times of several runs. Mark, on one core of a desktop:
#   tokens and tree of a keymap of 1 MiB: 100 MB/s or more for both together
set -eu
top=$(cd "$(dirname "$0")/.." && pwd)
work=$(mktemp -d)
trap 'rm -rf "$work"' EXIT
cp -r "$top/crates" "$work/crates"
cp "$top/HANDLES" "$work/HANDLES"
cp "$top/crates.txt" "$work/crates.txt"
echo "text: kx_lex kx_parse anyhow" >> "$work/crates.txt"
mkdir -p "$work/crates/text/src"
cp "$top/bench/text/main.rt.in" "$work/crates/text/src/main.rt"
cd "$work/crates/text"
rt run
