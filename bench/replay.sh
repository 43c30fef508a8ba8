#!/bin/sh
# Prints how long ten million event lines take through `xkc replay`, and the rate (mark: half a million lines a second),
# and beside it a program's over libxkbcommon that writes the same lines, where Debian's package libxkbcommon-dev is
# installed. The keymap has one key; the lines press and release it, and name a code without a key, in turn.
set -eu
. "$(dirname "$0")/program.sh"
printf 'xkb_keymap { xkb_keycodes { <A>=38; }; xkb_types { }; xkb_compat { }; xkb_symbols { key <A> {[a]}; }; };\n' > "$work/source"
"$program" compile "$work/source" "$work/image" > /dev/null
awk 'BEGIN { for (i = 0; i < 2500000; i++) print "down 38\ndown 9\nup 38\nup 9" }' > "$work/lines"

# The milliseconds that a command takes for the lines; it must write the wanted last line.
timed() {
    start=$(date +%s%N)
    "$@" < "$work/lines" | tail -1 > "$work/last"
    stop=$(date +%s%N)
    grep -q '^9 up ? consumed=none base=none latched=none locked=none group=1$' "$work/last"
    echo $(((stop - start) / 1000000))
}

ours=$(timed "$program" replay "$work/image")
echo "xkc replay: 10000000 lines in $ours ms, $((10000000000 / ours)) lines a second"
if pkg-config --exists xkbcommon 2>/dev/null; then
    cc -O2 -D_GNU_SOURCE -o "$work/libxkbcommon" "$top/bench/replay/libxkbcommon.c" $(pkg-config --cflags --libs xkbcommon)
    theirs=$(timed "$work/libxkbcommon" "$work/source")
    echo "libxkbcommon: $theirs ms, $((theirs * 10 / ours)) tenths"
else
    echo 'libxkbcommon-dev is not installed'
fi
