#!/bin/sh
# Compiles keymaps with `xkc compile`, the whole program, and with libxkbcommon where Debian's package libxkbcommon-dev is
# installed: one of nearly 1 MiB and 4,096 keys, whose keysyms' names are built in; that of a desktop with three layouts,
# where `xkbcli` (libxkbcommon-tools) is installed; the same desktop's by the include files of xkb-data, found by -I, where
# these are installed; and a small one. xkc is run with --quiet, since libxkbcommon shows no notes, and without it. Prints of
# each the median time of 21 runs that are taken in turn, the instructions where valgrind is installed, and where /usr/bin/time is
# the median of the most memory of 21 runs, which differs by 0.4 MB with where the system puts the program; and of 101 pairs of runs
# of xkc --quiet and libxkbcommon the processor time.
set -eu
. "$(dirname "$0")/program.sh"
awk 'BEGIN {
    print "xkb_keymap {\nxkb_keycodes {"
    for (code = 0; code <= 4095; code++) printf "<K%d> = %d;\n", code, code
    print "};\nxkb_types { };\nxkb_compatibility { };\nxkb_symbols {"
    for (code = 0; code <= 4095; code++)
        printf "key <K%d> { [ adiaeresis, Adiaeresis, threequarters, registered ], [ guillemotleft, guillemotright, dead_acute, questiondown ], [ ISO_Level3_Shift, Scroll_Lock, exclamdown ], [ onehalf, plusminus, paragraph, periodcentered, sterling ] };\n", code
    print "};\n};"
}' > "$work/large"
cat > "$work/small" <<'END'
xkb_keymap {
xkb_keycodes { <AE01>=10; <AC01>=38; <LFSH>=50; <RTSH>=62; <GRP>=64; <CAPS>=66; <LAT>=94; <LVL3>=108; };
xkb_types { virtual_modifiers LevelThree;
type "ONE_LEVEL" { modifiers=none; };
type "TWO_LEVEL" { modifiers=Shift; map[Shift]=Level2; };
type "ALPHABETIC" { modifiers=Shift+Lock; map[Shift]=Level2; map[Lock]=Level2; };
type "FOUR_LEVEL" { modifiers=Shift+LevelThree; map[Shift]=Level2; map[LevelThree]=Level3;
map[Shift+LevelThree]=Level4; }; };
xkb_compat {
interpret ISO_Level2_Latch+Exactly(Shift) { useModMapMods=level1;
action=LatchMods(modifiers=Shift,clearLocks,latchToLock); };
interpret ISO_Level3_Shift+Any { useModMapMods=level1; virtualModifier=LevelThree;
action=SetMods(modifiers=LevelThree,clearLocks); };
interpret ISO_Next_Group { useModMapMods=level1; action=LockGroup(group=+1); };
interpret Caps_Lock+AnyOfOrNone(all) { action=LockMods(modifiers=Lock); };
interpret Any+Exactly(Lock) { action=LockMods(modifiers=Lock); };
interpret Any+AnyOf(all) { action=SetMods(modifiers=modMapMods,clearLocks); }; };
xkb_symbols {
key <AE01> {[1,exclam,onesuperior,exclamdown]}; key <AC01> {[a,A]};
key <LFSH> {[Shift_L]}; key <RTSH> {[Shift_R]}; key <GRP> {[ISO_Next_Group]};
key <CAPS> {[Caps_Lock]}; key <LAT> {[ISO_Level2_Latch]}; key <LVL3> {[ISO_Level3_Shift]};
modifier_map Shift { <LFSH>, <RTSH>, <LAT> };
modifier_map Lock { <CAPS> };
modifier_map Mod5 { <LVL3> }; };
};
END
inputs=large
if command -v xkbcli > /dev/null; then
    xkbcli compile-keymap --layout us,ru,de > "$work/desktop"
    inputs="$inputs desktop"
fi
data=/usr/share/X11/xkb
if [ -d "$data/symbols" ]; then
    cat > "$work/files" <<'END'
xkb_keymap {
xkb_keycodes { include "evdev+aliases(qwerty)" };
xkb_types { include "complete" };
xkb_compat { include "complete" };
xkb_symbols { include "pc+us+ru:2+de:3+inet(evdev)+group(alt_shift_toggle)" };
};
END
    inputs="$inputs files"
fi
inputs="$inputs small"

libxkbcommon=
if pkg-config --exists xkbcommon 2>/dev/null; then
    libxkbcommon=$work/libxkbcommon
    cc -O2 -o "$libxkbcommon" "$top/bench/compile/libxkbcommon.c" $(pkg-config --cflags --libs xkbcommon)
    cc -O2 -o "$work/pairs" "$top/bench/compile/pairs.c"
else
    echo 'libxkbcommon-dev is not installed'
fi

# once FILE COMMAND...: adds the time of one run to the file, in microseconds
once() {
    times=$1
    shift
    start=$(date +%s%N)
    "$@" > /dev/null
    stop=$(date +%s%N)
    echo $(((stop - start) / 1000)) >> "$times"
}

noted() {
    "$program" compile "$@" 2> /dev/null
}

# told NAME TIMES COMMAND...: prints the median of the times, and the instructions and the memory of one more run
told() {
    name=$1 times=$2
    shift 2
    line="$name: $(sort -n "$times" | sed -n 11p) microseconds"
    if command -v valgrind > /dev/null; then
        count=$(valgrind --tool=callgrind --callgrind-out-file=/dev/null "$@" 2>&1 > /dev/null | sed -n 's/.*Collected : //p')
        line="$line, $count instructions"
    fi
    if [ -x /usr/bin/time ]; then
        most=$(for turn in $(seq 21); do /usr/bin/time -f %M "$@" 2>&1 > /dev/null | tail -1; done | sort -n | sed -n 11p)
        line="$line, $most KB"
    fi
    echo "$line"
}

for input in $inputs; do
    echo "$input, $(wc -c < "$work/$input") bytes"
    rm -f "$work/ours" "$work/noted" "$work/theirs"
    set -- "$work/$input" "$work/image"
    folder=
    if [ "$input" = files ]; then
        set -- "$@" -I "$data"
        folder=$data
    fi
    for turn in $(seq 21); do
        once "$work/ours" "$program" compile --quiet "$@"
        once "$work/noted" noted "$@"
        [ -z "$libxkbcommon" ] || once "$work/theirs" "$libxkbcommon" "$work/$input" ${folder:+"$folder"}
    done
    told '    xkc compile --quiet' "$work/ours" "$program" compile --quiet "$@"
    told '    xkc compile' "$work/noted" "$program" compile "$@"
    if [ "$libxkbcommon" ]; then
        told '    libxkbcommon' "$work/theirs" "$libxkbcommon" "$work/$input" ${folder:+"$folder"}
        echo "    $("$work/pairs" 101 "$program" compile --quiet "$@" -- "$libxkbcommon" "$work/$input" ${folder:+"$folder"})"
    fi
done
