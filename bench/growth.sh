#!/bin/sh
# Prints how the time of `xkc compile` grows with a source: of keymaps of 512 to 4,096 keys with a key type each, of such
# with types of 16 entries, of such with types and actions at every level, and of such with interpretations and modifier
# maps, the lowest of 5 runs of the whole program. Where valgrind is installed the instructions are printed too.
set -eu
. "$(dirname "$0")/program.sh"

run() {
    least=1000000000
    for turn in 1 2 3 4 5; do
        start=$(date +%s%N)
        "$program" compile "$work/source" "$work/image" > "$work/line"
        stop=$(date +%s%N)
        time=$(((stop - start) / 1000))
        [ "$time" -ge "$least" ] || least=$time
    done
    count=
    if command -v valgrind > /dev/null; then
        count=$(valgrind --tool=callgrind --callgrind-out-file="$work/calls" "$program" compile "$work/source" "$work/image" 2>&1 |
            sed -n 's/.*Collected : //p')
    fi
    printf '%8d microseconds %12s  %s\n' "$least" "$count" "$1"
}

# source KIND KEYS
source_of() {
    awk -v kind="$1" -v keys="$2" 'BEGIN {
        print "xkb_keymap {\nxkb_keycodes {"
        for (k = 0; k < keys; k++) printf "<K%d>=%d;\n", k, k
        print "};\nxkb_types { virtual_modifiers V;"
        if (kind == "maps") print "type \"TWO_LEVEL\" { modifiers=Shift; map[Shift]=2; };"
        if (kind == "entries") for (k = 0; k < keys; k++) {
            printf "type \"T%d\" { modifiers=15;", k
            for (mask = 0; mask < 16; mask++) printf "map[%d]=2;", mask
            print "};"
        }
        if (kind == "types" || kind == "actions") for (k = 0; k < keys; k++) printf "type \"T%d\" { modifiers=Shift+V; map[Shift]=2; map[V]=3; map[Shift+V]=4; };\n", k
        print "};\nxkb_compat {"
        if (kind == "maps") for (k = 0; k < keys / 4; k++) printf "interpret U%X+Exactly(Mod%d) { virtualModifier=V; action=SetMods(modifiers=modMapMods); };\n", 4096 + k, k % 5 + 1
        print "};\nxkb_symbols {"
        for (k = 0; k < keys; k++) {
            if (kind == "maps") printf "key <K%d> { [ U%X, U%X ] };\n", k, 4096 + k, 8192 + k
            else if (kind == "entries") printf "key <K%d> {type=\"T%d\",[a]};\n", k, k
            else printf "key <K%d> { type=\"T%d\", [ a, b, c, d ]%s };\n", k, k, (kind == "actions" ? ", [ SetMods(modifiers=V), LatchMods(modifiers=Shift,clearLocks), LockGroup(group=+1), SetGroup(group=2) ]" : "")
        }
        if (kind == "maps") for (k = 0; k < keys; k += 2) printf "modifier_map Mod%d { U%X, <K%d> };\n", k % 5 + 1, 4096 + k, k + 1
        print "};\n};"
    }' > "$work/source"
}

for kind in types entries actions maps; do
    for keys in 512 1024 2048 4096; do
        source_of "$kind" "$keys"
        run "$kind of $keys keys, $(wc -c < "$work/source") bytes"
    done
done
