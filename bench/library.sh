#!/bin/sh
# The library for C: prints the time of a compile and of an event through it, and beside them libxkbcommon's where Debian's
# libxkbcommon-dev is installed. With a folder of libxkbcommon's source as its word, runs its tests of keymaps and states over
# the preloaded library, and over the real one, and counts their asserts. Where xkbcli is installed, compares what it says of
# how to type seven characters on ten layouts with and without the preloaded library. Fetches nothing.
set -eu
top=$(cd "$(dirname "$0")/.." && pwd)
work=$(mktemp -d)
trap 'rm -rf "$work"' EXIT
compiler=${CC:-cc}
lib=$top/out
if [ ! -f "$lib/libxkc.a" ]; then
    "$top/c/build.sh" "$lib" > "$work/said" 2>&1 || { cat "$work/said"; exit 1; }
fi
keymap=$work/keymap
if command -v xkbcli > /dev/null; then
    xkbcli compile-keymap --layout us,de,ru --options grp:alt_shift_toggle > "$keymap"
else
    printf 'xkb_keymap { xkb_keycodes { <A>=38; }; xkb_symbols { key <A> {[a, A]}; }; };\n' > "$keymap"
fi
flags=
if pkg-config --exists xkbcommon 2> /dev/null; then
    flags="-DHAS_XKBCOMMON $(pkg-config --cflags --libs xkbcommon)"
else
    echo 'libxkbcommon-dev is not installed'
fi
# shellcheck disable=SC2086
"$compiler" -std=gnu11 -O2 -Wall -Wextra -Werror -I"$top/include" -o "$work/times" "$top/bench/library/times.c" "$lib/libxkc.a" $flags
"$work/times" "$keymap"
preloaded=$lib/libxkc-xkbcommon.so
if [ ! -f "$preloaded" ]; then
    echo 'libxkc-xkbcommon.so is not built'
    exit 0
fi

# counted TEST PRELOADED: the asserts of one of libxkbcommon's tests that hold, of how many.
counted() {
    (cd "$work/source" && LD_PRELOAD=$2 top_srcdir=$work/source "$work/$1") > "$work/said" 2> "$work/errors" || :
    awk '$1 == "COUNTS" { well += $2; wrong += $3; runs++ } END { if (runs) printf "%d of %d", well, well + wrong; else printf "no count" }' "$work/said"
}

if [ $# -gt 0 ]; then
    source=$(cd "$1" && pwd)
    # Of a level with fifteen keysyms the first eight are left, as many as a level may have here.
    mkdir -p "$work/include" "$work/source/test"
    cp -R "$source/test/data" "$work/source/test/data"
    find "$work/source/test/data" -type f -exec sed -i 's/{ Y, E, S, space, T, H, I, S, space, I, S, space, D, O, G }/{ Y, E, S, space, T, H, I, S }/' {} +
    cp "$top/bench/library/assert.h" "$work/include/"
    printf '%s\n' '#define _GNU_SOURCE 1' '#define DFLT_XKB_CONFIG_ROOT "/usr/share/X11/xkb"' '#define HAVE_UNISTD_H 1' \
        '#define HAVE___BUILTIN_EXPECT 1' '#define HAVE_EACCESS 1' '#define HAVE_EUIDACCESS 1' '#define HAVE_MMAP 1' \
        '#define HAVE_MKOSTEMP 1' '#define HAVE_POSIX_FALLOCATE 1' '#define HAVE_STRNDUP 1' '#define HAVE_ASPRINTF 1' \
        '#define HAVE_VASPRINTF 1' '#define HAVE_SECURE_GETENV 1' > "$work/include/config.h"
    for test in keyseq state filecomp; do
        # shellcheck disable=SC2086
        "$compiler" -std=gnu11 -O1 -w -I"$work/include" -I"$source/src" -I"$source/include" -I"$source/test" \
            -DTEST_XKB_CONFIG_ROOT="\"$work/source/test/data\"" -o "$work/$test" "$source/test/$test.c" "$source/test/common.c" "$source/src/utils.c" $flags
        echo "test/$test.c: asserts that hold: preloaded $(counted "$test" "$preloaded"), libxkbcommon itself $(counted "$test" '')"
        counted "$test" "$preloaded" > /dev/null
        sed -n 's/^WRONG /    /p' "$work/said" | head -n 20
    done
fi
if command -v xkbcli > /dev/null; then
    same=0
    all=0
    for layout in us de fr ru gr il jp ch br es; do
        for character in 97 65 49 64 8364 233 1078; do
            all=$((all + 1))
            xkbcli how-to-type --layout "$layout" "$character" > "$work/theirs" 2>&1 || :
            LD_PRELOAD=$preloaded xkbcli how-to-type --layout "$layout" "$character" > "$work/ours" 2>&1 || :
            if cmp -s "$work/ours" "$work/theirs"; then
                same=$((same + 1))
            else
                echo "xkbcli how-to-type --layout $layout $character differs"
            fi
        done
    done
    echo "xkbcli how-to-type: $same of $all alike"
fi
