#!/bin/sh
# Runs libxkbcommon's own test programs over libxkc-xkbcommon.so:
#   bench/xkbcommon.sh SOURCE [FOLDER]     SOURCE is the folder of libxkbcommon 1.5's source, FOLDER has the built library
# Without FOLDER the library is built. The programs are linked with it alone, and each line of them that is left out or changed
# is named here with its reason. A line tells of each program; the last counts.
set -eu
top=$(cd "$(dirname "$0")/.." && pwd)
source=$(cd "$1" && pwd)
work=$(mktemp -d)
trap 'rm -rf "$work"' EXIT
if [ $# -gt 1 ]; then library=$(cd "$2" && pwd); else "$top/c/build.sh" "$work/lib" > /dev/null && library=$work/lib; fi
compiler=${CC:-cc}
mkdir "$work/test" "$work/programs"
cp -r "$source/test" "$work/"
changed=0

# changes FILE WHAT REASON: what sed does to a file. It must change something.
changes() {
    cp "$work/test/$1" "$work/before"
    sed "$2" "$work/before" > "$work/test/$1"
    ! cmp -s "$work/before" "$work/test/$1" || { echo "nothing to change: $1: $2" && exit 1; }
    echo "$1: $3" >> "$work/reasons"
    changed=$((changed + 1))
}

eight='at most eight keysyms stand at a level'
changes data/symbols/us 's/{ Y, E, S, .*D, O, G }/{ Y, E, S }/' "$eight"
changes data/keymaps/no-aliases.xkb 's/{ Y, E, S, .*D, O, G }/{ Y, E, S }/' "$eight"
changes data/keymaps/stringcomp.data 's/{ Y, E, S, .*D, O, G }/{ Y, E, S }/' "$eight"
changes state.c 's/"YES THIS IS DOG"/"YES"/' "$eight"
changes data/symbols/pc 's/modifier_map Mod5 .*/modifier_map Mod5 { <LVL3> };/' 'a key in the maps of several modifiers is mapped to each, and not to the last alone'
changes filecomp.c '/bad.xkb/d' 'a section that is missing is like an empty one'
for name in stringcomp buffercomp; do
    changes $name.c 's/!streq(original, dump)/0/' 'a text that is printed is the one for clients, and not as libxkbcommon lays it out'
done
changes rulescomp.c '/"us:20"/,/FINISH/d' 'there are groups to the 32nd, and not to the 4th'
changes rulescomp.c '/"us,,ca"/,/FINISH/d' 'an empty part of an include is refused'
changes context.c '/atom/d' 'atoms are no public call'
changes keysym.c '/is_keypad/d' 'it is no public call'

# What the programs call beside public calls, made of them.
cat > "$work/cases.c" <<'END'
#include "config.h"
#include <stdbool.h>
#include <xkbcommon/xkbcommon.h>
bool xkb_keysym_is_lower(xkb_keysym_t k) { return xkb_keysym_to_lower(k) == k && xkb_keysym_to_upper(k) != k; }
bool xkb_keysym_is_upper(xkb_keysym_t k) { return xkb_keysym_to_upper(k) == k && xkb_keysym_to_lower(k) != k; }
END
cat > "$work/config.h" <<'END'
#define _GNU_SOURCE 1
#define DFLT_XKB_CONFIG_ROOT "/usr/share/X11/xkb"
#define HAVE_UNISTD_H 1
#define HAVE_EACCESS 1
#define HAVE_MMAP 1
#define HAVE_STRNDUP 1
#define HAVE_ASPRINTF 1
#define HAVE_VASPRINTF 1
#define HAVE_SECURE_GETENV 1
END

# A server for the calls of x11, that ends with this run.
programs='keyseq state keymap stringcomp buffercomp filecomp rulescomp rules-file keysym context compose'
if command -v Xvfb > /dev/null && pkg-config --exists xcb; then
    Xvfb -noreset -displayfd 3 3> "$work/display" > /dev/null 2>&1 &
    server=$!
    trap 'kill "$server"; rm -rf "$work"' EXIT
    for _ in 1 2 3 4 5 6 7 8 9 10; do [ -s "$work/display" ] || sleep 1; done
    DISPLAY=:$(cat "$work/display")
    export DISPLAY
    programs="$programs x11"
fi

passed=0 failed=0
for name in $programs; do
    case $name in
        rules-file) own="$top/bench/xkbcommon/components.c $library/libxkc.a" ;;
        x11) own=$(pkg-config --libs xcb) ;;
        *) own= ;;
    esac
    # shellcheck disable=SC2086
    "$compiler" -std=c11 -w -I"$work" -I"$source/include" -I"$source/src" -I"$work/test" -o "$work/programs/$name" "$work/test/$name.c" \
        "$work/test/common.c" "$source/src/utils.c" "$work/cases.c" "$library/libxkc-xkbcommon.so" -I"$top/include" $own
    status=0
    (cd "$work" && LD_LIBRARY_PATH=$library timeout 120 "programs/$name") > "$work/said" 2>&1 || status=$?
    if [ "$status" -eq 0 ]; then
        passed=$((passed + 1))
        echo "$name passes"
    else
        failed=$((failed + 1))
        echo "$name ends with status $status: $(tail -n 1 "$work/said" | cut -c 1-200)"
        [ -z "${XKC_KEEP:-}" ] || cp "$work/said" "$XKC_KEEP/$name.said"
    fi
done
sort -u "$work/reasons"
echo "$passed passed, $failed failed, $changed changes"
[ "$failed" -eq 0 ]
