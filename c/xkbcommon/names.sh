#!/bin/sh
# Writes folded_names.h: the names of keysyms in xkbcommon-keysyms.h, sorted without regard to case, for look-ups without regard
# to it. Names that are then alike stay in the header's order.
#   c/xkbcommon/names.sh > folded_names.h
set -eu
export LC_ALL=C
printf 'static const char *const FOLDED_NAMES[] = {\n'
sed -n 's/^#define XKB_KEY_\([A-Za-z0-9_]*\)[[:space:]].*/\1/p' "$(pkg-config --variable=includedir xkbcommon)/xkbcommon/xkbcommon-keysyms.h" |
    awk '{ print tolower($1), $1 }' | sort -s -k 1,1 | sed 's/.* \(.*\)/    "\1",/'
printf '};\n'
