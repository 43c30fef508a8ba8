#!/bin/sh
# Compares what libxkbcommon answers over the text that clients read and over its source: for each layout of xkb-data that is
# named, or for all where none is. A line tells of each layout that differs, with what differs and how often; the last counts.
# Where Xvfb and xkbcomp are installed each text is loaded into an X server. Needs Debian's libxkbcommon-dev and xkb-data.
set -eu
. "$(dirname "$0")/program.sh"
. "$(dirname "$0")/data.sh"
if ! pkg-config --exists xkbcommon || [ ! -d "$data" ]; then
    echo 'libxkbcommon-dev or xkb-data is not installed'
    exit 0
fi
cc -O2 -Wall -Wextra -o "$work/compare" "$top/bench/clients/compare.c" $(pkg-config --cflags --libs xkbcommon)

# A server that only this run uses, and that ends with it.
display=
if command -v Xvfb > /dev/null && command -v xkbcomp > /dev/null; then
    Xvfb -displayfd 3 3> "$work/display" > /dev/null 2>&1 &
    server=$!
    trap 'kill "$server"; rm -rf "$work"' EXIT
    for _ in 1 2 3 4 5 6 7 8 9 10; do [ -s "$work/display" ] || sleep 1; done
    display=:$(cat "$work/display")
fi

[ $# -gt 0 ] || set -- $(all_layouts)
tried=0 same=0 loaded=0
for layout; do
    tried=$((tried + 1))
    source_of "$layout" > "$work/source"
    if ! "$program" print -I "$data" "$work/source" > "$work/text" 2> "$work/why"; then
        echo "$layout: refused: $(head -1 "$work/why")"
        continue
    fi
    "$work/compare" "$work/source" "$work/text" > "$work/found" 2> /dev/null || :
    differs=$(awk '$1 != "compared" { count[$1]++ } END { for (it in count) printf " %s %d", it, count[it] }' "$work/found")
    if [ "$differs" ]; then echo "$layout:$differs, as $(head -1 "$work/found")"; else same=$((same + 1)); fi
    [ -z "$display" ] || if xkbcomp -w 0 "$work/text" "$display" > "$work/said" 2>&1; then
        loaded=$((loaded + 1))
    else
        echo "$layout: xkbcomp: $(head -1 "$work/said")"
    fi
done
echo "$tried layouts: $same the same${display:+, $loaded loaded into an X server}"
