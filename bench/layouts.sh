#!/bin/sh
# Compares xkc with libxkbcommon on ten layouts: as `xkbcli` resolves them, and by the include files as they are
# installed. For each it plays the same random events through both and prints how often each field of an answer differs,
# with the first such answer. Needs Debian's libxkbcommon-tools, libxkbcommon-dev and xkb-data. Words: other layouts to take,
# as us or us(dvorak); `all` for each of xkb-data.
set -eu
. "$(dirname "$0")/program.sh"
rounds=${ROUNDS:-100}
. "$(dirname "$0")/data.sh"
if ! command -v xkbcli > /dev/null || ! pkg-config --exists xkbcommon || [ ! -d "$data" ]; then
    echo 'libxkbcommon-tools, libxkbcommon-dev or xkb-data is not installed'
    exit 0
fi
cc -O2 -o "$work/player" "$top/bench/layouts/player.c" $(pkg-config --cflags --libs xkbcommon)

# compare LABEL KEYMAP [-I DIR]...
compare() {
    label=$1 keymap=$2
    shift 2
    if ! "$program" compile --quiet "$@" "$keymap" "$work/image" > "$work/line" 2> "$work/why"; then
        echo "$label: refused: $(cat "$work/line") $(head -1 "$work/why")"
        return
    fi
    : > "$work/differences"
    for round in $(seq "$rounds"); do
        "$work/player" "$keymap" events "$round" > "$work/events"
        "$program" replay "$work/image" < "$work/events" > "$work/answers"
        "$work/player" "$keymap" check "$work/answers" >> "$work/differences"
    done
    echo "$label: $(cat "$work/line"), $rounds rounds: $(awk '{ count[$1]++ } END { for (it in count) printf "%s %d, ", it, count[it]; if (!NR) printf "no difference  " }' "$work/differences" | sed 's/..$//')"
    awk '!seen[$1, $3]++ && shown++ < 6 { print "    " $0 }' "$work/differences"
}

[ $# -gt 0 ] || set -- us de fr ru gr il jp ch br 'us(dvorak)'
[ "$*" != all ] || set -- $(all_layouts)
for layout; do
    name=${layout%%(*}
    variant=$(echo "$layout" | sed -n 's/.*(\(.*\))/\1/p')
    xkbcli compile-keymap --layout "$name" ${variant:+--variant "$variant"} > "$work/resolved"
    compare "$layout, resolved" "$work/resolved"
    source_of "$layout" > "$work/included"
    compare "$layout, by files" "$work/included" -I "$data"
done
