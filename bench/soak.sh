#!/bin/bash
# Tries xkc on random sources, images and events: against libxkbcommon, and against itself. `usage` below says more. Needs
# Debian's libxkbcommon-dev and xkb-data.
set -u
top=$(cd "$(dirname "$0")/.." && pwd)

usage() {
    cat <<'END'
usage: bench/soak.sh HOURS [--seconds N] [--seed N] [--program PATH] [--library PATH] [--keep FOLDER]

Tries case after case for so many hours (or seconds, which take the place of hours), each chosen by the seed and its number. Where
PATH, or out/libxkc.a, is the library for C, it has to answer as the program. What differs is cut down by lines and kept in a folder
of FOLDER (bench/out/soak, where none is given), up to 100. The last line counts; the status is 1 where something differs.
END
    exit "$1"
}

seconds=
seed=1
program=
library=$top/out/libxkc.a
keep=$top/bench/out/soak
while [ $# -gt 0 ]; do
    case $1 in
        --help | -h) usage 0 ;;
        --seconds | --seed | --program | --library | --keep)
            [ $# -gt 1 ] || usage 2 >&2
            case $1 in
                --seconds) seconds=$2 ;;
                --seed) seed=$2 ;;
                --program) program=$(realpath "$2") ;;
                --library) library=$(realpath "$2") ;;
                --keep) keep=$(realpath -m "$2") ;;
            esac
            shift
            ;;
        [0-9]*) seconds=${seconds:-$(awk -v hours="$1" 'BEGIN { printf "%d", hours * 3600 }')} ;;
        *) usage 2 >&2 ;;
    esac
    shift
done
[ "$seconds" ] || usage 2 >&2
if [ -z "$program" ]; then
    . "$top/bench/program.sh"
else
    work=$(mktemp -d)
    trap 'rm -rf "$work"' EXIT
fi
[ -x "$program" ] || { echo "soak: there is no program $program" >&2; exit 2; }
data=/usr/share/X11/xkb
if ! pkg-config --exists xkbcommon || [ ! -d "$data" ]; then
    echo 'libxkbcommon-dev or xkb-data is not installed'
    exit 0
fi
cc -std=gnu11 -O2 -Wall -Wextra -o "$work/make" "$top/bench/soak/make.c" || exit 2
# shellcheck disable=SC2046
cc -O2 -o "$work/player" "$top/bench/layouts/player.c" $(pkg-config --cflags --libs xkbcommon) || exit 2
if [ -f "$library" ]; then
    cc -std=c99 -O2 -I"$top/include" -o "$work/compositor" "$top/c/compositor.c" "$library" || exit 2
else
    echo 'soak: the library for C is not built, so it is left out'
fi
# Layouts without a difference of their own (docs/meaning.md, "Layouts").
apart='^(al veqilharxhi|se swl|tr otkf?|ca multix|de neo|de e1|de e2|de T3|cm qwerty|cm azerty|cm dvorak|cm mmuock|fr dvorak|lv apostrophe|lv tilde|lv fkey|lv modern|lv ergonomic|mm zawgyi|mm zgt|ie ogam_is434)$'
awk -v apart="$apart" '/^!/ { part = $2; next }
    part == "layout" && NF && $1 != "custom" { print "layout", $1 }
    part == "variant" && NF { sub(/:$/, "", $2); if ($2 " " $1 !~ apart) print "variant", $2, $1 }
    part == "option" && $1 ~ /:/ { print "option", $1 }' "$data/rules/evdev.lst" > "$work/lists"

# What of a printed keymap chooses events: its keys as plain ones, ones with an action, and latches; `order`, in which keys are to be
# released, since a difference of clearLocks and of groups that keys hold is known (docs/meaning.md); and `several` where a key is in
# the maps of several modifiers, which is known to differ.
keys_of='
    /^<.*>= [0-9]+;$/ { name = $1; sub(/=.*/, "", name); code[name] = $2 + 0; names[++count] = name; next }
    /^key </ { key = $2; next }
    /^actions\[/ {
        line = $0; gsub(/NoAction\(\)/, "", line)
        if (line ~ /Latch/) kind[key] = "latch"
        else if (line ~ /\(/ && kind[key] == "") kind[key] = "acts"
        if (line ~ /clearLocks|SetGroup/) last = 1
    }
    /^modifier_map / { line = $0; while (match(line, /<[^>]*>/)) { if (maps[substr(line, RSTART, RLENGTH)]++) several = 1; line = substr(line, RSTART + RLENGTH) } }
    END {
        print "order", last ? "last" : "free"
        if (several) print "several"
        # Key 593 is that of XF86EmojiPicker, which is no name to libxkbcommon 1.5, and key 50 the left Shift, which has clearLocks
        # there by a default that holds in an include.
        for (i = 1; i <= count; i++) if (code[names[i]] != 593 && code[names[i]] != 50) print code[names[i]], kind[names[i]] == "" ? "plain" : kind[names[i]]
    }'

# run NAME WORD..: the program's output, in the file NAME; a status that isn't 0 or 1 is a difference of its own.
run() {
    local name=$1
    shift
    "$program" "$@" > "$name" 2> "$name.said"
    status=$?
    [ "$status" -le 1 ] || { echo "status-$status $*"; return 2; }
}

# by_library SOURCE IMAGE: the library for C makes this image of a source without includes, and answers the events as the answers say.
# (Of the state it tells the modifiers of each part.)
answers_of='
    function mask(word,    names, count, i, sum) {
        sub(/^.*=/, "", word)
        count = split(word, names, "+")
        for (i = 1; i <= count; i++) sum += bit[names[i]]
        return sum + 0
    }
    BEGIN { count = split("Shift Lock Control Mod1 Mod2 Mod3 Mod4 Mod5", all, " "); for (i = 1; i <= count; i++) bit[all[i]] = 2 ^ (i - 1) }
    { keysyms = $3 == "-" || $3 == "?" ? "" : $3 " "; gsub(/,/, " ", keysyms); print keysyms ":", mask($5), mask($6), mask($7) }'
by_library() {
    [ -x "$work/compositor" ] || return 0
    "$work/compositor" "$1" library.image < events > library.answers 2> library.said || { echo "library-refuses $(head -1 library.said)"; return; }
    cmp -s "$2" library.image || { echo 'library-image-otherwise'; return; }
    [ ! -s events ] || [ "$(awk "$answers_of" answers)" = "$(sed 's/ [^ ]* [^ ]* [^ ]*$//' library.answers)" ] || echo 'library-otherwise'
}

# The image of what is printed of an image is its newest image. (Past 1 MiB of text nothing is promised.)
prints_again() {
    run text print "$1" || return
    [ "$status" -eq 0 ] || { echo "print-refuses $(head -1 text)"; return; }
    run line upgrade "$1" newest || return
    [ "$(wc -c < text)" -le 1048576 ] || return 0
    run line compile --quiet text again || return
    [ "$status" -eq 0 ] || { echo "printed-refused $(cat line)"; return; }
    cmp -s newest again || { echo 'printed-otherwise'; return; }
    # The image itself is opened, and the library compiles the text.
    [ -s events ] || return 0
    run answers replay "$1" < events || return
    by_library text newest
}

# differs KIND: tries the case in this folder, and says in a line what differs, or nothing; `apart` where a difference is
# known, `refused-by-both` where there is nothing to compare.
differs() {
    rm -f image again newest
    case $1 in
        image)
            run text print case.image || return
            if [ "$status" -eq 0 ]; then
                awk "$keys_of" text > keys
                [ -s events ] || "$work/make" events "$number" "$(chosen_order image)" < keys > events
                prints_again case.image
            else
                "$program" replay case.image < /dev/null > answers 2> /dev/null
                if cmp -s text answers; then echo refused-by-both; else echo 'image-refused-otherwise'; fi
            fi
            return
            ;;
    esac
    run line compile --quiet -I "$data" source image || return
    if [ "$status" -ne 0 ]; then
        # A session is refused alike, and a source that isn't disordered by both or none.
        if ! grep -qx '%%' source; then
            "$program" try --quiet -I "$data" < source > answers 2> /dev/null
            cmp -s line answers || echo 'session-refused-otherwise'
        fi
        if [ "$1" != disorder ] && "$work/player" source events 1 > /dev/null 2>&1; then
            echo "refused $(cat line)"
        else
            echo refused-by-both
        fi
        return
    fi
    run text print image || return
    awk "$keys_of" text > keys
    [ -s events ] || "$work/make" events "$number" "$(chosen_order "$1")" < keys > events
    prints_again image
    run answers replay image < events || return
    if ! grep -qx '%%' source; then
        { cat source; echo '%%'; cat events; } | "$program" try --quiet -I "$data" > session 2> /dev/null
        cmp -s answers session || echo 'session-otherwise'
    fi
    [ "$1" != disorder ] || return 0
    if grep -q several keys; then echo apart; return; fi
    XKB_LOG_LEVEL=error "$work/player" source check answers > fields 2> player.said || { echo "taken-$(why player.said) $(head -1 player.said)"; return; }
    [ ! -s fields ] || echo "$(head -1 fields)"
}

# Why libxkbcommon refuses a source, in one word without numbers and names.
why() { sed -n '1{s/.*ERROR: //; s/"[^"]*"//g; s/<[^>]*>//g; s/[^A-Za-z][^A-Za-z]*/-/g; p;}' "$1" | cut -c 1-40; }

# Latches are tried by themselves, in a third of the random sources that have any; in layouts there are keys without an action here
# that leave a latch there.
chosen_order() {
    if [ "$1" = source ] && grep -q latch keys && [ $((number % 3)) -eq 0 ]; then echo latches; else sed -n 's/^order //p' keys; fi
}

label() { differs "$1" | head -1 | cut -d ' ' -f 1; }

# Cuts a file down by lines: leaves out as many as can be, so that the same differs, but for those that frame sections, without
# which others would. Words: kind, file, what differs.
cut_down() {
    local kind=$1 file=$2 wanted=$3 size at count
    cp "$file" whole.cut
    size=$(($(wc -l < "$file") / 2))
    while [ "$size" -ge 1 ]; do
        at=1
        count=$(wc -l < whole.cut)
        while [ "$at" -le "$count" ]; do
            awk -v from="$at" -v to="$((at + size - 1))" 'NR < from || NR > to || /^xkb_|^};$|^type "ONE_LEVEL"/' whole.cut > "$file"
            if ! cmp -s "$file" whole.cut && [ "$(label "$kind")" = "$wanted" ]; then
                cp "$file" whole.cut
                count=$(wc -l < whole.cut)
            else
                at=$((at + size))
            fi
        done
        size=$((size / 2))
    done
    mv whole.cut "$file"
}

# Events are cut to those before what differs, and then by keys: a press goes with its releases.
cut_events() {
    local kind=$1 wanted=$2 code
    for code in $(cut -d ' ' -f 2 events | sort -un); do
        cp events whole.cut
        grep -v " $code\$" whole.cut > events
        [ -s events ] && [ "$(label "$kind")" = "$wanted" ] || cp whole.cut events
    done
    rm -f whole.cut
}

keeps() {
    local kind=$1 said=$2 wanted=${2%% *} kept
    kept=$keep/$seed-$number-$wanted
    mkdir -p "$keep"
    [ "$(find "$keep" -mindepth 1 -maxdepth 1 | wc -l)" -lt 100 ] || { echo "soak: $number: $said"; return; }
    mkdir -p "$kept"
    for file in source events case.image names; do [ ! -f "$file" ] || cp "$file" "$kept/$file.whole"; done
    if [ "$kind" != image ]; then
        cut_down "$kind" source "$wanted"
        [ ! -s events ] || cut_events "$kind" "$wanted"
        cut_down "$kind" source "$wanted"
    fi
    for file in source events case.image; do [ ! -f "$file" ] || cp "$file" "$kept/$file"; done
    { echo "seed $seed, case $number, $kind"; echo "$said"; echo 'cut down:'; differs "$kind"; } > "$kept/said"
    echo "soak: $kept: $said"
}

# One case, whose number chooses what it is; the processor's time of each program in it is bounded.
tries() {
    ulimit -t 20
    local kind said
    rm -f ./*
    case $((number % 8)) in
        0 | 1 | 2) kind=source ;;
        3) kind=names ;;
        4 | 5) kind=disorder ;;
        *) kind=image ;;
    esac
    if [ "$kind" = names ]; then
        "$work/make" names "$number" < "$work/lists" > names
        mapfile -t words < names
        "$program" rules "${words[@]}" > source 2> /dev/null || { echo apart > "$work/result"; return; }
    else
        "$work/make" source "$number" > source
    fi
    case $kind in
        disorder) "$work/make" disorder "$number" < source > disordered && mv disordered source ;;
        image)
            "$program" compile --quiet source made > /dev/null 2>&1 || { echo apart > "$work/result"; return; }
            "$work/make" change "$number" < made > case.image
            rm source made
            ;;
    esac
    said=$(differs "$kind" | head -1)
    case $said in
        '') echo same ;;
        apart | refused-by-both) echo "$said" ;;
        *) keeps "$kind" "$said" >&2; echo differs ;;
    esac > "$work/result"
}

mkdir -p "$work/case" && cd "$work/case" || exit 2
start=$(date +%s)
cases=0 differ=0 apart=0 refused=0
number=$((seed * 100000000))
while [ $(($(date +%s) - start)) -lt "$seconds" ]; do
    number=$((number + 1))
    echo differs > "$work/result"
    (tries)
    cases=$((cases + 1))
    case $(cat "$work/result") in
        differs) differ=$((differ + 1)) ;;
        apart) apart=$((apart + 1)) ;;
        refused-by-both) refused=$((refused + 1)) ;;
    esac
done
echo "soak: seed $seed, $cases cases ($refused refused, $apart known to differ), $differ differ"
[ "$differ" -eq 0 ]
