#!/bin/sh
# Runs each case of crates/cases/data/meaning.cases through libxkbcommon, and compares what it answers with the comment
# `# libxkbcommon: ..` below the case. Needs Debian's libxkbcommon-dev; the comments are those of version 1.5.
set -eu
top=$(cd "$(dirname "$0")/.." && pwd)
work=$(mktemp -d)
trap 'rm -rf "$work"' EXIT
if ! pkg-config --exists xkbcommon; then
    echo 'libxkbcommon-dev is not installed'
    exit 0
fi
cc -O2 -Wall -Wextra -o "$work/player" "$top/bench/meaning/player.c" $(pkg-config --cflags --libs xkbcommon)

# Each case as a folder: its keymap, events and files, its name, and what is wanted.
awk -v work="$work" '
    function put(name, text) { printf "%s", text > (folder "/" name); close(folder "/" name) }
    # A word and its text, of which the lines that go on with it are a part.
    function take(    at, kept) {
        if (word == "frame" || word == "source" || word == "events") said[word] = text
        else if (word == "no-files") { for (kept in files) delete files[kept] }
        else if (word == "file") { at = index(text, ": "); files[substr(text, 1, at - 1)] = substr(text, at + 2) }
        word = ""
    }
    /^\|/ { text = text "\n" substr($0, 3); next }
    { take() }
    /^# libxkbcommon: / {
        folder = work "/" ++count
        system("mkdir -p " folder "/symbols " folder "/compat")
        at = index(said["frame"], "@")
        put("keymap", substr(said["frame"], 1, at - 1) said["source"] substr(said["frame"], at + 1))
        put("events", said["events"])
        put("name", name)
        put("wanted", substr($0, length("# libxkbcommon: ") + 1) "\n")
        for (kept in files) put((kept ~ /\// ? "" : "symbols/") kept, files[kept])
        next
    }
    /^#/ { name = substr($0, 3); next }
    { word = $1; text = substr($0, length(word) + 2) }
    END { print count }' "$top/crates/cases/data/meaning.cases" > "$work/count"

otherwise=0
for number in $(seq "$(cat "$work/count")"); do
    case=$work/$number
    "$work/player" "$case/keymap" "$case/events" "$case" > "$case/found"
    if ! cmp -s "$case/wanted" "$case/found"; then
        otherwise=$((otherwise + 1))
        printf '%s\n  wanted %s\n  found  %s\n' "$(cat "$case/name")" "$(cat "$case/wanted")" "$(cat "$case/found")"
    fi
done
echo "$(cat "$work/count") cases, $otherwise of them otherwise"
