#!/bin/sh
# Draws the house at the head of docs/CONTRIBUTING.md again, between its two marker lines: each crate of crates.txt in the
# stage that the list below names, with what the first line of its source says. `docs/house.sh --check` writes nothing, and
# ends with status 1 where the drawing is another. It fails where a crate has no stage, or two, or stands in one before a
# crate that is lower in crates.txt.
set -eu
case ${1-} in
    '' | --check) ;;
    *)
        echo 'usage: docs/house.sh [--check]' >&2
        exit 2
        ;;
esac
top=$(cd "$(dirname "$0")/.." && pwd)
page=$top/docs/CONTRIBUTING.md
drawn=$(mktemp "$page.XXXXXX")
trap 'rm -f "$drawn" "$drawn.house"' EXIT

# A line is a part of the house, or a stage and its crates; a stage may take several.
stages() {
    cat << 'END'
= Below all
words kx_basics kx_ordered ks_core kx_mods kx_text
= A keymap's way
text
tokens kx_lex
tree kx_tree kx_parse
includes kx_include
sections kx_merge kx_codes kx_virtual_mods kx_actions kx_types kx_key_lists kx_key_fields
sections kx_symbols kx_modmaps kx_compat kx_group_names kx_indicators
resolved kx_builder kx_keys kx_resolve kx_source
tables kx_tables
image kx_image
= A key's way, over tables or an image
keyboard kx_run
= Both
calls kx_lines kx_tool kx_headline
= Beside them
print kx_print
clients kx_clients kx_client_text
round-trip roundtrip_text roundtrip_tree roundtrip_meaning kx_roundtrip
names kx_rule_lines kx_rules rules_tree kx_names
program kx_reach kx_files kx_explain kx_noted kx_show kx_failure kx_words kx_keymaps kx_program xkc
C kx_slots kx_handles kx_told kx_sources kx_calls xkc_c
example compositor
tests cases library_tests
END
}

# The first line of each crate's source: `NAME TEXT`.
firsts() {
    sed -n 's/^\([a-z][a-z_]*\).*:.*/\1/p' "$top/crates.txt" | while read -r name; do
        source=$top/crates/$name/src/lib.rt
        [ -f "$source" ] || source=$top/crates/$name/src/main.rt
        printf '%s %s\n' "$name" "$(sed -n '1s,^//! ,,p' "$source")"
    done
}

{ firsts; stages; } | awk '
    # What a first line says, to the end of its first sentence or of a part of one, in one line of the drawing.
    function said(text,    length_of) {
        length_of = match(substr(text, 20), /[.:;]( |$)/)
        if (length_of) text = substr(text, 1, 19 + length_of - 1)
        while (length(text) > 60 && match(text, /,[^,]*$/)) text = substr(text, 1, RSTART - 1)
        gsub(/`/, "", text)
        return text
    }
    function wrong(what) {
        print "docs/house.sh: " what > "/dev/stderr"
        failed = 1
        exit 1
    }
    !staged && $1 != "=" {
        place[$1] = ++count
        name[count] = $1
        text = $0
        sub(/^[^ ]* /, "", text)
        line[$1] = said(text)
        next
    }
    $1 == "=" {
        if (staged) print ""
        staged = 1
        print substr($0, 3)
        next
    }
    {
        if ($1 != stage) before = 0
        if (NF == 1) printf "  %-11s %s\n", $1, "a source and the files that it includes"
        for (i = 2; i <= NF; i++) {
            if (!($i in place)) wrong($i " is not in crates.txt")
            if ($i in drawn) wrong($i " stands in two stages")
            if (place[$i] < before) wrong($i " stands before " name[before] " in crates.txt")
            before = place[$i]
            drawn[$i] = 1
            printf "  %-11s %-18s %s\n", ($1 == stage ? "" : $1), $i, line[$i]
            stage = $1
        }
    }
    END {
        if (failed) exit 1
        for (i = 1; i <= count; i++) if (!(name[i] in drawn)) wrong(name[i] " has no stage")
    }' > "$drawn.house"

awk -v house="$drawn.house" '
    /^<!-- house: docs\/house\.sh -->$/ {
        print
        print "```"
        while ((getline drawn_line < house) > 0) print drawn_line
        print "```"
        inside = 1
        marks++
        next
    }
    /^<!-- house ends -->$/ { inside = 0; marks++ }
    !inside { print }
    END { exit marks == 2 ? 0 : 1 }' "$page" > "$drawn" || {
    echo "docs/house.sh: $page has not the two marker lines" >&2
    exit 1
}
if [ "${1-}" = --check ]; then
    cmp -s "$drawn" "$page" || {
        echo 'docs/house.sh: the house in docs/CONTRIBUTING.md is to be drawn again' >&2
        exit 1
    }
    exit 0
fi
chmod 644 "$drawn"
mv "$drawn" "$page"
