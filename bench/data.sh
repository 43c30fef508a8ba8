# Sets `data`, the folder of xkb-data's files. For the scripts beside it that go over its layouts.
data=/usr/share/X11/xkb

# The layouts of xkb-data, each alone and with each of its variants.
all_layouts() {
    awk '/^!/ { part = $2; next }
        part == "layout" && NF && $1 != "custom" { print $1 }
        part == "variant" && NF { sub(/:$/, "", $2); print $2 "(" $1 ")" }' "$data/rules/evdev.lst"
}

# source_of LAYOUT: the source that includes the layout's files.
source_of() {
    printf 'xkb_keymap {\nxkb_keycodes { include "evdev+aliases(qwerty)" };\nxkb_types { include "complete" };\nxkb_compat { include "complete" };\nxkb_symbols { include "pc+%s+inet(evdev)" };\n};\n' "$1"
}
