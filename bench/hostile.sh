#!/bin/sh
# Prints the time in which `xkc compile` takes or refuses sources that are within every limit and made to be slow, each
# the lowest of 3 runs of the whole program. None should take more than two seconds.
set -eu
. "$(dirname "$0")/program.sh"

# timed NAME WORD..: runs `xkc compile` with these words
timed() {
    name=$1
    shift
    least=1000000000
    for turn in 1 2 3; do
        start=$(date +%s%N)
        "$program" compile "$@" > "$work/line" 2> /dev/null || true
        stop=$(date +%s%N)
        time=$(((stop - start) / 1000))
        [ "$time" -ge "$least" ] || least=$time
    done
    printf '%8d microseconds  %s: %s\n' "$least" "$name" "$(head -c 60 "$work/line")"
}

# run NAME [WORDS]: compiles $work/source
run() {
    name=$1
    shift
    timed "$name" "$work/source" "$work/image" "$@"
}

# include KIND WORD COUNT: a source that includes `a` so many times, by includes joined with WORD
including() {
    awk -v kind="$1" -v words="$2" -v count="$3" 'BEGIN {
        n = split(words, word, " ")
        print "xkb_keymap {\nxkb_keycodes {"
        if (kind != "keycodes") for (code = 0; code <= 4095; code++) printf "<K%d>=%d;\n", code, code
        if (kind != "keycodes") print "};\nxkb_" kind " {"
        for (i = 0; i < count; i++) printf "include \"%s\"\n", word[i % n + 1]
        print "};\n};"
    }' > "$work/source"
}

awk 'BEGIN { print "xkb_keymap { xkb_keycodes {"; for (i = 0; i < 140000; i++) print "<A>=1;"; print "}; };" }' > "$work/source"
run 'one name 140,000 times'

awk 'BEGIN { print "xkb_keymap { xkb_keycodes {"; for (i = 0; i < 80000; i++) printf "<%d>=%d;\n", i % 4096, (i * 7 + int(i / 4096)) % 4096; print "}; };" }' > "$work/source"
run '80,000 pairs, swapped over 4,096 names'

awk 'BEGIN { print "xkb_keymap { xkb_keycodes { <A>=1;"; for (i = 0; i < 60000; i++) printf "alias<%x>=<A>;\n", i; print "}; };" }' > "$work/source"
run '60,000 aliases'

awk 'BEGIN { print "xkb_keymap { xkb_keycodes { <A>=1; }; xkb_symbols { key <A> {"; for (g = 1; g <= 32; g++) { printf "%s[a", (g > 1 ? "," : ""); for (i = 1; i < 15600; i++) printf ",a"; print "]" } print "}; }; };" }' > "$work/source"
run 'half a million levels'

awk 'BEGIN {
    print "xkb_keymap {\nxkb_keycodes {"
    for (code = 0; code < 4096; code++) printf "<%x>=%d;", code, code
    print "};\nxkb_types { type \"T\" { modifiers=none; level_name[64]=\"\"; }; };\nxkb_compat {"
    for (mask = 1; mask < 256; mask++) printf "interpret Any+Exactly(%d){};interpret Any+AllOf(%d){};interpret Any+AnyOf(%d){};\n", mask, mask, mask
    print "};\nxkb_symbols { key.type=\"T\";"
    levels = "a"
    for (i = 1; i < 64; i++) levels = levels ",a"
    for (code = 0; code < 4096; code++) printf "key <%x> {[%s],symbols[32]=[a]};\n", code, levels
    print "};\n};"
}' > "$work/source"
run '765 interpretations for any keysym, over eight million levels'

awk 'BEGIN { print "xkb_keymap { xkb_keycodes { <A>=1; }; xkb_symbols { key <A> { ["; for (i = 0; i < 130000; i++) printf "%sq%d", (i ? "," : ""), i; print "] }; }; };" }' > "$work/source"
run '130,000 unknown names of keysyms'

awk 'BEGIN { print "xkb_keymap { xkb_symbols {"; for (i = 0; i < 40000; i++) printf "key <%d> { [a] };\n", i; print "}; };" }' > "$work/source"
run '40,000 unknown names of keys'

awk 'BEGIN { print "default xkb_keycodes {"; for (i = 0; i < 80000; i++) printf "<%d>=%d;\n", i % 4096, i % 4096; print "};" }' > "$work/codes"
awk 'BEGIN { print "default xkb_keycodes {"; for (i = 0; i < 60000; i++) printf "alias<%x>=<A>;\n", i; print "};" }' > "$work/aliases"
awk 'BEGIN { print "default xkb_symbols {"; for (i = 0; i < 4096; i++) printf "key <K%d> { [ a, b, c, d, e, f, g, h, i, j, k, l, m, n, o, p, q, r, s, t, u, v, w, x, y, z, a, b, c, d, e, f, g, h, i, j, k, l, m, n, o, p, q, r, s, t, u, v, w, x, y, z, a, b, c, d, e, f, g, h, i, j, k, l, m, n ] };\n", i; print "};" }' | head -c 1048000 | sed '$d' > "$work/keys"
echo '};' >> "$work/keys"
awk 'BEGIN { print "default xkb_symbols {"; for (i = 0; i < 4096; i++) printf "key <K%d> { [ A ] };\n", i; print "};" }' > "$work/other"

including keycodes a 4000
run 'a file of 80,000 pairs, included 4,000 times' a="$work/codes"
run 'a file of 60,000 aliases, included 4,000 times' a="$work/aliases"
including keycodes 'a b' 4000
run 'the two in turn' a="$work/codes" b="$work/aliases"
for step in 0 1; do
    awk -v step="$step" 'BEGIN { print "default xkb_keycodes {"; for (i = 0; i < 4096; i++) printf "<%d>=%d;\n", i, (i + step) % 4096; print "};" }' > "$work/codes$step"
done
run 'two files of keycodes with each other'"'"'s names, in turn' a="$work/codes0" b="$work/codes1"
for step in 0 1; do
    awk -v step="$step" 'BEGIN { for (i = 0; i < 236; i++) long = long "x"; print "default xkb_keycodes {"; for (i = 0; i < 4096; i++) printf "<%s%04d>=%d;\n", long, i, (i + step) % 4096; print "};" }' > "$work/codes$step"
done
run 'the same, with names of 240 bytes' a="$work/codes0" b="$work/codes1"
including symbols a 4000
run 'a file of 1 MB of keys, included 4,000 times' a="$work/keys"
including symbols a+a+a+a 1000
run 'the same, four at a time' a="$work/keys"
including symbols 'a b' 4000
run 'that file and another, in turn' a="$work/keys" b="$work/other"

# A map that is moved to a group, under augment: in one text, in statements, in turn with itself in another group, and with a key
# between that takes its values back.
awk 'BEGIN { print "default xkb_symbols {"; for (i = 0; i < 50000; i++) printf "key<K%d>{[a]};\n", i % 4096; print "};" }' > "$work/moved"
# augmenting COUNT TEXT BETWEEN..: a source with so many augment statements of TEXT, where @ is a group, 2 and 3 in turn
augmenting() {
    awk -v count="$1" -v text="$2" -v between="${3-}" 'BEGIN {
        print "xkb_keymap {\nxkb_keycodes {"
        for (code = 0; code <= 4095; code++) printf "<K%d>=%d;\n", code, code
        print "};\nxkb_symbols {"
        for (i = 0; i < count; i++) { word = text; gsub(/@/, 2 + i % 2, word); printf "augment \"%s\"\n%s\n", word, between }
        print "};\n};"
    }' > "$work/source"
}
parts=$(awk 'BEGIN { printf "a:2"; for (i = 1; i < 4000; i++) printf "|a:2" }')
including symbols "$parts" 1
run 'a file of 50,000 statements for 4,096 keys, 4,000 times to group 2 by |' a="$work/moved"
augmenting 4000 a:2
run 'the same by 4,000 statements' a="$work/moved"
augmenting 4000 a:@
run 'to groups 2 and 3 in turn' a="$work/moved"
augmenting 4000 a:@ 'replace key <K1> { [b] };'
run 'the same, with a key between that takes its values back' a="$work/moved"
augmenting 2000 'a:@|a:4' 'replace key <K1> { [b] };'
run 'the same with two parts, 2,000 times' a="$work/moved"

files=
for depth in 1 2 3 4 5 6 7 8 9 10; do
    echo "default xkb_symbols { include \"f$((depth + 1))\" include \"f$((depth + 1))\" };" > "$work/f$depth"
    files="$files f$depth=$work/f$depth"
done
including symbols f1 2
run 'includes that double, 11 deep' $files f11="$work/keys"

awk 'BEGIN { for (i = 0; i < 50000; i++) print "xkb_types{};"; print "xkb_symbols { };" }' > "$work/sections"
including symbols a 4000
run 'the last of 50,001 sections, included 4,000 times' a="$work/sections"

awk 'BEGIN { for (i = 0; i < 45000; i++) printf "xkb_symbols\"%d\"{};\n", i }' > "$work/named"
awk 'BEGIN { print "xkb_keymap {\nxkb_symbols {"; for (i = 44999; i >= 41000; i--) printf "include \"a(%d)\"\n", i; print "};\n};" }' > "$work/source"
run '4,000 of 45,000 maps of a file, each included once' a="$work/named"

awk 'BEGIN { print "xkb_keymap { xkb_keycodes { <A>=1; }; xkb_symbols { key <A> {[a"; for (i = 1; i < 200000; i++) printf ",a"; print "]};"; for (i = 0; i < 40000; i++) print "key<A>{[b]};"; print "}; };" }' > "$work/source"
run 'a key of 200,000 levels, and 40,000 statements that change its first'

# Names and keysyms by chance, and ones that fall into one place of a table that finds them by their hash.
cc -O2 -o "$work/collide" "$top/bench/collide.c"
for how in any alike; do
    "$work/collide" "$how" names 75000 > "$work/words"
    awk 'BEGIN { print "xkb_keymap { xkb_keycodes {" } { printf "<%s>=%d;", $0, NR % 4096 } END { print "}; };" }' "$work/words" > "$work/source"
    run "75,000 names of keys, $how"
    awk 'BEGIN { print "xkb_keymap { xkb_keycodes { <A>=1;" } NR <= 55000 { printf "alias<%s>=<A>;", $0 } END { print "}; };" }' "$work/words" > "$work/source"
    run "55,000 aliases, $how"
    awk 'BEGIN { print "xkb_keymap { xkb_types {" } { name[NR % 4096] = $0 } END { for (i = 0; i < 50000; i++) printf "type\"%s\"{};", name[i % 4096]; print "}; };" }' "$work/words" > "$work/source"
    run "50,000 statements of 4,096 key types, $how"
    awk 'NR <= 42000 { printf "xkb_symbols\"%s\"{};\n", $0 } END { print "default xkb_symbols{};" }' "$work/words" > "$work/named"
    including symbols a 1
    run "42,000 maps of a file, $how" a="$work/named"
    "$work/collide" "$how" keysyms 30000 > "$work/words"
    awk 'BEGIN { print "xkb_keymap { xkb_compat {" } { printf "interpret %s{};", $0 } END { print "}; };" }' "$work/words" > "$work/source"
    run "30,000 interpretations, $how"
    awk 'BEGIN { print "xkb_keymap { xkb_symbols { modifier_map Mod1 {" } { printf "%s%s", (NR > 1 ? "," : ""), $0 } END { print "}; }; };" }' "$work/words" > "$work/source"
    run "30,000 keysyms of modifier maps, $how"
done

# Rules of nearly 1 MiB, and names by the thousand. A folder has what the components name.
rules=$work/folder
mkdir -p "$rules/rules" "$rules/keycodes" "$rules/types" "$rules/compat" "$rules/symbols"
echo 'xkb_keycodes { <A>=1; };' > "$rules/keycodes/a"
echo 'xkb_types { };' > "$rules/types/a"
echo 'xkb_compat { };' > "$rules/compat/a"
echo 'xkb_symbols { key <A> {[a]}; };' > "$rules/symbols/a"
front='! model = keycodes types compat
  * = a a a
! layout = symbols
  * = a'

# named NAME [WORDS]: compiles what the rules make of the words
named() {
    name=$1
    shift
    timed "$name" --quiet -I "$rules" --rules r "$@" "$work/image"
}

many=$(awk 'BEGIN { for (i = 0; i < 10000; i++) printf "%so%d", (i ? "," : ""), i }')
{ echo "$front"; echo '! option = symbols'; awk 'BEGIN { for (i = 0; i < 50000; i++) printf "  p%d = +b\n", i }'; } > "$rules/rules/r"
named '50,000 rules for other options, and 10,000 options' --options "$many"
{ echo "$front"; awk 'BEGIN { for (i = 0; i < 40000; i++) printf "! option = symbols\n  p%d = +b\n", i }'; } > "$rules/rules/r"
named '40,000 mappings with a rule each, and 10,000 options' --options "$many"
{ echo "$front"; awk 'BEGIN { for (i = 0; i < 4000; i++) { printf "! $g%d =", i; for (k = 0; k < 30; k++) printf " o%d", (i * 7 + k) % 12000; print "" } print "! option = symbols"; for (i = 0; i < 30000; i++) printf "  $g%d = +b\n", i % 4000 }'; } > "$rules/rules/r"
named '4,000 groups of 30 options, 30,000 rules for them, and 10,000 options' --options "$many"
{ echo "$front"; awk 'BEGIN { for (i = 0; i < 500000; i++) printf "a " }'; } > "$rules/rules/r"
named 'a line of half a million words'
{ echo "$front"; awk 'BEGIN { for (i = 0; i < 300; i++) printf "! include %%S/r%d\n", i % 10 }'; } > "$rules/rules/r"
for part in 0 1 2 3 4 5 6 7 8 9; do
    awk -v next_part=$(((part + 1) % 10)) 'BEGIN { for (i = 0; i < 300; i++) printf "! include %%S/r%d\n", next_part }' > "$rules/rules/r$part"
done
named '300 includes of rules that include 300 each, over and over'
