#!/bin/sh
# Tests by chance, from outside: sources that chance writes, of which PROGRAM prints the image and compiles what it printed; and
# images with a changed byte, as CASES opens them, beside a slow reader in awk.
#   tests/chance.sh CASES PROGRAM
# Each source and each change that is otherwise is a line, and the last line counts them.
set -u
tests=$(cd "$(dirname "$0")" && pwd)
. "$tests/two_programs.sh"
work=$(mktemp -d) || exit 2
trap 'rm -rf "$work"' EXIT
cd "$work" || exit 2
LC_ALL=C
export LC_ALL

# What stands in some of the printed texts.
phrases() {
    cat << 'END'
<>= 4095
<#<"\>= 0
type "\012\377\303\244"
preserve[Shift+Lock]= Shift
level_name[64]
indicator "\011\000\177\303\244"
whichModState= base+effective
whichGroupState= none
groups= 0x80000002
name[32]= "a \042b\042\134"
symbols[32]
{ a, b, c, d, e, f, g, h }
0x1fffffff
{ VoidSymbol, U10FFFF }
SetMods(modifiers=Shift+Lock
LatchMods(modifiers=none
affect=neither
SetGroup(group=+0,clearLocks)
,clearLocks,latchToLock)
LockGroup(group=32)
groupsClamp
groupsRedirect= 32
modifier_map Control { <#<"\> }
modifier_map Mod5
END
}

# The printed text of a source's image compiles to that image, also where a name of the greatest keysym is known.
prints_again() {
    "$program" compile --quiet "$1" image > said && "$program" print image > text 2> said &&
        "$program" compile --quiet --names names text again > said && cmp -s image again
}

mkdir sources
awk -v count=1000 -v directory=sources -f "$tests/chance/sources.awk" "$tests/chance/sources.rules" || fails 'no sources'
echo 'zz 0x1fffffff' > names
: > texts
for source in sources/*; do
    if prints_again "$source"; then passed=$((passed + 1)); else fails "$(cat "$source")"; fi
    cat text >> texts
done
phrases > wanted
while IFS= read -r phrase; do
    grep -qF -e "$phrase" texts || fails "no printed text has '$phrase'"
done < wanted

# changes SIZE COUNT: so many changes by chance of one byte of an image of this size, as lines of cases. No image gives `?`, so
# CASES prints what it found of each.
changes() {
    awk -v size="$1" -v count="$2" 'BEGIN {
        for (state = 1; count > 0; count--) {
            state = (state * 16807) % 2147483647
            place = state % size
            state = (state * 16807) % 2147483647
            printf "changed %d:%02x ?\n", place, state % 256
        }
    }'
}

# opens KEYMAP COUNT: the image of a keymap with so many changes, each judged by the slow reader.
opens() {
    "$program" compile --quiet "$1" image > said || fails "$1: '$(cat said)'"
    od -An -v -tx1 image > bytes
    { sed -e '1s/^/source /' -e '2,$s/^/| /' "$1"; changes "$(wc -c < image)" "$2"; } > changes.cases
    "$cases" changes.cases > said || fails "$1: the cases end with '$(tail -n 1 said)'"
    sed -n 's/^  found  //p' said > found
    cat found >> opened
    awk -f "$tests/chance/images.awk" bytes found > judged
    sed '$d' judged
    read -r well _ wrong _ << END
$(tail -n 1 judged)
END
    passed=$((passed + well))
    failed=$((failed + wrong))
    [ "$((well + wrong))" -eq "$2" ] || fails "$1: $((well + wrong)) of $2 answers were judged"
}

: > opened
opens "$tests/chance/keymap" 20000
opens "$tests/../crates/cases/stdin" 2000
for kind in header type entry key group cell keysym indicator groupname name; do
    grep -q "I5 BadRecord $kind [0-9]" opened || fails "no change gives a bad $kind"
done
echo "$passed passed, $failed failed"
[ "$failed" -eq 0 ]
