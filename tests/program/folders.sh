# shellcheck shell=sh disable=SC2154
# Files that includes reach in folders.

# says LINE: standard error of the last run has this line.
says() {
    holds "standard error says: $1" grep -qxF -e "$1" ../err
}

mkdir -p lib/keycodes lib/symbols more/symbols away
echo 'xkb_keycodes { <A>=38; };' > lib/keycodes/codes
echo 'default xkb_symbols "x" { include "deeper(b)" }; xkb_symbols "never" { include "missing" };' > lib/symbols/plain
echo 'xkb_symbols "b" { key <A> {[a]}; };' > lib/deeper
echo 'xkb_symbols { key <A> {[b]}; };' > away/other
echo 'xkb_symbols { key <A> {[foo]}; key <B> { bar }; };' > more/symbols/wrong
# including NAME: a source that includes the codes, and symbols of that name.
including() {
    echo "xkb_keymap { xkb_keycodes { include \"codes\" }; xkb_symbols { include \"$1\" }; };" > short
}

including plain
gives 0 "$notes" compile -I lib short out
holds 'an image of files that are found' cmp -s out two
gives 0 "$notes" compile --include=more -I lib short out
holds 'a second folder' cmp -s out two
{ cat short; echo %%; cat events; } > short_session
gives 0 "$answers" try -I lib < short_session
{ cat short; printf '%%%%\ndown 38\nup 38'; } > short_session
gives 0 "$answers" try --include lib < short_session
gives 0 "$notes" compile -I lib short out plain=away/other
holds 'a word comes before a folder' [ "$("$program" find out b)" = 'A code=38 group=1 level=1 hold=none' ]

# A file is scanned up to the map that is named, and on from there where another is.
echo 'xkb_symbols "x" { key <A> {[c]}; };' > lib/symbols/late
echo 'xkb_symbols { key <A> {[d]}; };' > lib/symbols/later
echo 'xkb_symbols "one" { key <A> {[b]}; }; xkb_symbols "two" { include "late" };' > lib/symbols/many
including 'many'
gives 0 "$notes" compile -I lib short out
holds 'the first map is the default one' [ "$("$program" find out b)" = 'A code=38 group=1 level=1 hold=none' ]
echo 'default xkb_symbols "three" { include "later" };' >> lib/symbols/many
for names in 'many(one)=b' 'many(two)=c' 'many=d' 'many(one)+many(two)=c' 'many(two)+many=d' 'many+many(one)=b'; do
    including "${names%=*}"
    gives 0 "$notes" compile -I lib short out
    holds "$names" [ "$("$program" find out "${names#*=}")" = 'A code=38 group=1 level=1 hold=none' ]
done

# What isn't there.
for name in missing ../symbols/plain x/../plain /etc/passwd symbols 'plain/'; do
    including "$name"
    echo old > kept
    gives 1 "F9 FileMissing at 0:69-$((71 + ${#name}))" compile -I lib short kept
    keeps "$name" kept
done
ln -s ../../away/other lib/symbols/outside
ln -s plain lib/symbols/inside
ln -s "$PWD/lib" linked
including outside
gives 1 'F9 FileMissing at 0:69-78' compile -I lib short kept
says "short:1:70: error: no file 'outside' is handed in: add outside=PATH, or -I DIR where DIR/symbols/outside is"
says 'looked for in lib'
gives 1 'F9 FileMissing at 0:69-78' try -I lib --include=more < short
says 'looked for in lib'
says 'looked for in more'
gives 1 'F9 FileMissing at 0:36-43' compile short kept
holds 'no folder is told where none was named' [ "$(grep -c 'looked for' ../err)" -eq 0 ]
including inside
gives 0 "$notes" compile -I linked short out
gives 3 'cannot use nothing' compile -I nothing short kept
gives 3 'cannot use source' compile -I source short kept
gives 3 'cannot use nothing' try -I nothing < short_session
gives 3 'P4 Read' try -I lib < .

# What is found is named by its path below the folder.
including wrong
gives 1 'F14 UnknownField at 2:41-44' compile -I lib -I more short kept
says "symbols/wrong:1:42: error: 'bar' is no field of a key; there are type, symbols, actions, vmods, groupsWrap, groupsClamp, groupsRedirect, repeat, lock, radioGroup, allowNone, overlay"
says 'included from short:1:70'

# Notes, with their places.
echo 'xkb_symbols { key <A> {[foo]}; };' > more/symbols/wrong
gives 0 'notes keysyms=1 keys=0 types=0 levels=0 actions=0' compile -I lib -I more short out
says "symbols/wrong:1:25: warning: no keysym is named 'foo'"
gives 0 'notes keysyms=5 keys=3 types=2 levels=1 actions=4' compile noted out
says "noted:2:25: warning: no keysym is named 'no1'"
says 'noted:3:5: warning: no keycode is named <C>'
says "noted:2:5: warning: group 1 of <A> has the type ONE_LEVEL, since no type 'T' is declared"
says "noted:2:5: warning: group 1 of <A> has 2 levels, and its type 'ONE_LEVEL' has 1: the others are lost"
says "noted:4:11: warning: the action 'MovePtr' has no effect (4 places)"
holds 'as many lines as places, and four of a key that is written again' [ "$(wc -l < ../err)" -eq 16 ]
gives 0 'notes keysyms=5 keys=3 types=2 levels=1 actions=4' compile --quiet noted out
holds 'nothing is said where it is to be quiet' [ ! -s ../err ]
{
    echo 'xkb_keymap { xkb_keycodes { <A>=38; }; xkb_symbols { key <A> { [{'
    for number in 1 2 3 4 5 6 7 8; do echo "no$number,"; done | sed '$ s/,$//'
    echo '},{'
    for number in 11 12 13 14 15 16 17 18; do echo "no$number,"; done | sed '$ s/,$//'
    echo '},{'
    for number in 21 22 23 24 25 26 27 28; do echo "no$number,"; done | sed '$ s/,$//'
    echo '}] }; }; };'
} > many
gives 0 'notes keysyms=24 keys=0 types=1 levels=0 actions=0' compile many out
says 'many: and 4 more keysyms have no name here; --warn all shows them'
holds 'twenty lines of a kind' [ "$(grep -c 'no keysym is named' ../err)" -eq 20 ]
gives 0 'notes keysyms=24 keys=0 types=1 levels=0 actions=0' compile --warn all many out
holds 'each place where all are asked for' [ "$(grep -c 'no keysym is named' ../err)" -eq 24 ]
gives 0 'notes keysyms=24 keys=0 types=1 levels=0 actions=0' compile --warn all --quiet many out
holds 'nothing is said of all where it is to be quiet' [ ! -s ../err ]

# What a session passes over is said before its answers, whether it has words or not.
{
    echo 'xkb_keymap { xkb_keycodes { <A>=38; };'
    echo 'xkb_symbols { key <A> { [EuroSing, a] }; }; };'
    echo %%
    echo down 38
} > slip
answer='38 down - consumed=none base=none latched=none locked=none group=1'
for words in '' try 'try -I lib'; do
    # shellcheck disable=SC2086
    gives 0 "$answer" $words < slip
    says "<stdin>:2:26: warning: no keysym is named 'EuroSing'; 'EuroSign' is one"
done
for words in 'try --quiet' 'try --quiet -I lib'; do
    # shellcheck disable=SC2086
    gives 0 "$answer" $words < slip
    holds "$words says nothing" [ ! -s ../err ]
done
{ echo 'xkb_keymap { xkb_symbols { key <A> { [foo] }; bar=1; }; };'; } > slip
gives 1 'F14 UnknownField at 0:46-49' try < slip
holds 'a source that is refused shows its fault alone' [ "$(grep -c warning ../err)" -eq 0 ]

# Files of the author's folders come before those that are installed, in which places are counted.
data=/usr/share/X11/xkb
if [ -f "$data/symbols/us" ] && [ -f "$data/compat/complete" ]; then
    mkdir -p own/symbols
    {
        echo 'xkb_keymap { xkb_keycodes { include "evdev" }; xkb_types { include "complete" };'
        echo 'xkb_compat { include "complete" };'
        echo 'xkb_symbols { include "pc+us+inet(evdev)+mine" key <AE01> { [frobnicate] }; }; };'
    } > desk
    echo 'xkb_symbols { key <AE02> { [frobnicated] }; };' > own/symbols/mine
    "$program" compile --names /dev/null -I "$data" -I own desk out > ../out 2> ../err
    says "desk:3:62: warning: no keysym is named 'frobnicate'"
    says "symbols/mine:1:29: warning: no keysym is named 'frobnicated'"
    holds 'the source first, then the files of the folder' [ "$(head -n 2 ../err | cut -d: -f1 | tr '\n' ' ')" = 'desk symbols/mine ' ]
    holds 'then a line for each installed file' [ "$(tail -n +3 ../err | grep -cvE '^[a-z]+/[a-z0-9_]+: [1-9][0-9,]* [a-z]+ .*; --warn all shows them$')" -eq 0 ]
    holds 'no installed file twice' [ -z "$(tail -n +3 ../err | cut -d: -f1 | sort | uniq -d)" ]
    holds 'of symbols/inet too' grep -qE '^symbols/inet: [0-9,]+ keysyms have no name here; --warn all shows them$' ../err
    inet=$(sed -n 's/^symbols\/inet: \([0-9,]*\) keysyms.*/\1/p' ../err | tr -d ,)
    "$program" compile --names /dev/null --warn all -I "$data" -I own desk out > ../out 2> ../err
    holds 'all of its places' [ "$(grep -cE '^symbols/inet:[0-9]+:[0-9]+: warning: no keysym is named ' ../err)" -eq "$inet" ]
    holds 'the source first where all are shown' [ "$(head -n 1 ../err | cut -d: -f1)" = desk ]
fi
