# shellcheck shell=sh disable=SC2154
# Pictures of keyboards, the keys that give a keysym, and names of keysyms in headers.

# shown TEXT: the output of the last run has this text.
shown() {
    holds "standard output shows: $1" grep -qF -e "$1" ../out
}

# said TEXT: standard error of the last run has this text.
said() {
    holds "standard error says: $1" grep -qF -e "$1" ../err
}

# draws TEXT WORD..: a picture of a keymap has this text.
draws() {
    text=$1
    shift
    "$program" show "$@" > ../out 2> ../err
    shown "$text"
}

cat > board <<'END'
xkb_keymap {
xkb_keycodes { <AE01>=10; <AC01>=38; <LFSH>=50; <RALT>=108; <KPAD>=86; <I99>=99; };
xkb_types { type "TWO" { modifiers=Shift+Lock; map[Shift]=Level2; map[Lock]=Level2; level_name[Level2]="x"; };
type "FOUR" { modifiers=Shift+Mod5; map[Shift]=Level2; map[Mod5]=Level3; map[Shift+Mod5]=Level4; }; };
xkb_compat { interpret Shift_L+Any { action=SetMods(modifiers=Shift); }; };
xkb_symbols { name[1]="Board"; key <AE01> { type="FOUR", [1, exclam, onesuperior, dead_acute] };
key <AC01> { type="TWO", [a, A], type[2]="TWO", symbols[2]=[U444, less] };
key <LFSH> {[Shift_L]}; key <RALT> {[ISO_Level3_Shift]}; key <KPAD> {[KP_Add]}; key <I99> {type="TWO", [U1f600, { x, y }]};
modifier_map Shift { Shift_L }; }; };
END
"$program" compile board board.image > ../out 2> ../err
status=0
"$program" show board.image > ../out 2> ../err || status=$?
holds 'show: status 0' [ "$status" -eq 0 ]
shown 'group 1 of 2: Board'
shown '│◌´  │'
shown '│¹   │'
shown '│A   │'
shown '│Shift│'
shown 'I99 😀'
holds 'show: at most 80 columns' [ "$(LC_ALL=C.UTF-8 wc -L < ../out)" -le 80 ]
"$program" show --group 2 board.image > ../out 2> ../err
shown 'group 2 of 2'
shown '│ф   │'
"$program" show --svg board.image > ../out 2> ../err
shown '<svg xmlns="http://www.w3.org/2000/svg"'
shown 'class="dead"'
shown 'class="mod"'
shown 'prefers-color-scheme: dark'
"$program" show --group 2 --svg board.image > ../out 2> ../err
shown '&lt;'
holds 'show --svg: the drawing ends' [ "$(tail -n 1 ../out)" = '</svg>' ]
gives 2 '' show --group 3 board.image
said "error: '3' is no group of this keymap, which has 2 groups"
gives 2 '' show --group 3 --svg board.image
gives 2 '' show --group 2 two
said "error: '2' is no group of this keymap, which has 1 group"
gives 1 'I1 Truncated' show none
gives 3 'cannot use nothing' show nothing

gives 0 'AC01 code=38 group=1 level=2 hold=Shift,Lock keys=Shift (LFSH)' find board.image A
gives 0 'AC01 code=38 group=1 level=1 hold=none' find board.image a
gives 0 'AC01 code=38 group=2 level=1 hold=none' find board.image ф
gives 0 'AE01 code=10 group=1 level=4 hold=Shift+Mod5 keys=-' find board.image dead_acute
gives 0 'I99 code=99 group=1 level=1 hold=none' find board.image 0x101f600
gives 0 'I99 code=99 group=1 level=2 hold=Shift,Lock keys=Shift (LFSH)' find board.image y
gives 1 'no key gives z' find board.image z
said "no level of a key has the keysym 'z'"
gives 1 'no key gives €' find board.image €
said "no level of a key has the keysym '€'"
gives 1 'no keysym is named nosuch' find board.image nosuch
echo 'mine 0x61' > names
gives 0 'AC01 code=38 group=1 level=1 hold=none' find --names names board.image mine

# Characters by keysyms of several sets, some that can't be seen, and dead keys; modifiers that are held, latched and locked.
cat > letters <<'END'
xkb_keymap {
xkb_keycodes { <AE01>=10; <AE02>=11; <AE03>=12; <AE04>=13; <AD01>=24; <AD02>=25; <AD03>=26; <AC01>=38; <FK10>=76;
<LFSH>=50; <RTSH>=62; <CAPS>=66; <RALT>=108; <LCTL>=37; <I90>=90; <I91>=91; };
xkb_types {
type "TWO" { modifiers=Shift; map[Shift]=Level2; };
type "FOUR" { modifiers=Shift+Mod5; map[Shift]=Level2; map[Mod5]=Level3; map[Shift+Mod5]=Level4; };
type "OTHER" { modifiers=Mod2+Mod3; map[Mod2]=Level2; map[Mod3]=Level2; }; };
xkb_compat { interpret Shift_L { action=SetMods(modifiers=Shift); }; interpret Shift_R { action=SetMods(modifiers=Shift); };
interpret ISO_Level3_Latch { action=LatchMods(modifiers=Mod5); }; interpret Caps_Lock { action=LockMods(modifiers=Mod2); };
interpret F13 { action=SetMods(modifiers=Mod3); }; interpret F14 { action=SetMods(modifiers=Mod5); }; };
xkb_symbols {
key <AE01> { type="FOUR", [EuroSign, 0x10020ac, Arabic_seen, kana_A] };
key <AE02> { type="FOUR", [Thai_kokai, Thai_sarau, hebrew_aleph, Cyrillic_a] };
key <AE03> { type="FOUR", [U200C, U200F, U2066, UE0001] }; key <AE04> { type="TWO", [0x100000a, emspace] };
key <AD01> { type="FOUR", [dead_acute, dead_belowdot, ampersand, less] }; key <AD02> { type="OTHER", [x, y] };
key <AD03> { type="TWO", [{ U0644, U0627 }, radical] };
key <AC01> { type="FOUR", [Redo, Redo, XF86Launch1, Redo] }; key <FK10> { type="FOUR", [F10, F10, F10, XF86Switch_VT_10] };
key <LFSH> {[Shift_L]}; key <RTSH> {[Shift_R]}; key <CAPS> {[Caps_Lock]}; key <RALT> {[ISO_Level3_Latch]}; key <LCTL> {[F13]};
key <I90> {[F14]}; key <I91> {[KP_7]};
}; };
END
"$program" compile letters letters.image > ../out 2> ../err
gives 0 'AE01 code=10 group=1 level=1 hold=none
AE01 code=10 group=1 level=2 hold=Shift keys=Shift (LFSH/RTSH)' find letters.image €
gives 0 'AE01 code=10 group=1 level=1 hold=none' find letters.image EuroSign
gives 0 'AE01 code=10 group=1 level=3 hold=Mod5 keys=press AltGr (RALT) first' find letters.image س
gives 0 'AE01 code=10 group=1 level=4 hold=Shift+Mod5 keys=Shift (LFSH/RTSH) + press AltGr (RALT) first' find letters.image ア
gives 0 'AE02 code=11 group=1 level=4 hold=Shift+Mod5 keys=Shift (LFSH/RTSH) + press AltGr (RALT) first' find letters.image а
gives 0 'AD02 code=25 group=1 level=2 hold=Mod2,Mod3 keys=toggle Caps Lock (CAPS) or F13 (LCTL)' find letters.image y
gives 0 'AD03 code=26 group=1 level=2 hold=Shift keys=Shift (LFSH/RTSH)' find letters.image √
gives 0 'I91 code=91 group=1 level=1 hold=none' find letters.image 7
draws '│ア  │' letters.image
shown '│س   │'
shown '│€   │'
shown '│◌ุ   │'
shown '│א   │'
shown '│LRI │'
shown '│RLM │'
shown '│ZWNJ│'
shown '│UE00│'
shown '│emsp│'
shown '│◌´  │'
shown '│◌̣   │'
shown '│لا  │'
shown '│VT10│'
hidden=$(printf '\342\200\217\|\342\201\246\|\342\200\214')
holds 'show: no character that only tells how text is laid out' [ "$(grep -c -e "$hidden" ../out)" -eq 0 ]
holds 'show: at most 80 columns with letters of all widths' [ "$(LC_ALL=C.UTF-8 wc -L < ../out)" -le 80 ]
draws '>◌́</text>' --svg letters.image
shown '>F10</text>'
shown '>VT10</text>'
shown '>&amp;</text>'
shown '>&lt;</text>'
shown '>س</text>'
holds 'show --svg: a word that stands on a key already stands once' [ "$(grep -c '>Redo</text>' ../out)" -eq 1 ]

cat > header.h <<'END'
#ifndef HEADER
#define HEADER 1
#define XKB_KEY_NoSymbol 0x000000  /* Special KeySym */
#define XKB_KEY_3270_Copy                    0xfd15
#define XKB_KEY_Greek_alpha	0x07e1  /* U+03B1 */
#define XK_Greek_beta  0x07e2
  #define XK_Greek_gamma  0x07e3
#define XF86XK_Mail             0x1008FF19
#define XF86XK_Next_VMode       0x1008FE22
#define XF86XK_BrightnessAuto   _EVDEVK(0x0f4)
#define SunXK_F36               0x1005FF10
#define XK_a                    0x0062
#define XK_U1234                0x1001234
#define XK_Greek_alpha          0x07e9
#define XK_Other XK_Greek_beta
#define XK_Great                0x20000000
END
gives 0 'Greek_alpha 0x7e1
Greek_beta 0x7e2
Greek_gamma 0x7e3
XF86Mail 0x1008ff19
XF86Next_VMode 0x1008fe22
XF86BrightnessAuto 0x100810f4
SunF36 0x1005ff10' names header.h header.h
cp ../out names
gives 0 "$notes" compile --names names source out
gives 3 'cannot use nothing' names header.h nothing
