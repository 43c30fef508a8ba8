# shellcheck shell=sh disable=SC2154
# Keymaps by their names: rules, folders, the environment, lists. Nothing that is installed here is looked at.
unset XDG_CONFIG_HOME XKB_DEFAULT_RULES XKB_DEFAULT_MODEL XKB_DEFAULT_LAYOUT XKB_DEFAULT_VARIANT XKB_DEFAULT_OPTIONS
own_home=${HOME-}
mkdir -p home/.config/xkb/rules home/.xkb/symbols kit/rules kit/keycodes kit/types kit/compat kit/symbols no_folders
HOME=$PWD/home
XKB_CONFIG_EXTRA_PATH=$PWD/no_folders/extra
XKB_CONFIG_ROOT=$PWD/kit
export HOME XKB_CONFIG_EXTRA_PATH XKB_CONFIG_ROOT

cat > kit/rules/evdev <<'END'
! $twin = us de
! model = keycodes types compat
  * = evdev complete complete
! layout = symbols
  $twin = base+%l%(v)
  * = base+%l
! layout[1] = symbols
  * = base+%l[1]%(v[1])
! layout[2] = symbols
  * = +%l[2]%(v[2]):2
! option = symbols
  grp:shifts = +group(shifts)
  caps:other = +caps
END
cat > kit/rules/evdev.lst <<'END'
! model
  pc105           Generic 105-key PC

! layout
  us              English (US)
  de              German
! variant
  neo             de: German (Neo 2)
  intl            us: English (intl.)
! option
  grp             Switching to another layout
  grp:shifts      Both Shifts together
END
echo 'xkb_keycodes { <A>=38; <B>=56; };' > kit/keycodes/evdev
echo 'xkb_types { };' > kit/types/complete
echo 'xkb_compat { };' > kit/compat/complete
echo 'xkb_symbols { key <B> {[z]}; };' > kit/symbols/base
echo 'xkb_symbols { key <A> {[a]}; };' > kit/symbols/us
echo 'default xkb_symbols { key <A> {[d]}; }; xkb_symbols "neo" { key <A> {[n]}; };' > kit/symbols/de
echo 'xkb_symbols "shifts" { key <B> {[ISO_Next_Group]}; };' > kit/symbols/group

# source SYMBOLS: the source whose symbols are those.
source_with() {
    printf '%s\n' 'xkb_keymap {' 'xkb_keycodes { include "evdev" };' 'xkb_types { include "complete" };' \
        'xkb_compat { include "complete" };' "xkb_symbols { include \"$1\" };" '};'
}

# means SYMBOLS WORD..: the words make that source, and its image.
means() {
    symbols=$1
    shift
    gives 0 "$(source_with "$symbols")" rules "$@"
    source_with "$symbols" > by_hand
    "$program" compile --quiet -I kit by_hand hand_image > ../out 2> ../err
    gives 0 "$notes" compile "$@" named_image
    holds "xkc compile $*: the image of $symbols" cmp -s hand_image named_image
}

gives 0 "$(source_with base+us)" rules
gives 0 "$(source_with base+us)" rules -I kit
means base+us --layout us
means base+us --layout=us --model pc105 --rules evdev --options ''
means 'base+de(neo)' --layout de --variant neo
means base+us+de:2 --layout us,de
means 'base+us+de(neo):2+group(shifts)' --layout ' us , de' --variant ,neo --options grp:shifts
holds 'two layouts' [ "$("$program" find named_image n)" = 'A code=38 group=2 level=1 hold=none' ]
means base+us --layout us -I kit
means base+us --layout us -I no_folders -I kit
gives 0 "$notes" compile --layout us --quiet -- --layout
holds 'OUT behind --' cmp -s -- --layout hand_image

# The other commands.
gives 0 'A code=38 group=1 level=1 hold=none' find --layout de --variant neo n
gives 0 'A code=38 group=1 level=1 hold=none' find -I kit --layout us a
gives 0 "$answers" try --layout us < events
gives 1 'P3 Line 1' try --layout us < session
"$program" compile --layout us named_image > ../out
"$program" print --layout us > named_text
"$program" compile --quiet named_text named_again > ../out
holds "the text of a layout by its name makes its image" cmp -s named_image named_again
gives 0 "$("$program" show named_image)" show --layout us
gives 0 "$("$program" show --svg named_image)" show --rules evdev --svg
gives 1 'no keysym is named nosuch' find --layout us nosuch
echo 'odd 0x1234567' > odd_names
gives 3 'cannot use nothing' show --names nothing --layout us
gives 1 'no key gives odd' find --names odd_names --layout us odd

# The environment.
XKB_DEFAULT_LAYOUT=de XKB_DEFAULT_VARIANT=neo XKB_DEFAULT_OPTIONS=grp:shifts
export XKB_DEFAULT_LAYOUT XKB_DEFAULT_VARIANT XKB_DEFAULT_OPTIONS
means 'base+de(neo)+group(shifts)' --model pc105
means 'base+us+group(shifts)' --layout us
means 'base+de(neo)' --layout '' --options ''
unset XKB_DEFAULT_LAYOUT
means 'base+us+group(shifts)' --model ''
unset XKB_DEFAULT_VARIANT XKB_DEFAULT_OPTIONS
XKB_DEFAULT_RULES=none
export XKB_DEFAULT_RULES
means base+us --rules evdev
gives 3 'cannot use rules/none' compile --layout us kept
says "error: no folder has 'rules/none': -I DIR names one"
says "looked for in $PWD/kit"
holds 'a folder that is not there is not told' [ "$(grep -c 'looked for' ../err)" -eq 3 ]
unset XKB_DEFAULT_RULES
XKB_CONFIG_ROOT=$PWD/no_folders
gives 3 'cannot use rules/evdev' compile --layout us kept
gives 3 'cannot use rules/evdev.lst' list
gives 3 'cannot use nothing' compile --layout us -I nothing kept
XKB_CONFIG_ROOT=$PWD/kit
keeps 'rules that are not there' kept

# The folders come in their order, and rules include others.
echo 'xkb_symbols { key <A> {[m]}; };' > home/.xkb/symbols/us
gives 0 'A code=38 group=1 level=1 hold=none' find --layout us m
mkdir -p home/.config/xkb/symbols config/xkb/symbols
echo 'xkb_symbols { key <A> {[k]}; };' > home/.config/xkb/symbols/us
gives 0 'A code=38 group=1 level=1 hold=none' find --layout us k
echo 'xkb_symbols { key <A> {[c]}; };' > config/xkb/symbols/us
XDG_CONFIG_HOME=$PWD/config
export XDG_CONFIG_HOME
gives 0 'A code=38 group=1 level=1 hold=none' find --layout us c
unset XDG_CONFIG_HOME
rm -r home/.xkb home/.config/xkb/symbols
mkdir -p no_folders/extra/rules
printf '! option = symbols\n mine = +group(shifts)\n! include %%S/evdev\n' > home/.config/xkb/rules/evdev
means 'base+us+group(shifts)' --options mine
printf '! include %%H/deep\n! include %%E/more\n! include %%S/evdev\n! include %%H/nothing\n' > home/.config/xkb/rules/evdev
printf '! option = symbols\n mine = +group(shifts)\n' > no_folders/extra/rules/more
printf '! option = symbols\n yours = +de\n' > home/deep
means 'base+us+de+group(shifts)' --options mine,yours
mv home/deep 'home/%'
printf '! include %%H/%%%%\n! include %%S/evdev\n' > home/.config/xkb/rules/evdev
means 'base+us+de' --options yours
rm home/.config/xkb/rules/evdev no_folders/extra/rules/more

# Names that no rule takes, and those whose file or map isn't there.
gives 0 "$notes" compile --layout us --options grp:shift,x,grp:shifts named_image
says "warning: no rule takes the option 'grp:shift'; 'grp:shifts' is listed"
says "warning: no rule takes the option 'x'"
gives 0 "$notes" compile --quiet --layout us --options grp:shift named_image
holds 'nothing is said of names where it is to be quiet' [ ! -s ../err ]
gives 0 "$(source_with base+us)" rules --options grp:shift
says "warning: no rule takes the option 'grp:shift'; 'grp:shifts' is listed"
gives 1 'F9 FileMissing at 0:138-148' compile --layout dee kept
says '<names>:5:23: error: no file '\''dee'\'' is handed in: add dee=PATH, or -I DIR where DIR/symbols/dee is'
says "looked for in $PWD/kit"
says 'asked for by --rules evdev --model pc105 --layout dee'
says "no layout 'dee' is listed; 'de' is listed"
gives 1 'F10 MapMissing at 0:138-152' show --layout de --variant neu
says '<names>:5:23: error: the file '\''de'\'' has no symbols '\''neu'\'': it has symbols one without a name, '\''neo'\'''
says "no variant 'neu' of 'de' is listed; 'neo' is"
gives 1 'F8 BadInclude at 0:138-150' compile --layout ,us kept
keeps 'names that are not there' kept
gives 0 "$(source_with base+us+de:2)" rules --layout us,de,de
says "warning: no rule takes the layout 'de'"
printf '! include %%S/evdev\n! modle = symbols\n  * = +de\n! model = symbols\n  * = +de +de\n' > kit/rules/faulty
gives 0 "$(source_with base+us)" rules --rules faulty
says 'rules/faulty:2: warning: a word of this mapping is unknown or stands twice: its rules are passed over'
says 'rules/faulty:5: warning: this rule has not as many values as its mapping, and is passed over'

# Rules that are refused.
printf '! model = keycodes\n  * = evdev\n\\ odd\n' > kit/rules/odd
gives 1 'R4 Unexpected 3' compile --rules odd kept
says 'rules/odd:3: error: this is no group, include, mapping or rule that ends with its line'
says '\ odd'
printf '! model = keycodes\n  * = evdev\n' > kit/rules/few
gives 1 'R5 NoComponents' rules --rules few
says 'rules/few: error: the rules give no keycodes, types, compat or symbols for these names'
gives 1 'R2 LongName' show --layout "$(printf '%0256d' 0)"
gives 1 'R6 Unwritable' compile --layout 'a"b' kept
gives 1 'R6 Unwritable' compile --layout 'a\b' kept
keeps 'rules that are refused' kept

# The list.
listed='model    pc105       Generic 105-key PC
layout   us          English (US)
layout   de          German
variant  neo         de: German (Neo 2)
variant  intl        us: English (intl.)
option   grp         Switching to another layout
option   grp:shifts  Both Shifts together'
gives 0 "$listed" list
gives 0 'us  English (US)
de  German' list layouts
gives 0 'neo   de: German (Neo 2)
intl  us: English (intl.)' list variants
gives 0 'pc105  Generic 105-key PC' list models -I kit
gives 0 'de  German' list layouts GERM
gives 0 'neo  de: German (Neo 2)' list variants Neo
gives 0 'grp:shifts  Both Shifts together' list options grp:
gives 0 'layout   de   German
variant  neo  de: German (Neo 2)' list german
gives 0 '' list layouts nothing
gives 3 'cannot use rules/none.lst' list --rules none
says "error: no folder has 'rules/none.lst': -I DIR names one"

# Words that are wrong.
echo old > kept
wrong --variant compile --variant neo kept
wrong --variant rules --variant neo --layout ''
wrong OUT compile --layout us
wrong "'kept'" compile --layout us kept a=kept
wrong "'kept'" compile --names kept --layout us kept
wrong "'two'" show --layout us two
wrong "'two'" print --rules evdev two
wrong KEYSYM find --model pc105
wrong "'two'" find --layout us a two
wrong "'two'" replay --layout us two
wrong "'x'" list x y
wrong "'z'" list layouts x z
wrong "'two'" rules two
wrong --layout compile --layout us --layout de kept
keeps 'words for names that are wrong' kept

unset XKB_CONFIG_EXTRA_PATH XKB_CONFIG_ROOT
HOME=$own_home
