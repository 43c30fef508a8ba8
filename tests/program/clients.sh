# shellcheck shell=sh disable=SC2154
# The text that clients read: what an image leaves out stands in it, and it makes the image of its source.

cat > said <<'END'
xkb_keymap {
xkb_keycodes {
<A>= 38; <B>= 39; <C>= 40; <D>= 41; <S>= 50; <N>= 77;
indicator 1= "Caps Lock"; indicator 3= "a \"name\""; indicator 33= "none has it";
alias <AA>= <A>; alias <NO>= <NONE>; alias <B>= <A>;
};
xkb_types {
virtual_modifiers Num, Alt, Odd= Mod3;
type "ONE_LEVEL" { modifiers= none; };
type "SPARE" { modifiers= Shift+Num; map[Shift]= 2; map[Num]= 3; preserve[Num]= Num; };
};
xkb_compat {
interpret.repeat= yes;
interpret Num_Lock { virtualModifier= Num; action= LockMods(modifiers=Num); repeat= no; };
interpret a { repeat= no; };
interpret b { };
interpret c { repeat= maybe; };
};
xkb_symbols {
key <A> { [ a ] };
key <B> { [ b ] };
key.repeat= no;
key <C> { [ c ], repeat= default };
key <D> { [ d ] };
key <S> { [ Shift_L ], actions[1]= [ SetMods(modifiers=Shift) ], repeat= yes };
key <N> { [ Num_Lock ], repeat= default };
modifier_map Shift { <S> }; modifier_map Mod2 { Num_Lock };
};
};
END
read_text='xkb_keymap {
xkb_keycodes {
<A>= 38;
<B>= 39;
<C>= 40;
<D>= 41;
<S>= 50;
<N>= 77;
indicator 1= "Caps Lock";
indicator 3= "a \042name\042";
alias <AA>= <A>;
};
xkb_types {
virtual_modifiers Num= Mod2, Alt, Odd= Mod3;
type "ONE_LEVEL" {
modifiers= none;
level_name[1]= "";
};
type "SPARE" {
modifiers= Shift+Mod2;
map[Shift]= 2;
map[Mod2]= 3;
preserve[Mod2]= Mod2;
level_name[3]= "";
};
};
xkb_compat {
interpret Any+AnyOf(all) {
action= NoAction();
};
};
xkb_symbols {
key <A> {
repeat= no,
type[1]= "ONE_LEVEL",
symbols[1]= [ a ],
actions[1]= [ NoAction() ]
};
key <B> {
repeat= yes,
type[1]= "ONE_LEVEL",
symbols[1]= [ b ],
actions[1]= [ NoAction() ]
};
key <C> {
repeat= yes,
type[1]= "ONE_LEVEL",
symbols[1]= [ c ],
actions[1]= [ NoAction() ]
};
key <D> {
repeat= no,
type[1]= "ONE_LEVEL",
symbols[1]= [ d ],
actions[1]= [ NoAction() ]
};
key <S> {
repeat= yes,
type[1]= "ONE_LEVEL",
symbols[1]= [ Shift_L ],
actions[1]= [ SetMods(modifiers=Shift) ]
};
key <N> {
repeat= no,
type[1]= "ONE_LEVEL",
symbols[1]= [ Num_Lock ],
actions[1]= [ LockMods(modifiers=Mod2) ]
};
modifier_map Shift { <S> };
modifier_map Mod2 { <N> };
};
};'
gives 0 "$read_text" print said
holds 'nothing is said of a text for clients' [ ! -s ../err ]
"$program" print said > said_again
gives 0 "$read_text" print said_again
"$program" compile --quiet said said_image > ../out
"$program" compile --quiet said_again again_image > ../out
holds 'the text for clients makes the image of its source' cmp -s said_image again_image
"$program" print said_image > printed_image 2> ../err
holds 'an image of which less is printed says so' grep -qF 'print its source for those' ../err
"$program" compile --quiet printed_image again_image > ../out
holds 'the text of an image makes it again' cmp -s said_image again_image

# A keymap without keys, types and indicators, and one whose key has no fields.
echo 'xkb_keymap { };' > bare
gives 0 'xkb_keymap {
xkb_keycodes {
};
xkb_types {
type "ONE_LEVEL" {
modifiers= none;
level_name[1]= "";
};
};
xkb_compat {
interpret Any+AnyOf(all) {
action= NoAction();
};
};
xkb_symbols {
};
};' print bare
echo 'xkb_keymap { xkb_keycodes { <A>= 38; }; };' > bare
gives 0 'xkb_keymap {
xkb_keycodes {
<A>= 38;
};
xkb_types {
type "ONE_LEVEL" {
modifiers= none;
level_name[1]= "";
};
};
xkb_compat {
interpret Any+AnyOf(all) {
action= NoAction();
};
};
xkb_symbols {
key <A> {
repeat= no
};
};
};' print bare

# A type more than there may be, since ONE_LEVEL isn't declared: the image's text is printed, and that it isn't for clients is said.
awk 'BEGIN {
    printf "xkb_keymap { xkb_keycodes { <A>= 38; }; xkb_types { "
    for (i = 0; i < 4096; i++) printf "type \"T%d\" { modifiers= none; }; ", i
    print "}; xkb_symbols { key <A> { [ a ] }; }; };"
}' > many
"$program" compile --quiet many many_image > ../out
"$program" print many_image > printed_image 2> ../err
gives 0 "$(cat printed_image)" print many
holds 'that a text is not for clients is said' grep -qF "aren't printed" ../err
