# shellcheck shell=sh disable=SC2154
# What the program does with all that it needs.
gives 0 "$answers" < session
gives 0 "$answers" try < session
gives 0 "$notes" compile source out
holds 'the image of the source' cmp -s out two
for image in one two; do
    gives 0 "$answers" replay "$image" < events
    gives 0 "$text" print "$image"
    gives 0 '' upgrade "$image" newer
    holds "the image of version $image upgraded" cmp -s newer two
done
gives 0 "$(echo "$two" | tr -d ' \n' | fold -w 64)" dump two
gives 0 'xkc 1.0.0' --version
printf 'mine 0x61\n' > names
echo 'xkb_symbols { key <A> {[mine]}; };' > map
echo 'xkb_keymap { xkb_keycodes { <A>=38; }; xkb_symbols { include "map" }; };' > including
gives 0 "$notes" compile --names names including out map=map
holds 'the image of an included map, with a name of a line' cmp -s out two
# Five unknown keysyms, three keys without a code, two groups of an unknown type, one that loses a level, and four actions
# without effect.
cat > noted <<'END'
xkb_keymap { xkb_keycodes { <A>=38; <B>=39; }; xkb_symbols {
key <A> { type="T", [ { no1, no2, no3, no4, no5 }, a ] }; key <B> { type="T", [b] };
key <C> {[a]}; key <D> {[a]}; key <E> {[a]};
key <B> {[MovePtr()]}; key <B> {[MovePtr()]}; key <B> {[MovePtr()]}; key <B> {[MovePtr()]}; }; };
END
gives 0 'notes keysyms=5 keys=3 types=2 levels=1 actions=4' compile noted out
