/* Characters of keysyms, letters in upper and lower case, and what keys type. */
#include "check.h"

static const char TWO_GROUPS[] =
    "xkb_keymap { xkb_keycodes { <A>=38; <E>=24; <R>=36; <S>=39; }; xkb_symbols {\n"
    "    key <A> { type = \"ALPHABETIC\", [a, A], [Greek_alpha, Greek_ALPHA] };\n"
    "    key <E> { type = \"ONE_LEVEL\", [EuroSign] };\n"
    "    key <R> { type = \"ONE_LEVEL\", [Return] };\n"
    "    key <S> { type = \"ONE_LEVEL\", [{s, t}] };\n"
    "}; };";

enum { LOCK = 2, CONTROL = 4 };

static xkc_follower follower;

static void characters(void)
{
    holds(xkc_keysym_character('a') == 'a' && xkc_keysym_character(0xff0d) == 0xd && xkc_keysym_character(0x7e1) == 0x3b1, "of ASCII, of a key and of an older set");
    holds(xkc_keysym_character(0x010020ac) == 0x20ac && xkc_keysym_character(0x20ac) == 0x20ac, "of the euro sign's two keysyms");
    holds(xkc_keysym_character(0x0100d800) == 0xd800, "a surrogate");
    holds(!xkc_keysym_character(0) && !xkc_keysym_character(0xffe1) && !xkc_keysym_character(0x01110000) && !xkc_keysym_character(UINT32_MAX), "keysyms without a character");
    holds(xkc_character_keysym('a') == 'a' && xkc_character_keysym(0xd) == 0xff0d && xkc_character_keysym(0x3b1) == 0x7e1, "the first keysym of a character");
    holds(xkc_character_keysym(0x1f600) == 0x0101f600 && xkc_character_keysym(0) == 0x01000000, "a keysym of Unicode");
    holds(!xkc_character_keysym(0xfdd0) && !xkc_character_keysym(0x1fffe) && !xkc_character_keysym(0x110000), "noncharacters have none");
}

static void letters(void)
{
    holds(xkc_keysym_upper('a') == 'A' && xkc_keysym_lower('A') == 'a' && xkc_keysym_upper('1') == '1', "of ASCII");
    holds(xkc_keysym_upper(0x7e1) == 0x7c1 && xkc_keysym_lower(0x7c1) == 0x7e1, "of an older set");
    holds(xkc_keysym_upper(0x01000101) == 0x01000100 && xkc_keysym_lower(0x01000100) == 0x01000101 && xkc_keysym_lower(0x01000101) == 0x01000101, "that take turns");
    holds(xkc_keysym_upper(0xdf) == 0x1e9e && xkc_keysym_lower(0x01001e9e) == 0x010000df, "the sharp s");
    holds(xkc_keysym_upper(UINT32_MAX) == UINT32_MAX, "a number that is no keysym");
}

/* Whether a key types these bytes under locked modifiers and a locked group. */
static int types(uint32_t code, uint8_t locked, uint8_t group, const char *bytes, size_t count)
{
    xkc_state state = {0};
    uint8_t text[32];
    size_t size = 99;
    state.locked = locked;
    state.locked_group = group;
    return !xkc_follower_set(&follower, &state) && !xkc_follower_text(&follower, code, text, sizeof text, &size) && size == count && !memcmp(text, bytes, count);
}

static void texts(void)
{
    holds(types(38, 0, 0, "a", 1) && types(38, LOCK, 0, "A", 1) && types(38, 0, 1, "\xce\xb1", 2) && types(38, LOCK, 1, "\xce\x91", 2), "letters of two groups");
    holds(types(38, CONTROL, 0, "\1", 1) && types(38, CONTROL, 1, "\1", 1), "a control character, in a group without ASCII too");
    holds(types(24, CONTROL, 0, "\xe2\x82\xac", 3), "Control leaves a sign");
    holds(types(36, 0, 0, "\r", 1), "Return");
    holds(types(39, 0, 0, "st", 2) && types(39, CONTROL | LOCK, 0, "st", 2), "several keysyms");
    holds(types(9, 0, 0, "", 0), "a code without a key");
}

static void answers(void)
{
    xkc_follower none = {0};
    uint32_t keysym = 7;
    uint8_t text[2] = {7, 7};
    size_t size = 7;
    holds(xkc_follower_keysym(&none, 38, &keysym) == XKC_EMPTY && xkc_follower_text(&none, 38, text, 2, &size) == XKC_EMPTY && keysym == 7 && size == 7, "an empty follower");
    holds(xkc_follower_keysym(&follower, 65536, &keysym) == XKC_MISSING && xkc_follower_text(&follower, 65536, text, 2, &size) == XKC_MISSING && keysym == 7 && size == 7, "a code above 65,535");
    holds(types(24, 0, 0, "\xe2\x82\xac", 3) && xkc_follower_text(&follower, 24, text, 2, &size) == XKC_ROOM && size == 3 && text[0] == 7, "no room");
    holds(!xkc_follower_keysym(&follower, 38, &keysym) && keysym == 'a', "the keysym of a key");
    holds(!xkc_follower_keysym(&follower, 39, &keysym) && keysym == 0, "none of several");
    holds(types(38, LOCK, 1, "\xce\x91", 2) && !xkc_follower_keysym(&follower, 38, &keysym) && keysym == 0x7c1, "in upper case");
}

int main(void)
{
    xkc_names names = {0};
    xkc_keymap keymap = {0};
    xkc_file none = {0};
    xkc_fault fault;
    holds(!xkc_names_x11(&names) && !xkc_keymap_compile(&keymap, TEXT(TWO_GROUPS), &none, 0, &names, &fault) && !xkc_follower_start(&follower, &keymap), "a keymap of two groups");
    characters();
    letters();
    texts();
    answers();
    xkc_follower_end(&follower);
    xkc_keymap_end(&keymap);
    xkc_names_end(&names);
    return counted();
}
