/* libxkbcommon's calls, as a program makes them. */
#include "check.h"
#include <xkbcommon/xkbcommon.h>

static const char KEYMAP[] =
    "xkb_keymap {\n"
    "xkb_keycodes { <A>=38; <L>=50; <C>=66; <M>=67; alias <B>=<A>; indicator 2=\"Caps\"; };\n"
    "xkb_types { virtual_modifiers Meta=Mod1; type \"ALPHABETIC\" { modifiers=Shift+Lock; map[Shift]=Level2; map[Lock]=Level2; }; };\n"
    "xkb_compat { indicator \"Caps\" { modifiers=Lock; }; };\n"
    "xkb_symbols { name[Group1]=\"First\"; name[Group2]=\"Second\";\n"
    "key <A> {[a, A], [b, B]}; key <L> {[Shift_L], actions[1]=[SetMods(modifiers=Shift)], repeat=no};\n"
    "key <C> {[Caps_Lock], actions[1]=[LockMods(modifiers=Lock)], repeat=no};\n"
    "key <M> {[{h, i}]}; };\n"
    "};\n";

static void keymaps(struct xkb_keymap *m)
{
    const xkb_keysym_t *keysyms;
    xkb_mod_mask_t masks[4];
    holds(xkb_keymap_min_keycode(m) == 38 && xkb_keymap_max_keycode(m) == 67, "the codes");
    holds(xkb_keymap_num_layouts(m) == 2 && !strcmp(xkb_keymap_layout_get_name(m, 1), "Second") && xkb_keymap_layout_get_index(m, "First") == 0, "the groups");
    holds(xkb_keymap_num_leds(m) == 2 && xkb_keymap_led_get_index(m, "Caps") == 1 && !xkb_keymap_led_get_name(m, 0), "the indicator");
    holds(!strcmp(xkb_keymap_key_get_name(m, 50), "L") && xkb_keymap_key_by_name(m, "A") == 38 && xkb_keymap_key_by_name(m, "Z") == XKB_KEYCODE_INVALID, "the names of keys");
    holds(xkb_keymap_key_by_name(m, "B") == 38, "an alias");
    holds(xkb_keymap_num_levels_for_key(m, 38, 1) == 2 && xkb_keymap_key_get_syms_by_level(m, 38, 1, 1, &keysyms) == 1 && keysyms[0] == XKB_KEY_B, "a level");
    holds(xkb_keymap_key_get_mods_for_level(m, 38, 0, 1, masks, 4) == 2, "its modifiers");
    holds(xkb_keymap_key_repeats(m, 38) && !xkb_keymap_key_repeats(m, 50), "a modifier doesn't repeat");
    holds(xkb_keymap_mod_get_index(m, "Lock") == 1 && xkb_keymap_mod_get_index(m, "NumLock") == XKB_MOD_INVALID, "modifiers");
    holds(xkb_keymap_num_mods(m) == 9 && xkb_keymap_mod_get_index(m, "Meta") == 8 && !strcmp(xkb_keymap_mod_get_name(m, 8), "Meta"), "a virtual one");
}

/* What is printed is read again, and printed alike. */
static void texts(struct xkb_context *context, struct xkb_keymap *m)
{
    char *text = xkb_keymap_get_as_string(m, XKB_KEYMAP_USE_ORIGINAL_FORMAT);
    struct xkb_keymap *again = text ? xkb_keymap_new_from_string(context, text, XKB_KEYMAP_FORMAT_TEXT_V1, XKB_KEYMAP_COMPILE_NO_FLAGS) : NULL;
    char *second = again ? xkb_keymap_get_as_string(again, XKB_KEYMAP_FORMAT_TEXT_V1) : NULL;
    holds(second && !strcmp(text, second), "the text is read again and printed alike");
    holds(again && xkb_keymap_key_by_name(again, "B") == 38 && xkb_keymap_mod_get_index(again, "Meta") == 8 && !xkb_keymap_key_repeats(again, 50), "and has the same");
    holds(!xkb_keymap_get_as_string(m, (enum xkb_keymap_format)0), "there is no other format");
    free(text);
    free(second);
    xkb_keymap_unref(again);
}

/* Of a character's name of eight digits, which stands where a keysym does. */
static void digits(struct xkb_context *context)
{
    static const char text[] = "xkb_keymap { xkb_keycodes { <U0000041>=38; }; // U0000041\n"
                               "xkb_symbols { name[Group1]=\"U00000041\\\" <\"; key <U0000041> {[U0001F600]}; }; };";
    struct xkb_keymap *m = xkb_keymap_new_from_string(context, text, XKB_KEYMAP_FORMAT_TEXT_V1, XKB_KEYMAP_COMPILE_NO_FLAGS);
    const xkb_keysym_t *keysyms;
    holds(m && xkb_keymap_key_get_syms_by_level(m, 38, 0, 0, &keysyms) == 1 && keysyms[0] == 0x0101f600, "a character of eight digits");
    holds(m && !strcmp(xkb_keymap_key_get_name(m, 38), "U0000041") && !strncmp(xkb_keymap_layout_get_name(m, 0), "U00000041", 9), "names stay as they are");
    xkb_keymap_unref(m);
}

static void states(struct xkb_keymap *m)
{
    struct xkb_state *s = xkb_state_new(m);
    char text[8];
    holds(xkb_state_key_get_one_sym(s, 38) == XKB_KEY_a, "a key");
    holds(xkb_state_update_key(s, 50, XKB_KEY_DOWN) == (XKB_STATE_MODS_DEPRESSED | XKB_STATE_MODS_EFFECTIVE), "what Shift changes");
    holds(xkb_state_key_get_utf8(s, 38, text, sizeof text) == 1 && text[0] == 'A', "its text with Shift");
    holds(xkb_state_key_get_consumed_mods(s, 38) == 3 && xkb_state_key_get_level(s, 38, 0) == 1, "what is consumed");
    xkb_state_update_key(s, 50, XKB_KEY_UP);
    holds(xkb_state_update_key(s, 66, XKB_KEY_DOWN) & XKB_STATE_LEDS && xkb_state_led_name_is_active(s, "Caps") == 1, "Caps Lock lights the indicator");
    holds(xkb_state_update_mask(s, 1u << 8, 0, 0, 0, 0, 0) & XKB_STATE_MODS_DEPRESSED && xkb_state_serialize_mods(s, XKB_STATE_MODS_EFFECTIVE) == (1u << 8 | 1u << 3), "a virtual modifier brings its real ones");
    holds(xkb_state_mod_name_is_active(s, "Meta", XKB_STATE_MODS_DEPRESSED) == 1 && xkb_state_mod_names_are_active(s, XKB_STATE_MODS_EFFECTIVE, XKB_STATE_MATCH_ALL, "Meta", "Mod1", NULL) == 1, "both are active");
    holds(xkb_state_key_get_utf8(s, 67, text, sizeof text) == 2 && !strcmp(text, "hi") && xkb_state_key_get_utf32(s, 67) == 0, "a text of two keysyms");
    holds(xkb_state_key_get_utf8(s, 67, text, 2) == 2 && !strcmp(text, "h"), "as far as there is room");
    holds(xkb_state_update_mask(s, 0, 0, 0, 0, 0, 1) & XKB_STATE_LAYOUT_LOCKED && xkb_state_key_get_one_sym(s, 38) == XKB_KEY_b, "a state that is told");
    holds(xkb_state_layout_name_is_active(s, "Second", XKB_STATE_LAYOUT_EFFECTIVE) == 1 && xkb_state_serialize_layout(s, XKB_STATE_LAYOUT_EFFECTIVE) == 1, "and its group");
    xkb_state_unref(s);
}

static void keysyms(void)
{
    char name[16];
    holds(xkb_keysym_get_name(XKB_KEY_Return, name, sizeof name) == 6 && !strcmp(name, "Return"), "the name of a keysym");
    holds(xkb_keysym_get_name(0x0101f600, name, 4) == 9 && !strcmp(name, "U00"), "that of a character, as far as there is room");
    holds(xkb_keysym_get_name(0xfd0d, name, sizeof name) == 9 && !strcmp(name, "3270_Test") && xkb_keysym_from_name("3270_Test", XKB_KEYSYM_NO_FLAGS) == 0xfd0d, "one that begins with a digit");
    holds(xkb_keysym_get_name(0x20000000, name, sizeof name) == -1, "no keysym");
    holds(xkb_keysym_from_name("page_up", XKB_KEYSYM_NO_FLAGS) == XKB_KEY_NoSymbol && xkb_keysym_from_name("page_up", XKB_KEYSYM_CASE_INSENSITIVE) == XKB_KEY_Page_Up, "a name in any case");
    holds(xkb_keysym_from_name("A", XKB_KEYSYM_CASE_INSENSITIVE) == XKB_KEY_a && xkb_keysym_from_name("xf86_audioplay", XKB_KEYSYM_CASE_INSENSITIVE) == 0x1008ff14, "the letter in lower case, and a prefix");
    holds(xkb_keysym_from_name("U20AC", XKB_KEYSYM_NO_FLAGS) == 0x010020ac && xkb_keysym_from_name("0x1008ff14", XKB_KEYSYM_NO_FLAGS) == 0x1008ff14, "numbers");
    holds(xkb_keysym_to_utf8(XKB_KEY_EuroSign, name, 7) == 4 && !memcmp(name, "\xe2\x82\xac", 4) && xkb_keysym_to_utf8(XKB_KEY_a, name, 6) == -1, "a character's bytes");
    holds(xkb_keysym_to_upper(XKB_KEY_eacute) == XKB_KEY_Eacute && xkb_keysym_to_lower(XKB_KEY_Eacute) == XKB_KEY_eacute && xkb_utf32_to_keysym('a') == 'a', "cases");
}

static int told;

static void count_told(struct xkb_context *context, enum xkb_log_level level, const char *format, va_list args)
{
    (void)format, (void)args;
    told += level == XKB_LOG_LEVEL_ERROR && xkb_context_get_user_data(context) == &told;
}

static void contexts(struct xkb_context *context)
{
    holds(xkb_context_num_include_paths(context) == 0 && !xkb_context_include_path_append(context, "/nowhere/to/be/found"), "a folder that isn't there");
    holds(xkb_context_include_path_append(context, "/") && !strcmp(xkb_context_include_path_get(context, 0), "/") && !xkb_context_include_path_get(context, 1), "one that is");
    xkb_context_include_path_clear(context);
    xkb_context_set_user_data(context, &told);
    xkb_context_set_log_fn(context, count_told);
    holds(!xkb_keymap_new_from_names(context, NULL, XKB_KEYMAP_COMPILE_NO_FLAGS) && told == 1, "without a folder there are no rules");
    xkb_context_set_log_level(context, XKB_LOG_LEVEL_CRITICAL);
    holds(!xkb_keymap_new_from_names(context, NULL, XKB_KEYMAP_COMPILE_NO_FLAGS) && told == 1, "and nothing is told below the level");
    xkb_context_unref(NULL), xkb_keymap_unref(NULL), xkb_state_unref(NULL);
}

int main(void)
{
    struct xkb_context *context = xkb_context_new(XKB_CONTEXT_NO_DEFAULT_INCLUDES);
    contexts(context);
    keysyms();
    struct xkb_keymap *m = xkb_keymap_new_from_string(context, KEYMAP, XKB_KEYMAP_FORMAT_TEXT_V1, XKB_KEYMAP_COMPILE_NO_FLAGS);
    holds(m != NULL, "a keymap is compiled");
    holds(!xkb_keymap_new_from_string(context, "xkb_keymap { xkb_keycodes { <A>=4096; }; };", XKB_KEYMAP_FORMAT_TEXT_V1, XKB_KEYMAP_COMPILE_NO_FLAGS), "and a source with a fault is refused");
    if (m) {
        keymaps(m);
        texts(context, m);
        states(m);
        digits(context);
    }
    xkb_keymap_unref(m);
    xkb_context_unref(context);
    return counted();
}
