/* What libxkbcommon answers to events over a keymap, in the words of crates/cases/data/meaning.cases: of each event the keysyms
 * and the consumed modifiers before it, and the state after it, without what is usual; or `refused`.
 *
 *   player KEYMAP EVENTS FOLDER     FOLDER is where included files are looked for */
#include <stdio.h>
#include <stdlib.h>
#include <string.h>
#include <xkbcommon/xkbcommon.h>

enum { LONGEST_NAME = 64 };

static const char *const modifiers[8] = {"Shift", "Lock", "Control", "Mod1", "Mod2", "Mod3", "Mod4", "Mod5"};

static void tell_modifiers(const char *field, xkb_mod_mask_t mask)
{
    const char *before = "";
    if (!(mask & 0xff))
        return;
    printf(" %s=", field);
    for (int bit = 0; bit < 8; bit++)
        if (mask >> bit & 1) {
            printf("%s%s", before, modifiers[bit]);
            before = "+";
        }
}

static void tell_keysyms(struct xkb_keymap *keymap, struct xkb_state *state, xkb_keycode_t code)
{
    const xkb_keysym_t *syms;
    int count = xkb_state_key_get_syms(state, code, &syms);
    if (!count)
        printf(xkb_keymap_key_get_name(keymap, code) ? "-" : "?");
    for (int at = 0; at < count; at++) {
        char name[LONGEST_NAME];
        if (xkb_keysym_get_name(syms[at], name, sizeof name) < 0)
            snprintf(name, sizeof name, "0x%x", syms[at]);
        printf("%s%s", at ? "," : "", name);
    }
}

static void answer(struct xkb_keymap *keymap, struct xkb_state *state, const char *direction, xkb_keycode_t code)
{
    tell_keysyms(keymap, state, code);
    if (xkb_keymap_key_get_name(keymap, code))
        tell_modifiers("consumed", xkb_state_key_get_consumed_mods(state, code));
    xkb_state_update_key(state, code, direction[0] == 'd' ? XKB_KEY_DOWN : XKB_KEY_UP);
    tell_modifiers("base", xkb_state_serialize_mods(state, XKB_STATE_MODS_DEPRESSED));
    tell_modifiers("latched", xkb_state_serialize_mods(state, XKB_STATE_MODS_LATCHED));
    tell_modifiers("locked", xkb_state_serialize_mods(state, XKB_STATE_MODS_LOCKED));
    unsigned group = xkb_state_serialize_layout(state, XKB_STATE_LAYOUT_EFFECTIVE) + 1;
    if (group != 1)
        printf(" group=%u", group);
}

int main(int count, char **words)
{
    struct xkb_context *context = xkb_context_new(XKB_CONTEXT_NO_DEFAULT_INCLUDES);
    FILE *source = count == 4 ? fopen(words[1], "r") : NULL;
    FILE *events = source ? fopen(words[2], "r") : NULL;
    if (!events || !context)
        return 1;
    xkb_context_set_log_level(context, XKB_LOG_LEVEL_CRITICAL);
    xkb_context_include_path_append(context, words[3]);
    struct xkb_keymap *keymap =
        xkb_keymap_new_from_file(context, source, XKB_KEYMAP_FORMAT_TEXT_V1, XKB_KEYMAP_COMPILE_NO_FLAGS);
    if (!keymap) {
        puts("refused");
        return 0;
    }
    struct xkb_state *state = xkb_state_new(keymap);
    char direction[8];
    unsigned code;
    for (int at = 0; fscanf(events, "%7s %u%*[,]", direction, &code) == 2; at++) {
        printf("%s", at ? "; " : "");
        answer(keymap, state, direction, code);
    }
    puts("");
    return 0;
}
