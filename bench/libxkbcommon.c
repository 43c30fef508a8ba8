/* The same ten million random events on libxkbcommon, over a keymap of 100 keys like the one of events/. */
#include <stdint.h>
#include <stdio.h>
#include <stdlib.h>
#include <string.h>
#include <time.h>
#include <xkbcommon/xkbcommon.h>

enum { EVENTS = 10000000, FIRST = 9, LAST = 108 };

static int is_letter(int code)
{
    return (code >= 24 && code <= 33) || (code >= 38 && code <= 46) || (code >= 52 && code <= 58);
}

/* The symbols of a modifier's key, or NULL. */
static const char *modifier(int code)
{
    switch (code) {
    case 37: case 105: return "[ Control_L ], actions[1]=[ SetMods(modifiers=Control,clearLocks) ]";
    case 50: case 62: return "[ Shift_L ], actions[1]=[ SetMods(modifiers=Shift,clearLocks) ]";
    case 64: return "[ Alt_L ], actions[1]=[ SetMods(modifiers=Mod1,clearLocks) ]";
    case 108: return "[ ISO_Level3_Shift ], actions[1]=[ SetMods(modifiers=Mod5,clearLocks) ]";
    case 66: return "[ Caps_Lock ], actions[1]=[ LockMods(modifiers=Lock) ]";
    case 77: return "[ Num_Lock ], actions[1]=[ LockMods(modifiers=Mod2) ]";
    case 94: return "[ ISO_Next_Group ], actions[1]=[ LockGroup(group=+1) ]";
    default: return NULL;
    }
}

static char *source(void)
{
    char *text = malloc(1 << 16);
    char *at = text;
    at += sprintf(at, "xkb_keymap {\nxkb_keycodes {\nminimum = 8; maximum = 255;\n");
    for (int code = FIRST; code <= LAST; code++)
        at += sprintf(at, "<%03d> = %d;\n", code, code);
    at += sprintf(at, "indicator 1 = \"Caps Lock\"; indicator 2 = \"Num Lock\"; indicator 3 = \"Group 2\";\n};\n"
        "xkb_types {\n"
        "type \"ONE_LEVEL\" { modifiers = none; level_name[Level1] = \"1\"; };\n"
        "type \"ALPHABETIC\" { modifiers = Shift+Lock; map[Shift] = Level2; map[Lock] = Level2;"
        " level_name[Level1] = \"1\"; level_name[Level2] = \"2\"; };\n"
        "type \"FOUR_LEVEL\" { modifiers = Shift+Mod5; map[Shift] = Level2; map[Mod5] = Level3; map[Shift+Mod5] = Level4;"
        " level_name[Level1] = \"1\"; level_name[Level4] = \"4\"; };\n};\n"
        "xkb_compatibility {\n"
        "indicator \"Caps Lock\" { whichModState = locked; modifiers = Lock; };\n"
        "indicator \"Num Lock\" { whichModState = locked; modifiers = Mod2; };\n"
        "indicator \"Group 2\" { groups = 0xfe; };\n};\n"
        "xkb_symbols {\n");
    for (int code = FIRST; code <= LAST; code++) {
        if (modifier(code))
            at += sprintf(at, "key <%03d> { type = \"ONE_LEVEL\", %s };\n", code, modifier(code));
        else if (is_letter(code))
            at += sprintf(at, "key <%03d> { type = \"ALPHABETIC\", symbols[1] = [ a, A ], symbols[2] = [ b, B ] };\n", code);
        else
            at += sprintf(at, "key <%03d> { type = \"FOUR_LEVEL\", symbols[1] = [ 1, exclam, onesuperior, exclamdown ],"
                " symbols[2] = [ 2, at, twosuperior, cent ] };\n", code);
    }
    sprintf(at, "};\n};\n");
    return text;
}

int main(void)
{
    struct xkb_context *context = xkb_context_new(XKB_CONTEXT_NO_DEFAULT_INCLUDES);
    char *text = source();
    struct xkb_keymap *keymap = xkb_keymap_new_from_string(context, text, XKB_KEYMAP_FORMAT_TEXT_V1, XKB_KEYMAP_COMPILE_NO_FLAGS);
    free(text);
    if (!keymap) {
        fprintf(stderr, "the keymap does not compile\n");
        return 1;
    }
    struct xkb_state *state = xkb_state_new(keymap);
    uint64_t random = 1, sum = 0;
    struct timespec start, stop;
    char held[256] = {0};
    clock_gettime(CLOCK_MONOTONIC, &start);
    for (int i = 0; i < EVENTS; i++) {
        random = random * 6364136223846793005u + 1442695040888963407u;
        xkb_keycode_t code = FIRST + (uint16_t)(random >> 33) % 100;
        enum xkb_key_direction direction = random >> 63 == 0 ? XKB_KEY_DOWN : XKB_KEY_UP;
        const xkb_keysym_t *syms;
        int count = xkb_state_key_get_syms(state, code, &syms);
        xkb_mod_mask_t consumed = xkb_state_key_get_consumed_mods(state, code);
        /* the library counts repeated presses, which a keyboard's driver never sends */
        if (held[code] != (direction == XKB_KEY_DOWN)) {
            held[code] = direction == XKB_KEY_DOWN;
            xkb_state_update_key(state, code, direction);
        }
        uint32_t lit = 0;
        for (xkb_led_index_t led = 0; led < 3; led++)
            lit |= (uint32_t)(xkb_state_led_index_is_active(state, led) > 0) << led;
        sum += (count > 0 ? syms[0] : 0) ^ lit ^ consumed
            ^ xkb_state_serialize_mods(state, XKB_STATE_MODS_DEPRESSED)
            ^ xkb_state_serialize_mods(state, XKB_STATE_MODS_LATCHED)
            ^ xkb_state_serialize_mods(state, XKB_STATE_MODS_LOCKED)
            ^ xkb_state_serialize_layout(state, XKB_STATE_LAYOUT_EFFECTIVE);
        sum = sum << 1 | sum >> 63;
    }
    clock_gettime(CLOCK_MONOTONIC, &stop);
    double nanoseconds = (stop.tv_sec - start.tv_sec) * 1e9 + (stop.tv_nsec - start.tv_nsec);
    printf("libxkbcommon: %.0f ns an event, sum %llx\n", nanoseconds / EVENTS, (unsigned long long)sum);
    xkb_state_unref(state);
    xkb_keymap_unref(keymap);
    xkb_context_unref(context);
    return 0;
}
