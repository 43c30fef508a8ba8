/* keysyms KEYMAP..: the characters, keysyms and case of all keysyms and characters by xkc and by libxkbcommon, and the keysym
 * and the text of each key in the states of 2,000 events over each keymap, which libxkbcommon made. Prints what differs, the
 * first ten of each kind, and counts. */
#include <stdio.h>
#include <stdlib.h>
#include <string.h>
#include <xkbcommon/xkbcommon.h>
#include "xkc.h"

enum { KEYSYMS = 0x20000000, CHARACTERS = 0x120000, EVENTS = 2000, FIRST = 9, LAST = 255, ROOM = 64 };

static unsigned long differences, shown;

static void differs(const char *what, uint32_t number, uint32_t ours, uint32_t theirs)
{
    differences++;
    if (shown++ < 10)
        printf("%s of 0x%x: 0x%x, and 0x%x by libxkbcommon\n", what, number, ours, theirs);
}

static void compare(const char *what, uint32_t count, uint32_t (*ours)(uint32_t), uint32_t (*theirs)(uint32_t))
{
    shown = 0;
    for (uint32_t number = 0; number < count; number++) {
        uint32_t mine = ours(number), other = theirs(number);
        if (mine != other)
            differs(what, number, mine, other);
    }
    printf("%s: %u numbers\n", what, count);
}

static char *read_file(const char *path, size_t *size)
{
    FILE *file = fopen(path, "rb");
    if (!file || fseek(file, 0, SEEK_END)) {
        perror(path);
        exit(2);
    }
    long length = ftell(file);
    char *text = malloc((size_t)length + 1);
    rewind(file);
    if (length < 0 || !text || fread(text, 1, (size_t)length, file) != (size_t)length)
        exit(2);
    fclose(file);
    text[length] = 0;
    *size = (size_t)length;
    return text;
}

/* A keyboard of libxkbcommon, and a follower that is told its state. */
struct pair {
    struct xkb_keymap *keymap;
    struct xkb_state *state;
    xkc_keymap compiled;
    xkc_follower follower;
};

static struct pair pair_of(struct xkb_context *context, const char *path)
{
    struct pair pair = {0};
    size_t size;
    char *text = read_file(path, &size);
    xkc_names names = {0};
    xkc_fault fault;
    xkc_file none = {(const uint8_t *)"", 0, (const uint8_t *)"", 0};
    pair.keymap = xkb_keymap_new_from_string(context, text, XKB_KEYMAP_FORMAT_TEXT_V1, 0);
    pair.state = xkb_state_new(pair.keymap);
    if (!pair.state || xkc_names_x11(&names) || xkc_keymap_compile(&pair.compiled, (const uint8_t *)text, size, &none, 0, &names, &fault)
        || xkc_follower_start(&pair.follower, &pair.compiled)) {
        fprintf(stderr, "%s: not a keymap\n", path);
        exit(2);
    }
    xkc_names_end(&names);
    free(text);
    return pair;
}

static void tell(struct pair *pair)
{
    xkc_state state = {
        .base_group = (int32_t)xkb_state_serialize_layout(pair->state, XKB_STATE_LAYOUT_DEPRESSED),
        .base = (uint8_t)xkb_state_serialize_mods(pair->state, XKB_STATE_MODS_DEPRESSED),
        .latched = (uint8_t)xkb_state_serialize_mods(pair->state, XKB_STATE_MODS_LATCHED),
        .locked = (uint8_t)xkb_state_serialize_mods(pair->state, XKB_STATE_MODS_LOCKED),
        .latched_group = (uint8_t)xkb_state_serialize_layout(pair->state, XKB_STATE_LAYOUT_LATCHED),
        .locked_group = (uint8_t)xkb_state_serialize_layout(pair->state, XKB_STATE_LAYOUT_LOCKED),
    };
    xkc_follower_set(&pair->follower, &state);
}

/* What one key types; how many bytes that is. */
static size_t compare_key(struct pair *pair, xkb_keycode_t code)
{
    uint32_t keysym = 7;
    uint8_t text[ROOM];
    char other[ROOM];
    size_t size = 0;
    uint32_t status = xkc_follower_keysym(&pair->follower, code, &keysym);
    uint32_t wanted = xkb_state_key_get_one_sym(pair->state, code);
    if (status || keysym != wanted)
        differs("the keysym of a key", code, keysym, wanted);
    status = xkc_follower_text(&pair->follower, code, text, sizeof text, &size);
    int length = xkb_state_key_get_utf8(pair->state, code, other, sizeof other);
    if (status || (int)size != length || memcmp(text, other, size))
        differs("the text of a key", code, (uint32_t)size, (uint32_t)length);
    return size;
}

static void play(struct pair *pair, const char *path)
{
    static uint8_t is_down[LAST + 1];
    unsigned long keys = 0, typed = 0;
    uint32_t seed = 1;
    memset(is_down, 0, sizeof is_down);
    shown = 0;
    for (int event = 0; event < EVENTS; event++) {
        seed = seed * 1103515245 + 12345;
        xkb_keycode_t code = FIRST + (seed >> 8) % (LAST - FIRST + 1);
        /* of every three events two are of keys that change the state */
        static const uint8_t modifiers[] = {37, 50, 62, 64, 66, 92, 94, 105, 108, 203};
        if (event % 3)
            code = modifiers[(seed >> 8) % sizeof modifiers];
        is_down[code] = !is_down[code];
        xkb_state_update_key(pair->state, code, is_down[code] ? XKB_KEY_DOWN : XKB_KEY_UP);
        tell(pair);
        for (code = FIRST; code <= LAST; code++) {
            keys++;
            typed += compare_key(pair, code) > 0;
        }
    }
    printf("%s: %lu keys, %lu of them with a text\n", strrchr(path, '/') ? strrchr(path, '/') + 1 : path, keys, typed);
}

int main(int count, char **paths)
{
    struct xkb_context *context = xkb_context_new(XKB_CONTEXT_NO_FLAGS);
    compare("character", KEYSYMS, xkc_keysym_character, xkb_keysym_to_utf32);
    compare("upper case", KEYSYMS, xkc_keysym_upper, xkb_keysym_to_upper);
    compare("lower case", KEYSYMS, xkc_keysym_lower, xkb_keysym_to_lower);
    compare("keysym", CHARACTERS, xkc_character_keysym, xkb_utf32_to_keysym);
    for (int i = 1; i < count; i++) {
        struct pair pair = pair_of(context, paths[i]);
        play(&pair, paths[i]);
        xkc_follower_end(&pair.follower);
        xkc_keymap_end(&pair.compiled);
        xkb_state_unref(pair.state);
        xkb_keymap_unref(pair.keymap);
    }
    xkb_context_unref(context);
    printf("%lu differences\n", differences);
    return differences > 0;
}
