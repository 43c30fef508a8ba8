// Compares what libxkbcommon answers of two texts of one keymap: compare SOURCE TEXT. A line is printed for each thing that
// differs: repeat, alias, modifier, indicator, group, groups, chosen, consumed. The last line counts what was compared. Keys with a
// keysym whose name libxkbcommon doesn't know are left out, and so are levels that no modifiers choose.
#include <stdio.h>
#include <stdlib.h>
#include <string.h>
#include <xkbcommon/xkbcommon.h>

enum { REAL = 8, SETS = 1 << REAL };

static unsigned long compared;

static char *read_file(const char *path) {
    FILE *file = fopen(path, "rb");
    if (!file) {
        perror(path);
        exit(2);
    }
    size_t length = 0, room = 1 << 20;
    char *text = malloc(room);
    for (size_t got; (got = fread(text + length, 1, room - length - 1, file)) > 0;) {
        length += got;
        if (room - length < 2) text = realloc(text, room *= 2);
    }
    fclose(file);
    text[length] = 0;
    return text;
}

static struct xkb_keymap *keymap_of(struct xkb_context *context, const char *path) {
    char *text = read_file(path);
    struct xkb_keymap *keymap =
        xkb_keymap_new_from_string(context, text, XKB_KEYMAP_FORMAT_TEXT_V1, XKB_KEYMAP_COMPILE_NO_FLAGS);
    free(text);
    if (!keymap) {
        printf("refused %s\n", path);
        exit(1);
    }
    return keymap;
}

static const char *shown(const char *name) { return name ? name : "(none)"; }

static int is_other(const char *one, const char *other) { return strcmp(shown(one), shown(other)) != 0; }

// The real modifiers that a modifier stands for.
static xkb_mod_mask_t stands_for(struct xkb_keymap *keymap, xkb_mod_index_t number) {
    struct xkb_state *state = xkb_state_new(keymap);
    xkb_state_update_mask(state, 1u << number, 0, 0, 0, 0, 0);
    xkb_mod_mask_t mask = xkb_state_serialize_mods(state, XKB_STATE_MODS_EFFECTIVE) & (SETS - 1);
    xkb_state_unref(state);
    return mask;
}

static void compare_modifiers(struct xkb_keymap *one, struct xkb_keymap *other) {
    for (xkb_mod_index_t number = 0; number < xkb_keymap_num_mods(one); number++) {
        const char *name = xkb_keymap_mod_get_name(one, number);
        xkb_mod_index_t found = xkb_keymap_mod_get_index(other, name);
        compared++;
        if (found != number) {
            printf("modifier %s has number %d and %d\n", name, (int)number, (int)found);
            continue;
        }
        if (stands_for(one, number) != stands_for(other, number))
            printf("modifier %s stands for %x and %x\n", name, stands_for(one, number), stands_for(other, number));
    }
    if (xkb_keymap_num_mods(one) != xkb_keymap_num_mods(other)) puts("modifier counts differ");
}

// Each name of a key that the first text has between < and >, those of aliases among them.
static void compare_names(struct xkb_keymap *one, struct xkb_keymap *other) {
    char *text = xkb_keymap_get_as_string(one, XKB_KEYMAP_FORMAT_TEXT_V1);
    for (char *at = text; (at = strchr(at, '<')); at++) {
        char name[64];
        size_t length = strcspn(at + 1, ">\n");
        if (length >= sizeof name || at[1 + length] != '>') continue;
        memcpy(name, at + 1, length);
        name[length] = 0;
        compared++;
        if (xkb_keymap_key_by_name(one, name) != xkb_keymap_key_by_name(other, name)) printf("alias %s\n", name);
    }
    free(text);
}

static void compare_words(struct xkb_keymap *one, struct xkb_keymap *other) {
    for (xkb_led_index_t number = 0; number < xkb_keymap_num_leds(one); number++) {
        const char *name = xkb_keymap_led_get_name(one, number);
        compared++;
        if (name && xkb_keymap_led_get_index(other, name) == XKB_LED_INVALID) printf("indicator %s\n", name);
    }
    if (xkb_keymap_num_layouts(one) != xkb_keymap_num_layouts(other)) puts("groups differ");
    for (xkb_layout_index_t group = 0; group < xkb_keymap_num_layouts(one); group++) {
        compared++;
        if (is_other(xkb_keymap_layout_get_name(one, group), xkb_keymap_layout_get_name(other, group)))
            printf("group %d\n", group + 1);
    }
}

// Whether a key of the first has a level without keysyms that the second has: libxkbcommon doesn't know its name in the source.
static int is_unknown(struct xkb_keymap *one, struct xkb_keymap *other, xkb_keycode_t code) {
    xkb_layout_index_t groups = xkb_keymap_num_layouts_for_key(one, code);
    for (xkb_layout_index_t group = 0; group < groups; group++)
        for (xkb_level_index_t level = 0; level < xkb_keymap_num_levels_for_key(one, code, group); level++) {
            const xkb_keysym_t *first, *second;
            if (!xkb_keymap_key_get_syms_by_level(one, code, group, level, &first) &&
                xkb_keymap_key_get_syms_by_level(other, code, group, level, &second))
                return 1;
        }
    return 0;
}

static void compare_chosen(struct xkb_state *one, struct xkb_state *other, xkb_keycode_t code, unsigned mods, int group) {
    const xkb_keysym_t *first, *second;
    int count = xkb_state_key_get_syms(one, code, &first);
    compared++;
    int others = xkb_state_key_get_syms(other, code, &second);
    xkb_mod_mask_t consumed = xkb_state_key_get_consumed_mods2(one, code, XKB_CONSUMED_MODE_XKB) & (SETS - 1);
    xkb_mod_mask_t consumed_too = xkb_state_key_get_consumed_mods2(other, code, XKB_CONSUMED_MODE_XKB) & (SETS - 1);
    if (count != others || memcmp(first, second, count * sizeof *first))
        printf("chosen of key %d modifiers %02x group %d\n", code, mods, group + 1);
    if (consumed != consumed_too)
        printf("consumed of key %d modifiers %02x group %d: %02x and %02x\n", code, mods, group + 1, consumed, consumed_too);
}

int main(int count, char **words) {
    if (count != 3) {
        fputs("usage: compare SOURCE TEXT\n", stderr);
        return 2;
    }
    struct xkb_context *context = xkb_context_new(XKB_CONTEXT_NO_FLAGS);
    xkb_context_set_log_level(context, XKB_LOG_LEVEL_CRITICAL);
    struct xkb_keymap *one = keymap_of(context, words[1]), *other = keymap_of(context, words[2]);
    xkb_keycode_t last = xkb_keymap_max_keycode(one);
    if (last < xkb_keymap_max_keycode(other)) last = xkb_keymap_max_keycode(other);
    compare_modifiers(one, other);
    compare_names(one, other);
    compare_words(one, other);
    unsigned char *unknown = calloc(last + 1, 1);
    for (xkb_keycode_t code = 0; code <= last; code++) {
        unknown[code] = is_unknown(one, other, code);
        if (unknown[code]) continue;
        compared++;
        if (xkb_keymap_key_repeats(one, code) != xkb_keymap_key_repeats(other, code))
            printf("repeat of key %d: %d and %d\n", code, xkb_keymap_key_repeats(one, code), xkb_keymap_key_repeats(other, code));
        if (xkb_keymap_num_layouts_for_key(one, code) != xkb_keymap_num_layouts_for_key(other, code))
            printf("groups of key %d\n", code);
    }
    struct xkb_state *first = xkb_state_new(one), *second = xkb_state_new(other);
    for (int group = 0; group < (int)xkb_keymap_num_layouts(one); group++)
        for (unsigned mods = 0; mods < SETS; mods++) {
            xkb_state_update_mask(first, mods, 0, 0, 0, 0, group);
            xkb_state_update_mask(second, mods, 0, 0, 0, 0, group);
            for (xkb_keycode_t code = 0; code <= last; code++)
                if (!unknown[code]) compare_chosen(first, second, code, mods, group);
        }
    printf("compared %lu\n", compared);
    return 0;
}
