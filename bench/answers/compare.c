/* compare OURS REAL < LAYOUTS: what two libraries of libxkbcommon's calls answer of the keymap of each layout, named as us or
 * de(neo): what it has, what a thousand events by chance give, and a hundred states that are told. A line tells the first answer
 * of each kind that differs. */
#define _GNU_SOURCE
#include <dlfcn.h>
#include <stdio.h>
#include <stdlib.h>
#include <string.h>
#include <xkbcommon/xkbcommon.h>

/* The key of XF86EmojiPicker, a name that libxkbcommon 1.5 doesn't have. */
enum { EVENTS = 1000, MOST_KINDS = 32, NEWER_KEY = 593 };

#define CALLS(call)                                                                                                           \
    call(xkb_context_new) call(xkb_context_unref) call(xkb_context_set_log_level) call(xkb_keymap_new_from_names)             \
    call(xkb_keymap_unref) call(xkb_keymap_min_keycode) call(xkb_keymap_max_keycode) call(xkb_keymap_num_mods)                \
    call(xkb_keymap_mod_get_name) call(xkb_keymap_num_layouts) call(xkb_keymap_layout_get_name) call(xkb_keymap_num_leds)     \
    call(xkb_keymap_led_get_name) call(xkb_keymap_key_get_name) call(xkb_keymap_key_by_name) call(xkb_keymap_key_repeats)     \
    call(xkb_keymap_num_layouts_for_key) call(xkb_keymap_num_levels_for_key) call(xkb_keymap_key_get_syms_by_level)           \
    call(xkb_keymap_key_get_mods_for_level) call(xkb_state_new) call(xkb_state_unref) call(xkb_state_update_key)              \
    call(xkb_state_update_mask) call(xkb_state_serialize_mods) call(xkb_state_serialize_layout) call(xkb_state_key_get_syms)  \
    call(xkb_state_key_get_one_sym) call(xkb_state_key_get_utf8) call(xkb_state_key_get_utf32)                                \
    call(xkb_state_key_get_consumed_mods2) call(xkb_state_led_index_is_active) call(xkb_state_key_get_level)

static struct library {
#define DECLARED(name) __typeof__(&name) name;
    CALLS(DECLARED)
    struct xkb_context *context;
    struct xkb_keymap *keymap;
    struct xkb_state *state;
} ours, real;

static const char *layout;
static const char *seen[MOST_KINDS];
static unsigned long differences, compared, layouts, alike;

static void same(const char *kind, unsigned long of, unsigned long a, unsigned long b)
{
    compared++;
    if (a == b) return;
    differences++;
    int i = 0;
    while (i < MOST_KINDS && seen[i] && strcmp(seen[i], kind)) i++;
    if (i == MOST_KINDS || seen[i]) return;
    seen[i] = kind;
    printf("%s: %s of %lu: %lx, by libxkbcommon %lx\n", layout, kind, of, a, b);
}

static void same_text(const char *kind, unsigned long of, const char *a, const char *b)
{
    same(kind, of, a && b ? (unsigned long)!!strcmp(a, b) : (unsigned long)!!a, a && b ? 0 : (unsigned long)!!b);
}

static void same_keysyms(const char *kind, unsigned long of, int count, const xkb_keysym_t *a, int other, const xkb_keysym_t *b)
{
    same(kind, of, (unsigned long)count, (unsigned long)other);
    for (int i = 0; i < count && i < other; i++) same(kind, of, a[i], b[i]);
}

#define SAME(kind, of, name, ...) same(kind, of, (unsigned long)ours.name(ours.__VA_ARGS__), (unsigned long)real.name(real.__VA_ARGS__))

static void compare_key(xkb_keycode_t code)
{
    SAME("layouts", code, xkb_keymap_num_layouts_for_key, keymap, code);
    SAME("repeats", code, xkb_keymap_key_repeats, keymap, code);
    same_text("name", code, ours.xkb_keymap_key_get_name(ours.keymap, code), real.xkb_keymap_key_get_name(real.keymap, code));
    for (xkb_layout_index_t group = 0; group < real.xkb_keymap_num_layouts_for_key(real.keymap, code); group++) {
        SAME("levels", code, xkb_keymap_num_levels_for_key, keymap, code, group);
        for (xkb_level_index_t level = 0; level < real.xkb_keymap_num_levels_for_key(real.keymap, code, group); level++) {
            const xkb_keysym_t *a, *b;
            int count = ours.xkb_keymap_key_get_syms_by_level(ours.keymap, code, group, level, &a);
            int others = real.xkb_keymap_key_get_syms_by_level(real.keymap, code, group, level, &b);
            same_keysyms("keysyms", code, count, a, others, b);
            xkb_mod_mask_t these[32], those[32];
            size_t masks = ours.xkb_keymap_key_get_mods_for_level(ours.keymap, code, group, level, these, 32);
            size_t other = real.xkb_keymap_key_get_mods_for_level(real.keymap, code, group, level, those, 32);
            same("modifiers of a level", code, masks, other);
            for (size_t i = 0; i < masks && i < other; i++) same("modifiers of a level", code, these[i], those[i]);
        }
    }
}

static void compare_names(void)
{
    SAME("least code", 0, xkb_keymap_min_keycode, keymap);
    SAME("greatest code", 0, xkb_keymap_max_keycode, keymap);
    SAME("number of modifiers", 0, xkb_keymap_num_mods, keymap);
    SAME("number of layouts", 0, xkb_keymap_num_layouts, keymap);
    SAME("number of indicators", 0, xkb_keymap_num_leds, keymap);
    for (xkb_mod_index_t i = 0; i < real.xkb_keymap_num_mods(real.keymap); i++)
        same_text("name of a modifier", i, ours.xkb_keymap_mod_get_name(ours.keymap, i), real.xkb_keymap_mod_get_name(real.keymap, i));
    for (xkb_layout_index_t i = 0; i < real.xkb_keymap_num_layouts(real.keymap); i++)
        same_text("name of a layout", i, ours.xkb_keymap_layout_get_name(ours.keymap, i), real.xkb_keymap_layout_get_name(real.keymap, i));
    for (xkb_led_index_t i = 0; i < real.xkb_keymap_num_leds(real.keymap); i++)
        same_text("name of an indicator", i, ours.xkb_keymap_led_get_name(ours.keymap, i), real.xkb_keymap_led_get_name(real.keymap, i));
    static const char *const names[] = {"AE01", "LatQ", "AC12", "MENU", "ALGR", "LSGT", "I372", "none", ""};
    for (unsigned i = 0; i < sizeof names / sizeof *names; i++) SAME("code of a name", i, xkb_keymap_key_by_name, keymap, names[i]);
}

/* What the state is, and what a key gives in it. */
static void compare_state(xkb_keycode_t code)
{
    for (unsigned part = 1; part <= XKB_STATE_MODS_EFFECTIVE; part *= 2) SAME("modifiers", code, xkb_state_serialize_mods, state, (enum xkb_state_component)part);
    for (unsigned part = XKB_STATE_LAYOUT_DEPRESSED; part <= XKB_STATE_LAYOUT_EFFECTIVE; part *= 2)
        SAME("layout", code, xkb_state_serialize_layout, state, (enum xkb_state_component)part);
    for (xkb_led_index_t i = 0; i < real.xkb_keymap_num_leds(real.keymap); i++) SAME("lit indicator", i, xkb_state_led_index_is_active, state, i);
    const xkb_keysym_t *a, *b;
    int count = ours.xkb_state_key_get_syms(ours.state, code, &a);
    int others = real.xkb_state_key_get_syms(real.state, code, &b);
    same_keysyms("keysyms of a key", code, count, a, others, b);
    SAME("one keysym", code, xkb_state_key_get_one_sym, state, code);
    SAME("character", code, xkb_state_key_get_utf32, state, code);
    SAME("level", code, xkb_state_key_get_level, state, code, 0);
    SAME("used up", code, xkb_state_key_get_consumed_mods2, state, code, XKB_CONSUMED_MODE_XKB);
    SAME("used up for GTK", code, xkb_state_key_get_consumed_mods2, state, code, XKB_CONSUMED_MODE_GTK);
    char these[64], those[64];
    same("size of a text", code, (unsigned long)ours.xkb_state_key_get_utf8(ours.state, code, these, 64), (unsigned long)real.xkb_state_key_get_utf8(real.state, code, those, 64));
    same_text("text", code, these, those);
}

/* Keys are pressed and let go, mostly those that change the state, and at times a state is told. */
static void compare_events(void)
{
    static const uint8_t changing[] = {37, 50, 62, 64, 66, 77, 105, 108, 133, 51, 94};
    uint8_t is_down[256] = {0};
    for (int i = 0; i < EVENTS; i++) {
        xkb_keycode_t code = rand() % 2 ? changing[rand() % (int)sizeof changing] : (xkb_keycode_t)(9 + rand() % 120);
        is_down[code] ^= 1;
        SAME("changes", code, xkb_state_update_key, state, code, is_down[code] ? XKB_KEY_DOWN : XKB_KEY_UP);
        compare_state((xkb_keycode_t)(9 + rand() % 120));
        if (i % 25 == 24) {
            /* as a compositor that locks Caps Lock, Num Lock and a layout */
            xkb_mod_mask_t locked = rand() & 0x12u;
            xkb_layout_index_t group = (unsigned)rand() % 4;
            SAME("changes by locks", code, xkb_state_update_mask, state, ours.xkb_state_serialize_mods(ours.state, XKB_STATE_MODS_DEPRESSED), 0, locked, 0, 0, group);
            compare_state((xkb_keycode_t)(9 + rand() % 120));
        }
    }
    for (int i = 0; i < EVENTS / 10; i++) {
        xkb_mod_mask_t base = rand() % 256u, latched = rand() % 256u, locked = (unsigned)rand() % (1u << 20);
        xkb_layout_index_t group = (unsigned)rand() % 4;
        SAME("changes by a mask", i, xkb_state_update_mask, state, base, latched, locked, 0, 0, group);
        compare_state((xkb_keycode_t)(9 + rand() % 120));
    }
}

static void open_keymap(struct library *library, const struct xkb_rule_names *names)
{
    library->context = library->xkb_context_new(XKB_CONTEXT_NO_ENVIRONMENT_NAMES);
    library->xkb_context_set_log_level(library->context, (enum xkb_log_level)0);
    library->keymap = library->xkb_keymap_new_from_names(library->context, names, XKB_KEYMAP_COMPILE_NO_FLAGS);
    library->state = library->keymap ? library->xkb_state_new(library->keymap) : NULL;
}

static void close_keymap(struct library *library)
{
    library->xkb_state_unref(library->state);
    library->xkb_keymap_unref(library->keymap);
    library->xkb_context_unref(library->context);
}

static void compare(char *line)
{
    layout = strdup(line);
    char *variant = strchr(line, '(');
    if (variant) *variant++ = 0, variant[strcspn(variant, ")")] = 0;
    const struct xkb_rule_names names = {"evdev", "pc105", line, variant ? variant : "", ""};
    open_keymap(&ours, &names), open_keymap(&real, &names);
    memset(seen, 0, sizeof seen);
    differences = 0;
    same("keymap", 0, !!ours.keymap, !!real.keymap);
    if (ours.keymap && real.keymap) {
        compare_names();
        for (xkb_keycode_t code = real.xkb_keymap_min_keycode(real.keymap); code <= real.xkb_keymap_max_keycode(real.keymap); code++)
            if (code != NEWER_KEY) compare_key(code);
        compare_events();
    }
    layouts++;
    alike += !differences;
    close_keymap(&ours), close_keymap(&real);
}

/* Each calls its own functions alone. */
static void *opened(const char *path, struct library *library, Lmid_t space)
{
    void *handle = dlmopen(space, path, RTLD_NOW | RTLD_LOCAL);
#define FOUND(name) library->name = handle ? (__typeof__(library->name))dlsym(handle, #name) : NULL;
    CALLS(FOUND)
    return handle;
}

int main(int count, char **words)
{
    char line[128];
    if (count != 3 || !opened(words[1], &ours, LM_ID_BASE) || !opened(words[2], &real, LM_ID_NEWLM)) return 2;
    srand(1);
    while (fgets(line, sizeof line, stdin)) {
        line[strcspn(line, "\n")] = 0;
        compare(line);
    }
    printf("%lu layouts, %lu alike, %lu answers\n", layouts, alike, compared);
    return layouts != alike;
}
