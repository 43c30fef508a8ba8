/* A fuzzer of libxkbcommon's calls over xkc.h, for libFuzzer: the input's bytes choose the calls and what they are given.
 *
 *   clang -g -O1 -fsanitize=fuzzer,address,undefined -fno-sanitize-recover=all .. c/tests/fuzz.c c/xkbcommon/ *.c libxkc.a
 *
 * Beside what the sanitizers see, `must` states what every answer keeps to. */
#define _GNU_SOURCE
#include <stdarg.h>
#include <stdbool.h>
#include <stdint.h>
#include <stdio.h>
#include <stdlib.h>
#include <string.h>
#include <xkbcommon/xkbcommon.h>

enum { PLACES = 4, MOST_CALLS = 400 };

/* Modifiers that are set, latched and locked, groups, virtual modifiers, aliases, indicators, ranges, several keysyms. */
static const char DESK[] =
    "xkb_keymap {\n"
    "xkb_keycodes { <A>=10; <B>=11; <S>=12; <L>=13; <C>=14; <G>=15; <M>=16; <N>=17; <V>=40; alias <Z>=<A>; indicator 3=\"Caps\"; indicator 1=\"Other\"; };\n"
    "xkb_types { virtual_modifiers Meta=Mod1, Level, Odd;\n"
    " type \"TWO_LEVEL\" { modifiers=Shift; map[Shift]=2; };\n"
    " type \"ALPHABETIC\" { modifiers=Shift+Lock; map[Shift]=2; map[Lock]=2; preserve[Lock]=Lock; };\n"
    " type \"MANY\" { modifiers=Shift+Meta+Level; map[Shift]=2; map[Meta]=3; map[Shift+Meta]=4; map[Level]=5; preserve[Meta]=Meta; }; };\n"
    "xkb_compat { interpret.repeat=no; interpret Meta_L { virtualModifier=Meta; action=SetMods(modifiers=Meta); };\n"
    " indicator \"Caps\" { modifiers=Lock; whichModState=locked; }; indicator \"Group\" { groups=0x6; whichGroupState=effective; }; };\n"
    "xkb_symbols { name[Group1]=\"One\"; name[Group3]=\"Three\";\n"
    " key <A> {[a, A], [Cyrillic_ef, Cyrillic_EF], [U1F600, EuroSign]};\n"
    " key <B> {type=\"MANY\", groupsClamp, [b, B, {h, e, l, l, o}, NoSymbol, F1]};\n"
    " key <S> {[Shift_L], actions[1]=[SetMods(modifiers=Shift,clearLocks)], repeat=no};\n"
    " key <L> {[Shift_R], actions[1]=[LatchMods(modifiers=Shift,clearLocks,latchToLock)]};\n"
    " key <C> {[Caps_Lock], actions[1]=[LockMods(modifiers=Lock)]};\n"
    " key <G> {[ISO_Next_Group], actions[1]=[LockGroup(group=+1)]};\n"
    " key <M> {[Meta_L], groupsRedirect=2}; key <N> {[Control_L], actions[1]=[SetMods(modifiers=Control)]};\n"
    " key <V> {[x], [y], actions[1]=[LatchGroup(group=+1)], actions[2]=[SetGroup(group=-1)]};\n"
    " modifier_map Mod1 { <M> }; modifier_map Control { <N> }; };\n"
    "};\n";
static const char EMPTY[] = "xkb_keymap { xkb_keycodes { }; xkb_types { }; xkb_compat { }; xkb_symbols { }; };";
static const char *const TEXTS[] = {DESK, EMPTY, "xkb_keymap { xkb_keycodes { <A>=4095; <B>=0; }; xkb_symbols { key <A> {[a]}; }; };", "xkb_keymap {", ""};

static const uint8_t *input;
static size_t left;
static struct xkb_context *context, *own_context;
static struct xkb_keymap *desk; /* compiled once, for all inputs */
static struct xkb_keymap *keymaps[PLACES];
static struct xkb_state *states[PLACES];

static void must(bool truth, const char *what)
{
    if (truth) return;
    fprintf(stderr, "not so: %s\n", what);
    abort();
}

/* ---- What the input gives */

static uint8_t byte(void)
{
    if (!left) return 0;
    left--;
    return *input++;
}

static uint32_t word(void)
{
    uint32_t number = byte();
    for (int i = 0; i < 3; i++) number = number << 8 | byte();
    return number;
}

/* Mostly small numbers, at times any. */
static uint32_t number(void)
{
    uint8_t first = byte();
    return first < 0xf0 ? first : first < 0xf8 ? word() : ~(uint32_t)(first & 7);
}

/* Some of the input's bytes as a text, to be freed. */
static char *text(void)
{
    size_t size = byte();
    if (size > left) size = left;
    char *copy = malloc(size + 1);
    memcpy(copy, input, size);
    copy[size] = 0;
    input += size;
    left -= size;
    return copy;
}

/* ---- Keymaps and states come and go */

static void put_keymap(struct xkb_keymap *m)
{
    int place = byte() % PLACES;
    xkb_keymap_unref(keymaps[place]);
    keymaps[place] = m;
}

static void make_keymap(void)
{
    uint8_t which = byte();
    if (which < 0xe0) {
        const char *whole = which & 0x10 ? TEXTS[which % (sizeof TEXTS / sizeof *TEXTS)] : EMPTY;
        put_keymap(xkb_keymap_new_from_string(context, whole, XKB_KEYMAP_FORMAT_TEXT_V1, XKB_KEYMAP_COMPILE_NO_FLAGS));
        return;
    }
    /* the desk's text with some bytes changed, or any bytes */
    char *own = which & 1 ? strdup(DESK) : text();
    size_t size = strlen(own);
    for (int i = which & 15; size && i > 0; i--) own[(uint32_t)(byte() << 8 | byte()) % size] = (char)byte();
    FILE *file = which & 2 ? fmemopen(own, size ? size : 1, "r") : NULL;
    put_keymap(file ? xkb_keymap_new_from_file(context, file, XKB_KEYMAP_FORMAT_TEXT_V1, XKB_KEYMAP_COMPILE_NO_FLAGS)
                    : xkb_keymap_new_from_buffer(context, own, size, (enum xkb_keymap_format)(which & 4 ? 1 : byte()), (enum xkb_keymap_compile_flags)(which & 4 ? 0 : byte())));
    if (file) fclose(file);
    free(own);
}

static void make_state(struct xkb_keymap *m)
{
    int place = byte() % PLACES;
    struct xkb_state *s = xkb_state_new(m);
    xkb_state_unref(states[place]);
    states[place] = s;
}

static void name_keymap(void)
{
    char *names[5];
    for (int i = 0; i < 5; i++) names[i] = text();
    const struct xkb_rule_names asked = {names[0], names[1], names[2], names[3], names[4]};
    put_keymap(xkb_keymap_new_from_names(context, &asked, XKB_KEYMAP_COMPILE_NO_FLAGS));
    for (int i = 0; i < 5; i++) free(names[i]);
}

/* ---- Queries */

static void print_keymap(struct xkb_keymap *m)
{
    char *first = xkb_keymap_get_as_string(m, XKB_KEYMAP_USE_ORIGINAL_FORMAT);
    must(first, "a keymap has a text");
    struct xkb_keymap *again = xkb_keymap_new_from_string(context, first, XKB_KEYMAP_FORMAT_TEXT_V1, XKB_KEYMAP_COMPILE_NO_FLAGS);
    must(again, "its text is read");
    char *second = xkb_keymap_get_as_string(again, XKB_KEYMAP_FORMAT_TEXT_V1);
    must(second && !strcmp(first, second), "and printed alike");
    xkb_keymap_unref(again);
    free(first);
    free(second);
    free(xkb_keymap_get_as_string(m, (enum xkb_keymap_format)byte()));
}

static void count_code(struct xkb_keymap *m, xkb_keycode_t code, void *data)
{
    const char *name = xkb_keymap_key_get_name(m, code);
    must(!name || xkb_keymap_key_by_name(m, name) != XKB_KEYCODE_INVALID, "a key is found by its name");
    ++*(uint32_t *)data;
}

static void ask_names(struct xkb_keymap *m)
{
    uint32_t count = 0, any = number();
    char *name = text();
    xkb_keymap_key_for_each(m, count_code, &count);
    must(count == xkb_keymap_max_keycode(m) - xkb_keymap_min_keycode(m) + 1, "each code is visited");
    for (xkb_mod_index_t i = 0; i < xkb_keymap_num_mods(m); i++) must(xkb_keymap_mod_get_index(m, xkb_keymap_mod_get_name(m, i)) <= i, "a modifier is found by its name");
    for (xkb_led_index_t i = 0; i < xkb_keymap_num_leds(m); i++)
        if (xkb_keymap_led_get_name(m, i)) must(xkb_keymap_led_get_index(m, xkb_keymap_led_get_name(m, i)) <= i, "an indicator is found by its name");
    xkb_keymap_key_by_name(m, name), xkb_keymap_mod_get_index(m, name), xkb_keymap_led_get_index(m, name), xkb_keymap_layout_get_index(m, name);
    xkb_keymap_key_get_name(m, any), xkb_keymap_mod_get_name(m, any), xkb_keymap_led_get_name(m, any), xkb_keymap_layout_get_name(m, any);
    free(name);
}

static void ask_key(struct xkb_keymap *m)
{
    xkb_keycode_t code = number();
    xkb_layout_index_t layout = number();
    xkb_level_index_t level = number();
    const xkb_keysym_t *keysyms;
    xkb_mod_mask_t masks[4];
    size_t room = byte() % 5;
    must(xkb_keymap_key_get_mods_for_level(m, code, layout, level, masks, room) <= room, "no more masks than there is room for");
    int count = xkb_keymap_key_get_syms_by_level(m, code, layout, level, &keysyms);
    must(count >= 0 && !count == !keysyms, "keysyms and their number");
    for (int i = 0; i < count; i++) must(keysyms[i] <= 0x1fffffff, "a keysym");
    must(xkb_keymap_num_layouts_for_key(m, code) <= xkb_keymap_num_layouts(m), "a key's layouts");
    xkb_keymap_num_levels_for_key(m, code, layout), xkb_keymap_key_repeats(m, code);
}

static void ask_look(struct xkb_state *s)
{
    xkb_keycode_t code = number();
    const xkb_keysym_t *keysyms;
    size_t room = byte() % 40;
    char *buffer = malloc(room);
    int size = xkb_state_key_get_utf8(s, code, buffer, room);
    must(size >= 0 && (!room || strnlen(buffer, room) < room), "a text ends within its room");
    free(buffer);
    int count = xkb_state_key_get_syms(s, code, &keysyms);
    must(count >= 0 && !count == !keysyms, "keysyms in a state");
    must(count == 1 || xkb_state_key_get_one_sym(s, code) == XKB_KEY_NoSymbol, "one keysym");
    xkb_layout_index_t layout = xkb_state_key_get_layout(s, code);
    must(layout == XKB_LAYOUT_INVALID || xkb_state_key_get_level(s, code, layout) < xkb_keymap_num_levels_for_key(xkb_state_get_keymap(s), code, layout), "a level that there is");
    xkb_state_key_get_utf32(s, code), xkb_state_key_get_level(s, code, number());
    enum xkb_consumed_mode mode = (enum xkb_consumed_mode)(byte() % 3);
    xkb_mod_mask_t consumed = xkb_state_key_get_consumed_mods2(s, code, mode), mask = number();
    must(!(xkb_state_mod_mask_remove_consumed(s, code, mask) & ~mask), "what is left is part of the mask");
    must(consumed <= 0xff && xkb_state_key_get_consumed_mods(s, code) <= 0xff, "real modifiers are consumed");
    xkb_state_mod_index_is_consumed(s, code, number()), xkb_state_mod_index_is_consumed2(s, code, number(), mode);
}

static void ask_active(struct xkb_state *s)
{
    enum xkb_state_component parts = (enum xkb_state_component)number();
    enum xkb_state_match how = (enum xkb_state_match)number();
    char *name = text();
    uint32_t first = number(), second = number();
    xkb_mod_mask_t mods = xkb_state_serialize_mods(s, parts);
    must(!(mods >> (xkb_keymap_num_mods(xkb_state_get_keymap(s)) & 31)) || xkb_keymap_num_mods(xkb_state_get_keymap(s)) == 32, "modifiers that there are");
    xkb_state_serialize_layout(s, parts);
    must(xkb_state_serialize_layout(s, XKB_STATE_LAYOUT_EFFECTIVE) <= xkb_keymap_num_layouts(xkb_state_get_keymap(s)), "a layout that there is");
    xkb_state_mod_index_is_active(s, first, parts), xkb_state_mod_name_is_active(s, name, parts);
    xkb_state_mod_indices_are_active(s, parts, how, first, second, XKB_MOD_INVALID), xkb_state_mod_names_are_active(s, parts, how, "Shift", name, NULL);
    xkb_state_layout_index_is_active(s, first, parts), xkb_state_layout_name_is_active(s, name, parts);
    xkb_state_led_index_is_active(s, first), xkb_state_led_name_is_active(s, name);
    free(name);
}

static void ask_keysym(void)
{
    xkb_keysym_t keysym = byte() & 1 ? number() : word();
    size_t room = byte() % 70;
    char *buffer = malloc(room), whole[80];
    int size = xkb_keysym_get_name(keysym, buffer, room);
    must(!room || strnlen(buffer, room) < room, "a name ends within its room");
    free(buffer);
    if (size >= 0 && keysym) {
        xkb_keysym_get_name(keysym, whole, sizeof whole);
        must(xkb_keysym_from_name(whole, XKB_KEYSYM_NO_FLAGS) == keysym || (keysym > 0x01000000 && keysym < 0x01000100), "a name is that of its keysym");
    }
    char *name = text();
    xkb_keysym_from_name(name, (enum xkb_keysym_flags)(byte() % 3));
    free(name);
    int count = xkb_keysym_to_utf8(keysym, whole, byte() % 9 < 7 ? 7 : 6);
    must(count <= 7 && (count <= 0 || !whole[count - 1]), "a character's bytes");
    xkb_keysym_to_upper(keysym), xkb_keysym_to_lower(keysym), xkb_utf32_to_keysym(keysym);
}

static void tell_nobody(struct xkb_context *c, enum xkb_log_level level, const char *format, va_list args)
{
    char line[64];
    (void)c, (void)level;
    vsnprintf(line, sizeof line, format, args);
}

static void change_context(void)
{
    char *path = text();
    switch (byte() % 6) {
    case 0: xkb_context_include_path_append(context, path); break;
    case 1: xkb_context_include_path_append(context, "/"); break;
    case 2: xkb_context_include_path_clear(context); break;
    case 3: xkb_context_set_log_level(context, (enum xkb_log_level)byte()); break;
    case 4: xkb_context_set_log_verbosity(context, byte()); break;
    default: xkb_context_unref(xkb_context_ref(context)); break;
    }
    must(!xkb_context_include_path_get(context, xkb_context_num_include_paths(context)), "no more folders than there are");
    free(path);
}

/* ---- A call */

static void call(void)
{
    uint8_t which = byte();
    struct xkb_keymap *m = keymaps[which >> 4 & 3];
    struct xkb_state *s = states[which >> 4 & 3];
    switch (which & 15) {
    case 0: make_keymap(); return;
    case 1: name_keymap(); return;
    case 2: ask_keysym(); return;
    case 3: change_context(); return;
    case 4: put_keymap(m ? xkb_keymap_ref(m) : NULL); return;
    case 5: if (m) make_state(m); return;
    case 6: if (m) print_keymap(m); return;
    case 7: if (m) ask_names(m); return;
    case 8: if (m) ask_key(m); return;
    case 9: if (s) ask_look(s); return;
    case 10: if (s) ask_active(s); return;
    case 11: if (s) xkb_state_update_mask(s, number(), number(), number(), number(), number(), number()); return;
    case 12: if (s) xkb_state_unref(xkb_state_ref(s)); return;
    default: if (s) xkb_state_update_key(s, number(), (enum xkb_key_direction)(byte() & 1)); return;
    }
}

int LLVMFuzzerTestOneInput(const uint8_t *data, size_t size);

int LLVMFuzzerTestOneInput(const uint8_t *data, size_t size)
{
    input = data;
    left = size;
    context = xkb_context_new(XKB_CONTEXT_NO_DEFAULT_INCLUDES);
    xkb_context_set_log_fn(context, tell_nobody);
    if (!desk) {
        own_context = xkb_context_new(XKB_CONTEXT_NO_DEFAULT_INCLUDES);
        xkb_context_set_log_fn(own_context, tell_nobody);
        desk = xkb_keymap_new_from_string(own_context, DESK, XKB_KEYMAP_FORMAT_TEXT_V1, XKB_KEYMAP_COMPILE_NO_FLAGS);
        must(desk, "the desk is compiled");
    }
    keymaps[0] = xkb_keymap_ref(desk);
    states[0] = xkb_state_new(desk);
    for (int i = 0; left && i < MOST_CALLS; i++) call();
    for (int i = 0; i < PLACES; i++) {
        xkb_state_unref(states[i]);
        xkb_keymap_unref(keymaps[i]);
        keymaps[i] = NULL;
        states[i] = NULL;
    }
    xkb_context_unref(context);
    return 0;
}
