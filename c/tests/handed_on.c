/* Handles of the real library are handed on to it, and compose is its own. Without it there are no tables of compose. */
#define _GNU_SOURCE
#include "check.h"
#include <dlfcn.h>
#include <xkbcommon/xkbcommon-compose.h>
#include <xkbcommon/xkbcommon.h>

static const char KEYMAP[] =
    "xkb_keymap { xkb_keycodes { <A>=38; <L>=50; }; xkb_types { virtual_modifiers Odd; type \"ALPHABETIC\" { modifiers=Shift; map[Shift]=Level2; }; }; xkb_compat { interpret Any { repeat=yes; }; };\n"
    "xkb_symbols { key <A> {[a, A]}; key <L> {[Shift_L], actions[1]=[SetMods(modifiers=Shift)]}; }; };\n";
static const char COMPOSE[] = "<a> <b> : \"c\" c\n";

static void *library;
#define REAL(name) ((__typeof__(&name))dlsym(library, #name))

static void handles(void)
{
    struct xkb_context *context = REAL(xkb_context_new)(XKB_CONTEXT_NO_DEFAULT_INCLUDES);
    struct xkb_keymap *m = REAL(xkb_keymap_new_from_string)(context, KEYMAP, XKB_KEYMAP_FORMAT_TEXT_V1, XKB_KEYMAP_COMPILE_NO_FLAGS);
    holds(m && REAL(xkb_keymap_new_from_string) != xkb_keymap_new_from_string, "the real library makes a keymap");
    holds(xkb_keymap_ref(m) == m && xkb_keymap_min_keycode(m) == 38 && xkb_keymap_mod_get_index(m, "Odd") == 8, "which has what it has");
    xkb_keymap_unref(m);
    struct xkb_state *s = xkb_state_new(m);
    holds(xkb_state_get_keymap(s) == m && xkb_state_update_key(s, 50, XKB_KEY_DOWN) & XKB_STATE_MODS_DEPRESSED && xkb_state_key_get_one_sym(s, 38) == XKB_KEY_A, "a state over it");
    holds(xkb_state_mod_names_are_active(s, XKB_STATE_MODS_EFFECTIVE, XKB_STATE_MATCH_ALL, "Shift", NULL) == 1, "and what is active in it");
    char *text = xkb_keymap_get_as_string(m, XKB_KEYMAP_FORMAT_TEXT_V1);
    holds(text && strstr(text, "virtual_modifiers Odd"), "its text");
    free(text);
    xkb_state_unref(s);
    xkb_keymap_unref(m);
    holds(xkb_context_include_path_append(context, "/") && xkb_context_num_include_paths(context) == 1, "its context");
    xkb_context_unref(context);
}

static void compose(void)
{
    struct xkb_context *context = xkb_context_new(XKB_CONTEXT_NO_DEFAULT_INCLUDES);
    struct xkb_compose_table *table =
        xkb_compose_table_new_from_buffer(context, COMPOSE, strlen(COMPOSE), "C", XKB_COMPOSE_FORMAT_TEXT_V1, XKB_COMPOSE_COMPILE_NO_FLAGS);
    if (!library) {
        holds(!table, "there is no table of compose");
    } else {
        struct xkb_compose_state *s = xkb_compose_state_new(table, XKB_COMPOSE_STATE_NO_FLAGS);
        char text[8];
        holds(xkb_compose_state_feed(s, XKB_KEY_a) == XKB_COMPOSE_FEED_ACCEPTED && xkb_compose_state_get_status(s) == XKB_COMPOSE_COMPOSING, "a key composes");
        xkb_compose_state_feed(s, XKB_KEY_b);
        holds(xkb_compose_state_get_status(s) == XKB_COMPOSE_COMPOSED && xkb_compose_state_get_one_sym(s) == XKB_KEY_c, "the second ends it");
        holds(xkb_compose_state_get_utf8(s, text, sizeof text) == 1 && !strcmp(text, "c") && xkb_compose_state_get_compose_table(s) == table, "its text");
        xkb_compose_state_unref(s);
    }
    xkb_context_unref(context);
    xkb_compose_table_unref(table);
}

int main(int count, char **words)
{
    library = count == 2 ? dlopen(words[1], RTLD_NOW) : NULL;
    if (library) handles();
    compose();
    return counted();
}
