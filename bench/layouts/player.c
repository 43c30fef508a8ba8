/* Plays random events on libxkbcommon, and compares what a keyboard of xkc answered to the same ones. Events are of keys that
 * the keymap has: what a code without a key does to a latch is a difference that docs/meaning.md tells.
 *
 *   player KEYMAP events SEED       prints event lines
 *   player KEYMAP check ANSWERS     prints each field in which the answers first differ from libxkbcommon's state
 *
 * The state is compared too, so a round ends at the first event behind which the two states differ. */
#include <stdio.h>
#include <stdlib.h>
#include <string.h>
#include <xkbcommon/xkbcommon.h>

enum { EVENTS = 60, HELD = 4, LONGEST = 4096 };

static const char *const modifiers[8] = {"Shift", "Lock", "Control", "Mod1", "Mod2", "Mod3", "Mod4", "Mod5"};

static int is_modifier_key(struct xkb_keymap *keymap, xkb_keycode_t code)
{
    const xkb_keysym_t *syms;
    int count = xkb_keymap_key_get_syms_by_level(keymap, code, 0, 0, &syms);
    return count > 0 && ((syms[0] >= 0xffe1 && syms[0] <= 0xffee) || (syms[0] >= 0xfe01 && syms[0] <= 0xfe13) ||
        syms[0] == 0xff7e || syms[0] == 0xff7f);
}

static xkb_keycode_t any_key(struct xkb_keymap *keymap)
{
    xkb_keycode_t least = xkb_keymap_min_keycode(keymap), most = xkb_keymap_max_keycode(keymap);
    int wants_modifier = rand() % 2;
    for (int turn = 0; turn < 2000; turn++) {
        xkb_keycode_t code = least + rand() % (most - least + 1);
        if (xkb_keymap_key_get_name(keymap, code) && (!wants_modifier || is_modifier_key(keymap, code)))
            return code;
    }
    return least;
}

static void print_events(struct xkb_keymap *keymap)
{
    xkb_keycode_t held[HELD];
    int count = 0;
    for (int i = 0; i < EVENTS; i++) {
        if (count == HELD || (count > 0 && rand() % 2)) {
            int at = rand() % count;
            printf("up %u\n", held[at]);
            held[at] = held[--count];
            continue;
        }
        xkb_keycode_t code = any_key(keymap);
        int is_held = 0;
        for (int at = 0; at < count; at++)
            is_held |= held[at] == code;
        if (!is_held) {
            held[count++] = code;
            printf("down %u\n", code);
        }
    }
}

static unsigned mods_of(const char *word)
{
    unsigned found = 0;
    char text[LONGEST];
    snprintf(text, sizeof text, "%s", word);
    for (char *name = strtok(text, "+"); name; name = strtok(NULL, "+"))
        for (int bit = 0; bit < 8; bit++)
            if (!strcmp(name, modifiers[bit]))
                found |= 1u << bit;
    return found;
}

static int has_syms(const char *word, const xkb_keysym_t *syms, int count)
{
    char text[LONGEST];
    int at = 0;
    if (!strcmp(word, "-") || !strcmp(word, "?"))
        return count == 0;
    snprintf(text, sizeof text, "%s", word);
    for (char *name = strtok(text, ","); name; name = strtok(NULL, ","), at++) {
        xkb_keysym_t sym = strlen(name) == 1 && *name >= '0' && *name <= '9' ? (xkb_keysym_t)*name : xkb_keysym_from_name(name, 0);
        if (at >= count || sym != syms[at])
            return 0;
    }
    return at == count;
}

/* The lit indicators, as ` lit=A,B` at the end of a line names them: each by its name in the keymap. (No layout has a name with a
 * comma or a byte that is written otherwise.) */
static int has_lit(const char *line, struct xkb_keymap *keymap, struct xkb_state *state)
{
    const char *names = strstr(line, " lit=");
    size_t told = 0, lit = 0;
    if (names)
        for (const char *at = names += strlen(" lit="); *at || at == names; at++)
            told += at == names || *at == ',';
    for (xkb_led_index_t led = 0; led < xkb_keymap_num_leds(keymap); led++) {
        const char *name = xkb_keymap_led_get_name(keymap, led);
        size_t size = name ? strlen(name) : 0;
        if (!name || xkb_state_led_index_is_active(state, led) <= 0)
            continue;
        lit++;
        const char *at = names;
        while (at && !(!strncmp(at, name, size) && (at[size] == ',' || !at[size])))
            at = (at = strchr(at, ',')) ? at + 1 : NULL;
        if (!at)
            return 0;
    }
    return lit == told;
}

static void tell(const char *field, unsigned code, const char *line)
{
    printf("%s key %u: %s\n", field, code, line);
}

static void check(struct xkb_keymap *keymap, FILE *answers)
{
    struct xkb_state *state = xkb_state_new(keymap);
    char line[LONGEST], direction[8], word[LONGEST], consumed[99], base[99], latched[99], locked[99];
    unsigned code, group;
    while (fgets(line, sizeof line, answers)) {
        line[strcspn(line, "\n")] = 0;
        if (sscanf(line, "%u %7s %4000s consumed=%98s base=%98s latched=%98s locked=%98s group=%u",
                &code, direction, word, consumed, base, latched, locked, &group) != 8) {
            tell("unread", 0, line);
            break;
        }
        const xkb_keysym_t *syms;
        int count = xkb_state_key_get_syms(state, code, &syms);
        if (!has_syms(word, syms, count))
            tell("keysyms", code, line);
        if (count > 0 && mods_of(consumed) != (xkb_state_key_get_consumed_mods(state, code) & 0xff))
            tell("consumed", code, line);
        xkb_state_update_key(state, code, direction[0] == 'd' ? XKB_KEY_DOWN : XKB_KEY_UP);
        const char *differs =
            mods_of(base) != (xkb_state_serialize_mods(state, XKB_STATE_MODS_DEPRESSED) & 0xff) ? "base" :
            mods_of(latched) != (xkb_state_serialize_mods(state, XKB_STATE_MODS_LATCHED) & 0xff) ? "latched" :
            mods_of(locked) != (xkb_state_serialize_mods(state, XKB_STATE_MODS_LOCKED) & 0xff) ? "locked" :
            group != xkb_state_serialize_layout(state, XKB_STATE_LAYOUT_EFFECTIVE) + 1 ? "group" : NULL;
        if (!differs && !has_lit(line, keymap, state))
            differs = "lit";
        if (differs) {
            tell(differs, code, line);
            break;
        }
    }
    xkb_state_unref(state);
}

int main(int count, char **words)
{
    struct xkb_context *context = xkb_context_new(XKB_CONTEXT_NO_FLAGS);
    FILE *file = count == 4 ? fopen(words[1], "r") : NULL;
    if (!getenv("XKB_LOG_LEVEL"))
        xkb_context_set_log_level(context, XKB_LOG_LEVEL_CRITICAL);
    struct xkb_keymap *keymap = file ? xkb_keymap_new_from_file(context, file, XKB_KEYMAP_FORMAT_TEXT_V1, XKB_KEYMAP_COMPILE_NO_FLAGS) : NULL;
    if (!keymap) {
        fprintf(stderr, "player: no keymap\n");
        return 1;
    }
    if (!strcmp(words[2], "events")) {
        srand(atoi(words[3]));
        print_events(keymap);
        return 0;
    }
    FILE *answers = fopen(words[3], "r");
    if (!answers)
        return 1;
    check(keymap, answers);
    return 0;
}
