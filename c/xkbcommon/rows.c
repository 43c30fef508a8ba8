/* The rows of a keymap, in arrays: what xkc.h tells of its tables, and of what its image leaves out. */
#include "private.h"
#include <stdlib.h>
#include <string.h>

/* ---- Texts: each call first says how long one is */

static char *name_of(xkc_keymap *keymap, uint32_t kind, uint32_t index)
{
    uint8_t none;
    size_t size = 0;
    xkc_keymap_name(keymap, kind, index, &none, 0, &size);
    char *name = calloc(size + 1, 1);
    if (name) xkc_keymap_name(keymap, kind, index, (uint8_t *)name, size, &size);
    return name;
}

static char *left_text(xkc_left *left, uint32_t index, uint32_t (*call)(xkc_left *, uint32_t, uint8_t *, size_t, size_t *))
{
    uint8_t none;
    size_t size = 0;
    call(left, index, &none, 0, &size);
    char *text = calloc(size + 1, 1);
    if (text) call(left, index, (uint8_t *)text, size, &size);
    return text;
}

static char *modifier_name(xkc_left *left, uint32_t index, uint8_t *mods)
{
    uint8_t none;
    size_t size = 0;
    xkc_left_modifier(left, index, mods, &none, 0, &size);
    char *name = calloc(size + 1, 1);
    if (name) xkc_left_modifier(left, index, mods, (uint8_t *)name, size, &size);
    return name;
}

static char **names_of(xkc_keymap *keymap, uint32_t kind, uint32_t count)
{
    char **all = calloc(count + 1, sizeof *all);
    for (uint32_t i = 0; all && i < count; i++) {
        all[i] = name_of(keymap, kind, i);
        if (!all[i]) {
            while (i) free(all[--i]);
            free(all);
            return NULL;
        }
    }
    return all;
}

/* ---- Tables */

static bool make_room(struct xkb_keymap *m)
{
    m->keys = calloc(m->counts.keys + 1, sizeof *m->keys);
    m->types = calloc(m->counts.types + 1, sizeof *m->types);
    m->entries = calloc(m->counts.entries + 1, sizeof *m->entries);
    m->groups = calloc(m->counts.groups + 1, sizeof *m->groups);
    m->levels = calloc(m->counts.levels + 1, sizeof *m->levels);
    m->keysyms = calloc(m->counts.keysyms + 1, sizeof *m->keysyms);
    m->key_names = names_of(&m->handle, XKC_KEY_NAME, m->counts.keys);
    m->group_names = names_of(&m->handle, XKC_GROUP_NAME, m->counts.group_names);
    m->aliases = calloc(m->left_counts.aliases + 1, sizeof *m->aliases);
    m->virtual_modifiers = calloc(m->left_counts.modifiers + 1, sizeof *m->virtual_modifiers);
    return m->keys && m->types && m->entries && m->groups && m->levels && m->keysyms && m->key_names && m->group_names && m->aliases
        && m->virtual_modifiers;
}

static void read_tables(struct xkb_keymap *m)
{
    for (uint32_t i = 0; i < m->counts.types; i++) xkc_keymap_type(&m->handle, i, &m->types[i]);
    for (uint32_t i = 0; i < m->counts.entries; i++) xkc_keymap_entry(&m->handle, i, &m->entries[i]);
    for (uint32_t i = 0; i < m->counts.groups; i++) xkc_keymap_group(&m->handle, i, &m->groups[i]);
    for (uint32_t i = 0; i < m->counts.levels; i++) xkc_keymap_level(&m->handle, i, &m->levels[i]);
    for (uint32_t i = 0; i < m->counts.keysyms; i++) xkc_keymap_keysym(&m->handle, i, &m->keysyms[i]);
}

/* Without keys the codes are those that libxkbcommon takes then. */
static void read_keys(struct xkb_keymap *m)
{
    for (int code = 0; code < KEYCODES; code++) m->key_of[code] = NO_ROW;
    for (uint32_t i = 0; i < m->counts.keys; i++) {
        xkc_keymap_key(&m->handle, i, &m->keys[i]);
        m->key_of[m->keys[i].code] = (int)i;
        if (m->keys[i].groups > m->layouts) m->layouts = m->keys[i].groups;
    }
    m->min = m->counts.keys ? m->keys[0].code : 8;
    m->max = m->counts.keys ? m->keys[m->counts.keys - 1].code : 255;
}

/* ---- What the image leaves out */

static bool read_left(struct xkb_keymap *m)
{
    for (uint32_t i = 0; i < m->left_counts.aliases; i++) {
        m->aliases[i].name = left_text(&m->left, i, xkc_left_alias);
        m->aliases[i].key = left_text(&m->left, i, xkc_left_alias_key);
        if (!m->aliases[i].name || !m->aliases[i].key) return false;
    }
    for (uint32_t i = 0; i < m->left_counts.modifiers; i++) {
        m->virtual_modifiers[i].name = modifier_name(&m->left, i, &m->virtual_modifiers[i].mods);
        if (!m->virtual_modifiers[i].name) return false;
    }
    return true;
}

/* The indicators that keycodes name, by their numbers. */
static bool name_leds(struct xkb_keymap *m)
{
    for (uint32_t i = 0; i < m->left_counts.indicators && i < MOST_LEDS; i++) {
        char *name = left_text(&m->left, i, xkc_left_indicator);
        if (!name) return false;
        if (*name) {
            m->leds[i].name = name;
            m->led_count = i + 1;
        } else {
            free(name);
        }
    }
    return true;
}

/* The place of an indicator: that of its name, else the first without a name, else the next. */
static xkb_led_index_t place_of_led(const struct xkb_keymap *m, const char *name)
{
    for (xkb_led_index_t i = 0; i < m->led_count; i++)
        if (m->leds[i].name && !strcmp(m->leds[i].name, name)) return i;
    for (xkb_led_index_t i = 0; i < m->led_count; i++)
        if (!m->leds[i].name) return i;
    return m->led_count;
}

static bool place_leds(struct xkb_keymap *m)
{
    for (uint32_t row = 0; row < m->counts.indicators; row++) {
        char *name = name_of(&m->handle, XKC_INDICATOR_NAME, row);
        if (!name) return false;
        xkb_led_index_t place = place_of_led(m, name);
        if (place < MOST_LEDS) {
            free(m->leds[place].name);
            m->leds[place] = (struct led){name, (int)row};
            if (place == m->led_count) m->led_count++;
        } else {
            free(name);
        }
    }
    return true;
}

bool read_rows(struct xkb_keymap *m)
{
    for (int i = 0; i < MOST_LEDS; i++) m->leds[i].row = NO_ROW;
    xkc_keymap_counts(&m->handle, &m->counts);
    xkc_left_counts_of(&m->left, &m->left_counts);
    if (!make_room(m)) return false;
    read_tables(m);
    read_keys(m);
    return read_left(m) && name_leds(m) && place_leds(m);
}

static void free_names(char **all, uint32_t count)
{
    for (uint32_t i = 0; all && i < count; i++) free(all[i]);
    free(all);
}

void free_rows(struct xkb_keymap *m)
{
    free_names(m->key_names, m->counts.keys);
    free_names(m->group_names, m->counts.group_names);
    for (uint32_t i = 0; m->aliases && i < m->left_counts.aliases; i++) {
        free(m->aliases[i].name);
        free(m->aliases[i].key);
    }
    for (uint32_t i = 0; m->virtual_modifiers && i < m->left_counts.modifiers; i++) free(m->virtual_modifiers[i].name);
    for (int i = 0; i < MOST_LEDS; i++) free(m->leds[i].name);
    free(m->aliases);
    free(m->virtual_modifiers);
    free(m->keys);
    free(m->types);
    free(m->entries);
    free(m->groups);
    free(m->levels);
    free(m->keysyms);
}

/* ---- Look-ups in them */

bool is_in_range(const struct xkb_keymap *m, xkb_keycode_t code)
{
    return code >= m->min && code <= m->max;
}

/* The key of a code that has a group, or NULL. */
const xkc_key *key_of(const struct xkb_keymap *m, xkb_keycode_t code)
{
    if (code >= KEYCODES || m->key_of[code] < 0) return NULL;
    const xkc_key *key = &m->keys[m->key_of[code]];
    return key->groups ? key : NULL;
}

/* The group of a key for a group that it may not have. */
unsigned group_of(const xkc_key *key, int64_t group)
{
    int64_t count = key->groups;
    if (group >= 0 && group < count) return (unsigned)group;
    if (key->range == 1) return group < 0 ? 0 : (unsigned)count - 1;
    if (key->range == 2) return key->redirect < count ? key->redirect : 0;
    return (unsigned)((group % count + count) % count);
}

const xkc_group *group_row(const struct xkb_keymap *m, const xkc_key *key, xkb_layout_index_t layout)
{
    return &m->groups[key->first_group + group_of(key, (int32_t)layout)];
}

const xkc_type *type_row(const struct xkb_keymap *m, const xkc_group *group)
{
    return &m->types[group->key_type];
}

const xkc_level *level_row(const struct xkb_keymap *m, const xkc_group *group, xkb_level_index_t level)
{
    return &m->levels[group->first_level + level];
}

/* The entry of a type that modifiers select, or NULL. */
const xkc_entry *entry_for(const struct xkb_keymap *m, const xkc_type *type, xkb_mod_mask_t mods)
{
    for (uint32_t i = 0; i < type->entries; i++)
        if (m->entries[type->first_entry + i].mods == (mods & type->mods)) return &m->entries[type->first_entry + i];
    return NULL;
}
