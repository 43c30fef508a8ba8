/* What a keymap has: keys, modifiers, layouts, levels, indicators. */
#include "private.h"
#include <string.h>

static const char *const MODIFIER_NAMES[REAL_MODIFIERS] = {"Shift", "Lock", "Control", "Mod1", "Mod2", "Mod3", "Mod4", "Mod5"};

/* ---- Keys */

xkb_keycode_t xkb_keymap_min_keycode(struct xkb_keymap *m)
{
    HAND_ON(is_our_keymap(m), 0, xkb_keymap_min_keycode, m);
    return m->min;
}

xkb_keycode_t xkb_keymap_max_keycode(struct xkb_keymap *m)
{
    HAND_ON(is_our_keymap(m), 0, xkb_keymap_max_keycode, m);
    return m->max;
}

void xkb_keymap_key_for_each(struct xkb_keymap *m, xkb_keymap_key_iter_t visit, void *data)
{
    HAND_ON_VOID(is_our_keymap(m), xkb_keymap_key_for_each, m, visit, data);
    for (xkb_keycode_t code = m->min; code <= m->max; code++) visit(m, code, data);
}

const char *xkb_keymap_key_get_name(struct xkb_keymap *m, xkb_keycode_t code)
{
    HAND_ON(is_our_keymap(m), NULL, xkb_keymap_key_get_name, m, code);
    return code < KEYCODES && m->key_of[code] >= 0 ? m->key_names[m->key_of[code]] : NULL;
}

xkb_keycode_t xkb_keymap_key_by_name(struct xkb_keymap *m, const char *name)
{
    HAND_ON(is_our_keymap(m), XKB_KEYCODE_INVALID, xkb_keymap_key_by_name, m, name);
    for (uint32_t i = 0; i < m->left_counts.aliases; i++)
        if (!strcmp(m->aliases[i].name, name)) {
            name = m->aliases[i].key;
            break;
        }
    for (uint32_t i = 0; i < m->counts.keys; i++)
        if (!strcmp(m->key_names[i], name)) return m->keys[i].code;
    return XKB_KEYCODE_INVALID;
}

int xkb_keymap_key_repeats(struct xkb_keymap *m, xkb_keycode_t code)
{
    HAND_ON(is_our_keymap(m), 0, xkb_keymap_key_repeats, m, code);
    uint8_t repeats = 0;
    return code < KEYCODES && !xkc_left_repeats(&m->left, code, &repeats) && repeats;
}

/* ---- Modifiers: the eight real ones, then the virtual ones */

xkb_mod_index_t xkb_keymap_num_mods(struct xkb_keymap *m)
{
    HAND_ON(is_our_keymap(m), 0, xkb_keymap_num_mods, m);
    return REAL_MODIFIERS + m->left_counts.modifiers;
}

const char *xkb_keymap_mod_get_name(struct xkb_keymap *m, xkb_mod_index_t index)
{
    HAND_ON(is_our_keymap(m), NULL, xkb_keymap_mod_get_name, m, index);
    if (index < REAL_MODIFIERS) return MODIFIER_NAMES[index];
    return index - REAL_MODIFIERS < m->left_counts.modifiers ? m->virtual_modifiers[index - REAL_MODIFIERS].name : NULL;
}

xkb_mod_index_t xkb_keymap_mod_get_index(struct xkb_keymap *m, const char *name)
{
    HAND_ON(is_our_keymap(m), XKB_MOD_INVALID, xkb_keymap_mod_get_index, m, name);
    for (xkb_mod_index_t i = 0; i < REAL_MODIFIERS + m->left_counts.modifiers; i++)
        if (!strcmp(name, xkb_keymap_mod_get_name(m, i))) return i;
    return XKB_MOD_INVALID;
}

/* ---- Layouts and levels */

xkb_layout_index_t xkb_keymap_num_layouts(struct xkb_keymap *m)
{
    HAND_ON(is_our_keymap(m), 0, xkb_keymap_num_layouts, m);
    return m->layouts;
}

const char *xkb_keymap_layout_get_name(struct xkb_keymap *m, xkb_layout_index_t index)
{
    HAND_ON(is_our_keymap(m), NULL, xkb_keymap_layout_get_name, m, index);
    return index < m->counts.group_names && *m->group_names[index] ? m->group_names[index] : NULL;
}

xkb_layout_index_t xkb_keymap_layout_get_index(struct xkb_keymap *m, const char *name)
{
    HAND_ON(is_our_keymap(m), XKB_LAYOUT_INVALID, xkb_keymap_layout_get_index, m, name);
    for (xkb_layout_index_t i = 0; i < m->counts.group_names; i++)
        if (*name && !strcmp(m->group_names[i], name)) return i;
    return XKB_LAYOUT_INVALID;
}

xkb_layout_index_t xkb_keymap_num_layouts_for_key(struct xkb_keymap *m, xkb_keycode_t code)
{
    HAND_ON(is_our_keymap(m), 0, xkb_keymap_num_layouts_for_key, m, code);
    const xkc_key *key = key_of(m, code);
    return key ? key->groups : 0;
}

xkb_level_index_t xkb_keymap_num_levels_for_key(struct xkb_keymap *m, xkb_keycode_t code, xkb_layout_index_t layout)
{
    HAND_ON(is_our_keymap(m), 0, xkb_keymap_num_levels_for_key, m, code, layout);
    const xkc_key *key = key_of(m, code);
    return key ? type_row(m, group_row(m, key, layout))->levels : 0;
}

int xkb_keymap_key_get_syms_by_level(struct xkb_keymap *m, xkb_keycode_t code, xkb_layout_index_t layout, xkb_level_index_t level,
    const xkb_keysym_t **keysyms)
{
    HAND_ON(is_our_keymap(m), 0, xkb_keymap_key_get_syms_by_level, m, code, layout, level, keysyms);
    *keysyms = NULL;
    if (level >= xkb_keymap_num_levels_for_key(m, code, layout)) return 0;
    const xkc_level *row = level_row(m, group_row(m, key_of(m, code), layout), level);
    if (row->keysyms) *keysyms = m->keysyms + row->first_keysym;
    return row->keysyms;
}

size_t xkb_keymap_key_get_mods_for_level(struct xkb_keymap *m, xkb_keycode_t code, xkb_layout_index_t layout, xkb_level_index_t level,
    xkb_mod_mask_t *masks, size_t room)
{
    HAND_ON(is_our_keymap(m), 0, xkb_keymap_key_get_mods_for_level, m, code, layout, level, masks, room);
    if (level >= xkb_keymap_num_levels_for_key(m, code, layout)) return 0;
    const xkc_type *type = type_row(m, group_row(m, key_of(m, code), layout));
    const xkc_entry *entries = m->entries + type->first_entry;
    size_t count = 0;
    bool has_empty = false;
    for (uint32_t i = 0; i < type->entries; i++) has_empty |= !entries[i].mods;
    if (!level && !has_empty && count < room) masks[count++] = 0;
    for (uint32_t i = 0; i < type->entries && count < room; i++)
        if (entries[i].level == level + 1) masks[count++] = entries[i].mods;
    return count;
}

/* ---- Indicators */

xkb_led_index_t xkb_keymap_num_leds(struct xkb_keymap *m)
{
    HAND_ON(is_our_keymap(m), 0, xkb_keymap_num_leds, m);
    return m->led_count;
}

const char *xkb_keymap_led_get_name(struct xkb_keymap *m, xkb_led_index_t index)
{
    HAND_ON(is_our_keymap(m), NULL, xkb_keymap_led_get_name, m, index);
    return index < m->led_count ? m->leds[index].name : NULL;
}

xkb_led_index_t xkb_keymap_led_get_index(struct xkb_keymap *m, const char *name)
{
    HAND_ON(is_our_keymap(m), XKB_LED_INVALID, xkb_keymap_led_get_index, m, name);
    for (xkb_led_index_t i = 0; i < m->led_count; i++)
        if (m->leds[i].name && !strcmp(m->leds[i].name, name)) return i;
    return XKB_LED_INVALID;
}
