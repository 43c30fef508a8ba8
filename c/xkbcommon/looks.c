/* What a key gives in a state: its layout and level, keysyms, text, and the modifiers that are used up. */
#include "private.h"
#include <string.h>

/* ---- Layout and level */

xkb_layout_index_t xkb_state_key_get_layout(struct xkb_state *s, xkb_keycode_t code)
{
    HAND_ON(is_our_state(s), XKB_LAYOUT_INVALID, xkb_state_key_get_layout, s, code);
    const xkc_key *key = key_of(s->keymap, code);
    return key ? group_of(key, s->told.effective_group) : XKB_LAYOUT_INVALID;
}

xkb_level_index_t xkb_state_key_get_level(struct xkb_state *s, xkb_keycode_t code, xkb_layout_index_t layout)
{
    HAND_ON(is_our_state(s), XKB_LEVEL_INVALID, xkb_state_key_get_level, s, code, layout);
    const xkc_key *key = key_of(s->keymap, code);
    if (!key || layout >= key->groups) return XKB_LEVEL_INVALID;
    const xkc_type *type = type_row(s->keymap, group_row(s->keymap, key, layout));
    const xkc_entry *entry = entry_for(s->keymap, type, xkb_state_serialize_mods(s, XKB_STATE_MODS_EFFECTIVE));
    return entry ? entry->level - 1u : 0;
}

/* ---- Keysyms and text */

int xkb_state_key_get_syms(struct xkb_state *s, xkb_keycode_t code, const xkb_keysym_t **keysyms)
{
    HAND_ON(is_our_state(s), 0, xkb_state_key_get_syms, s, code, keysyms);
    xkb_layout_index_t layout = xkb_state_key_get_layout(s, code);
    *keysyms = NULL;
    if (layout == XKB_LAYOUT_INVALID) return 0;
    return xkb_keymap_key_get_syms_by_level(s->keymap, code, layout, xkb_state_key_get_level(s, code, layout), keysyms);
}

xkb_keysym_t xkb_state_key_get_one_sym(struct xkb_state *s, xkb_keycode_t code)
{
    HAND_ON(is_our_state(s), XKB_KEY_NoSymbol, xkb_state_key_get_one_sym, s, code);
    uint32_t keysym = XKB_KEY_NoSymbol;
    return xkc_follower_keysym(&s->follower, code, &keysym) ? XKB_KEY_NoSymbol : keysym;
}

/* Eight characters at most, of four bytes each. */
enum { MOST_TEXT = 64 };

static size_t text_of(struct xkb_state *s, xkb_keycode_t code, uint8_t *text)
{
    size_t size = 0;
    return xkc_follower_text(&s->follower, code, text, MOST_TEXT, &size) ? 0 : size;
}

/* Where there is no room, the text ends behind a whole character. */
int xkb_state_key_get_utf8(struct xkb_state *s, xkb_keycode_t code, char *buffer, size_t room)
{
    HAND_ON(is_our_state(s), 0, xkb_state_key_get_utf8, s, code, buffer, room);
    uint8_t text[MOST_TEXT + 1] = {0};
    size_t size = text_of(s, code, text), kept = size;
    if (!room) return (int)size;
    if (kept >= room)
        for (kept = room - 1; kept && (text[kept] & 0xc0) == 0x80; kept--) {}
    memcpy(buffer, text, kept);
    buffer[kept] = 0;
    return (int)size;
}

/* The number of a character's UTF-8. */
static uint32_t character_of(const uint8_t *text, size_t size)
{
    uint32_t number = size == 1 ? text[0] : text[0] & (0xffu >> (size + 1));
    for (size_t i = 1; i < size; i++) number = number << 6 | (text[i] & 0x3fu);
    return number;
}

uint32_t xkb_state_key_get_utf32(struct xkb_state *s, xkb_keycode_t code)
{
    HAND_ON(is_our_state(s), 0, xkb_state_key_get_utf32, s, code);
    const xkb_keysym_t *keysyms;
    if (xkb_state_key_get_syms(s, code, &keysyms) != 1) return 0;
    uint8_t text[MOST_TEXT];
    size_t size = text_of(s, code, text);
    /* without a text the keysym has no character, or one that UTF-8 doesn't have */
    return size ? character_of(text, size) : xkc_keysym_character(xkb_state_key_get_one_sym(s, code));
}

/* ---- Modifiers that are used up */

static bool are_alike(const struct xkb_keymap *m, const xkc_level *a, const xkc_level *b)
{
    return a->keysyms == b->keysyms && !memcmp(m->keysyms + a->first_keysym, m->keysyms + b->first_keysym, a->keysyms * sizeof *m->keysyms);
}

/* GTK's way: of the entries the one that is met, and those of a single modifier, where they give other keysyms. */
static xkb_mod_mask_t consumed_for_gtk(struct xkb_state *s, const xkc_key *key)
{
    const struct xkb_keymap *m = s->keymap;
    const xkc_group *group = group_row(m, key, s->told.effective_group);
    const xkc_type *type = type_row(m, group);
    const xkc_entry *met = entry_for(m, type, xkb_state_serialize_mods(s, XKB_STATE_MODS_EFFECTIVE)), *none = entry_for(m, type, 0);
    const xkc_level *plain = level_row(m, group, none ? none->level - 1u : 0);
    xkb_mod_mask_t consumed = 0;
    for (uint32_t i = 0; i < type->entries; i++) {
        const xkc_entry *entry = &m->entries[type->first_entry + i];
        bool is_single = entry->mods && !(entry->mods & (entry->mods - 1));
        if ((entry == met || is_single) && !are_alike(m, level_row(m, group, entry->level - 1u), plain)) consumed |= entry->mods & ~entry->preserve;
    }
    return met ? consumed & ~(xkb_mod_mask_t)met->preserve : consumed;
}

static xkb_mod_mask_t consumed_by(struct xkb_state *s, xkb_keycode_t code, enum xkb_consumed_mode mode)
{
    const xkc_key *key = key_of(s->keymap, code);
    xkc_look look;
    if (!key) return 0;
    if (mode == XKB_CONSUMED_MODE_GTK) return consumed_for_gtk(s, key);
    return xkc_follower_look(&s->follower, code, &look) ? 0 : look.consumed;
}

xkb_mod_mask_t xkb_state_key_get_consumed_mods2(struct xkb_state *s, xkb_keycode_t code, enum xkb_consumed_mode mode)
{
    HAND_ON(is_our_state(s), 0, xkb_state_key_get_consumed_mods2, s, code, mode);
    if (mode == XKB_CONSUMED_MODE_XKB || mode == XKB_CONSUMED_MODE_GTK) return consumed_by(s, code, mode);
    tell(s->keymap->context, XKB_LOG_LEVEL_ERROR, "there is no way %d to use up modifiers\n", (int)mode);
    return 0;
}

xkb_mod_mask_t xkb_state_key_get_consumed_mods(struct xkb_state *s, xkb_keycode_t code)
{
    return xkb_state_key_get_consumed_mods2(s, code, XKB_CONSUMED_MODE_XKB);
}

int xkb_state_mod_index_is_consumed2(struct xkb_state *s, xkb_keycode_t code, xkb_mod_index_t index, enum xkb_consumed_mode mode)
{
    HAND_ON(is_our_state(s), -1, xkb_state_mod_index_is_consumed2, s, code, index, mode);
    if (!is_in_range(s->keymap, code) || index >= xkb_keymap_num_mods(s->keymap)) return -1;
    return !!(consumed_by(s, code, mode) & 1u << index);
}

int xkb_state_mod_index_is_consumed(struct xkb_state *s, xkb_keycode_t code, xkb_mod_index_t index)
{
    return xkb_state_mod_index_is_consumed2(s, code, index, XKB_CONSUMED_MODE_XKB);
}

xkb_mod_mask_t xkb_state_mod_mask_remove_consumed(struct xkb_state *s, xkb_keycode_t code, xkb_mod_mask_t mask)
{
    HAND_ON(is_our_state(s), 0, xkb_state_mod_mask_remove_consumed, s, code, mask);
    return is_in_range(s->keymap, code) ? mask & ~consumed_by(s, code, XKB_CONSUMED_MODE_XKB) : 0;
}
