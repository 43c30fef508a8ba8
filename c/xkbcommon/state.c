/* States: a keyboard that takes events, and a follower that is told what they made of it. */
#include "private.h"
#include <stdarg.h>
#include <stdlib.h>
#include <string.h>

const char state_kind;

struct xkb_state *xkb_state_new(struct xkb_keymap *m)
{
    HAND_ON(is_our_keymap(m), NULL, xkb_state_new, m);
    struct xkb_state *s = calloc(1, sizeof *s);
    if (!s) return NULL;
    s->kind = &state_kind;
    s->owners = 1;
    s->keymap = xkb_keymap_ref(m);
    if (!xkc_keyboard_start(&s->keyboard, &m->handle) && !xkc_follower_start(&s->follower, &m->handle)) return s;
    xkb_state_unref(s);
    return NULL;
}

struct xkb_state *xkb_state_ref(struct xkb_state *s)
{
    HAND_ON(is_our_state(s), s, xkb_state_ref, s);
    s->owners++;
    return s;
}

void xkb_state_unref(struct xkb_state *s)
{
    if (!s) return;
    HAND_ON_VOID(is_our_state(s), xkb_state_unref, s);
    if (--s->owners > 0) return;
    xkc_keyboard_end(&s->keyboard);
    xkc_follower_end(&s->follower);
    xkb_keymap_unref(s->keymap);
    s->kind = NULL;
    free(s);
}

struct xkb_keymap *xkb_state_get_keymap(struct xkb_state *s)
{
    HAND_ON(is_our_state(s), NULL, xkb_state_get_keymap, s);
    return s->keymap;
}

/* ---- What a state has */

xkb_mod_mask_t xkb_state_serialize_mods(struct xkb_state *s, enum xkb_state_component parts)
{
    HAND_ON(is_our_state(s), 0, xkb_state_serialize_mods, s, parts);
    if (parts & XKB_STATE_MODS_EFFECTIVE) parts |= XKB_STATE_MODS_DEPRESSED | XKB_STATE_MODS_LATCHED | XKB_STATE_MODS_LOCKED;
    return (parts & XKB_STATE_MODS_DEPRESSED ? s->told.base | s->virtual_base : 0u)
        | (parts & XKB_STATE_MODS_LATCHED ? s->told.latched | s->virtual_latched : 0u)
        | (parts & XKB_STATE_MODS_LOCKED ? s->told.locked | s->virtual_locked : 0u);
}

xkb_layout_index_t xkb_state_serialize_layout(struct xkb_state *s, enum xkb_state_component parts)
{
    HAND_ON(is_our_state(s), 0, xkb_state_serialize_layout, s, parts);
    if (parts & XKB_STATE_LAYOUT_EFFECTIVE) return s->told.effective_group;
    return (parts & XKB_STATE_LAYOUT_DEPRESSED ? (xkb_layout_index_t)s->told.base_group : 0u)
        + (parts & XKB_STATE_LAYOUT_LATCHED ? s->latched_group : 0u) + (parts & XKB_STATE_LAYOUT_LOCKED ? s->told.locked_group : 0u);
}

/* What a change is told by: the parts of a state, and which indicators are lit. */
struct parts {
    xkb_mod_mask_t base, latched, locked, effective;
    xkb_layout_index_t base_group, latched_group, locked_group, effective_group;
    uint32_t lit;
};

static struct parts parts_of(struct xkb_state *s)
{
    return (struct parts){
        .base = xkb_state_serialize_mods(s, XKB_STATE_MODS_DEPRESSED),
        .latched = xkb_state_serialize_mods(s, XKB_STATE_MODS_LATCHED),
        .locked = xkb_state_serialize_mods(s, XKB_STATE_MODS_LOCKED),
        .effective = xkb_state_serialize_mods(s, XKB_STATE_MODS_EFFECTIVE),
        .base_group = (xkb_layout_index_t)s->told.base_group,
        .latched_group = s->latched_group,
        .locked_group = s->told.locked_group,
        .effective_group = s->told.effective_group,
        .lit = s->lit,
    };
}

static enum xkb_state_component changes(const struct parts *a, const struct parts *b)
{
    int parts = 0;
    if (a->base != b->base) parts |= XKB_STATE_MODS_DEPRESSED;
    if (a->latched != b->latched) parts |= XKB_STATE_MODS_LATCHED;
    if (a->locked != b->locked) parts |= XKB_STATE_MODS_LOCKED;
    if (a->effective != b->effective) parts |= XKB_STATE_MODS_EFFECTIVE;
    if (a->base_group != b->base_group) parts |= XKB_STATE_LAYOUT_DEPRESSED;
    if (a->latched_group != b->latched_group) parts |= XKB_STATE_LAYOUT_LATCHED;
    if (a->locked_group != b->locked_group) parts |= XKB_STATE_LAYOUT_LOCKED;
    if (a->effective_group != b->effective_group) parts |= XKB_STATE_LAYOUT_EFFECTIVE;
    if (a->lit != b->lit) parts |= XKB_STATE_LEDS;
    return (enum xkb_state_component)parts;
}

static uint8_t group_among(const struct xkb_keymap *m, int64_t group)
{
    int64_t count = m->layouts ? m->layouts : 1;
    return (uint8_t)((group % count + count) % count);
}

/* Shows the keyboard's state, with what was told beside it. */
static void show(struct xkb_state *s, const xkc_state *own)
{
    s->told = *own;
    s->told.base = (uint8_t)((own->base & ~s->less_base) | s->more_base);
    s->told.base_group = (int32_t)((uint32_t)own->base_group + s->more_base_group);
    s->told.effective_group = group_among(s->keymap, (int64_t)s->told.base_group + own->latched_group + own->locked_group);
    xkc_follower_set(&s->follower, &s->told);
    xkc_follower_lit(&s->follower, &s->lit);
}

/* ---- Events */

enum xkb_state_component xkb_state_update_key(struct xkb_state *s, xkb_keycode_t code, enum xkb_key_direction direction)
{
    HAND_ON(is_our_state(s), 0, xkb_state_update_key, s, code, direction);
    if (code >= KEYCODES || !is_in_range(s->keymap, code)) return 0;
    if (direction == XKB_KEY_DOWN ? s->presses[code]++ > 0 : !s->presses[code] || --s->presses[code]) return 0;
    xkc_state own;
    xkc_reply reply;
    struct parts before = parts_of(s);
    if (xkc_keyboard_state(&s->keyboard, &own) || xkc_keyboard_event(&s->keyboard, code, direction == XKB_KEY_DOWN, &reply)) return 0;
    /* a key that sets a modifier, or no longer does, has the last word on it */
    uint8_t changed = own.base ^ reply.state.base;
    s->more_base &= (uint8_t)~changed, s->less_base &= (uint8_t)~changed;
    if (own.latched_group != reply.state.latched_group) s->latched_group = reply.state.latched_group;
    show(s, &reply.state);
    struct parts after = parts_of(s);
    return changes(&before, &after);
}

/* ---- States that are told */

/* The modifiers of the keymap among these, with the real ones that virtual ones stand for. */
static xkb_mod_mask_t resolved(const struct xkb_keymap *m, xkb_mod_mask_t mods)
{
    xkb_mod_mask_t all = mods & 0xff;
    for (uint32_t i = 0; i < m->left_counts.modifiers; i++)
        if (mods >> (REAL_MODIFIERS + i) & 1) all |= 1u << (REAL_MODIFIERS + i) | m->virtual_modifiers[i].mods;
    return all;
}

enum xkb_state_component xkb_state_update_mask(struct xkb_state *s, xkb_mod_mask_t base, xkb_mod_mask_t latched, xkb_mod_mask_t locked,
    xkb_layout_index_t base_group, xkb_layout_index_t latched_group, xkb_layout_index_t locked_group)
{
    HAND_ON(is_our_state(s), 0, xkb_state_update_mask, s, base, latched, locked, base_group, latched_group, locked_group);
    const struct xkb_keymap *m = s->keymap;
    struct parts before = parts_of(s);
    base = resolved(m, base), latched = resolved(m, latched), locked = resolved(m, locked);
    xkc_state own = {
        .latched = (uint8_t)latched,
        .locked = (uint8_t)locked,
        .latched_group = group_among(m, (int32_t)latched_group),
        .locked_group = group_among(m, (int32_t)locked_group),
    };
    if (xkc_keyboard_set(&s->keyboard, &own) || xkc_keyboard_state(&s->keyboard, &own)) return 0;
    s->more_base = (uint8_t)(base & ~own.base), s->less_base = (uint8_t)(own.base & ~base);
    s->more_base_group = base_group - (uint32_t)own.base_group;
    s->latched_group = latched_group;
    s->virtual_base = base & ~0xffu, s->virtual_latched = latched & ~0xffu, s->virtual_locked = locked & ~0xffu;
    show(s, &own);
    struct parts after = parts_of(s);
    return changes(&before, &after);
}

/* ---- What of it is active */

static int matches(struct xkb_state *s, enum xkb_state_component parts, enum xkb_state_match how, xkb_mod_mask_t wanted)
{
    xkb_mod_mask_t active = xkb_state_serialize_mods(s, parts);
    if (!(how & XKB_STATE_MATCH_NON_EXCLUSIVE) && (active & ~wanted)) return 0;
    return how & XKB_STATE_MATCH_ANY ? !!(active & wanted) : (active & wanted) == wanted;
}

int xkb_state_mod_index_is_active(struct xkb_state *s, xkb_mod_index_t index, enum xkb_state_component parts)
{
    HAND_ON(is_our_state(s), -1, xkb_state_mod_index_is_active, s, index, parts);
    return index < xkb_keymap_num_mods(s->keymap) ? !!(xkb_state_serialize_mods(s, parts) & 1u << index) : -1;
}

int xkb_state_mod_name_is_active(struct xkb_state *s, const char *name, enum xkb_state_component parts)
{
    HAND_ON(is_our_state(s), -1, xkb_state_mod_name_is_active, s, name, parts);
    return xkb_state_mod_index_is_active(s, xkb_keymap_mod_get_index(s->keymap, name), parts);
}

int xkb_state_mod_indices_are_active(struct xkb_state *s, enum xkb_state_component parts, enum xkb_state_match how, ...)
{
    va_list indices;
    xkb_mod_mask_t wanted = 0;
    xkb_mod_index_t count = xkb_keymap_num_mods(xkb_state_get_keymap(s)), index;
    va_start(indices, how);
    while ((index = va_arg(indices, xkb_mod_index_t)) < count) wanted |= 1u << index;
    va_end(indices);
    return index == XKB_MOD_INVALID ? matches(s, parts, how, wanted) : -1;
}

int xkb_state_mod_names_are_active(struct xkb_state *s, enum xkb_state_component parts, enum xkb_state_match how, ...)
{
    va_list all;
    xkb_mod_mask_t wanted = 0;
    xkb_mod_index_t index = 0;
    va_start(all, how);
    for (const char *name; index != XKB_MOD_INVALID && (name = va_arg(all, const char *));) {
        index = xkb_keymap_mod_get_index(xkb_state_get_keymap(s), name);
        if (index != XKB_MOD_INVALID) wanted |= 1u << index;
    }
    va_end(all);
    return index != XKB_MOD_INVALID ? matches(s, parts, how, wanted) : -1;
}

int xkb_state_layout_index_is_active(struct xkb_state *s, xkb_layout_index_t index, enum xkb_state_component parts)
{
    HAND_ON(is_our_state(s), -1, xkb_state_layout_index_is_active, s, index, parts);
    if (index >= s->keymap->layouts) return -1;
    return (parts & XKB_STATE_LAYOUT_EFFECTIVE && s->told.effective_group == index)
        || (parts & XKB_STATE_LAYOUT_DEPRESSED && s->told.base_group == (int32_t)index)
        || (parts & XKB_STATE_LAYOUT_LATCHED && s->latched_group == index) || (parts & XKB_STATE_LAYOUT_LOCKED && s->told.locked_group == index);
}

int xkb_state_layout_name_is_active(struct xkb_state *s, const char *name, enum xkb_state_component parts)
{
    HAND_ON(is_our_state(s), -1, xkb_state_layout_name_is_active, s, name, parts);
    return xkb_state_layout_index_is_active(s, xkb_keymap_layout_get_index(s->keymap, name), parts);
}

int xkb_state_led_index_is_active(struct xkb_state *s, xkb_led_index_t index)
{
    HAND_ON(is_our_state(s), -1, xkb_state_led_index_is_active, s, index);
    if (index >= s->keymap->led_count || !s->keymap->leds[index].name) return -1;
    int row = s->keymap->leds[index].row;
    return row != NO_ROW && s->lit >> row & 1;
}

int xkb_state_led_name_is_active(struct xkb_state *s, const char *name)
{
    HAND_ON(is_our_state(s), -1, xkb_state_led_name_is_active, s, name);
    return xkb_state_led_index_is_active(s, xkb_keymap_led_get_index(s->keymap, name));
}
