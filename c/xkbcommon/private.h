/* What the files of libxkbcommon's calls over xkc.h share. They are C, and nothing of them is proved; docs/c.md tells more. */
#ifndef XKC_XKBCOMMON_PRIVATE_H
#define XKC_XKBCOMMON_PRIVATE_H
#include <pthread.h>
#include <stdbool.h>
#include <stddef.h>
#include <stdint.h>
#include <xkbcommon/xkbcommon-compose.h>
#include <xkbcommon/xkbcommon.h>
#include <xkc.h>

enum { KEYCODES = 4096, REAL_MODIFIERS = 8, MOST_MODIFIERS = 32, MOST_LEDS = 32, NO_ROW = -1 };

/* A handle's first word. The real library's contexts, keymaps and states have two counts, a heap pointer or two groups
 * there, and so never the address of one of these. */
extern const char context_kind, keymap_kind, state_kind;

struct xkb_context {
    const void *kind;
    int owners;
    bool is_secure;
    bool names_from_environment;
    enum xkb_log_level level;
    int verbosity;
    void (*log)(struct xkb_context *context, enum xkb_log_level level, const char *format, va_list args);
    void *user_data;
    char **folders;
    size_t folder_count;
    struct xkb_context *twin; /* the real library's, for compose and x11 */
};

struct alias {
    char *name;
    char *key;
};

struct virtual_modifier {
    char *name;
    uint8_t mods;
};

struct led {
    char *name; /* NULL where nothing names it */
    int row;
};

struct xkb_keymap {
    const void *kind;
    int owners;
    struct xkb_context *context;
    xkc_source source;
    xkc_keymap handle;
    xkc_left left;
    char *text; /* the one for clients, once it was asked for */
    xkc_counts counts;
    xkc_left_counts left_counts;
    xkb_layout_index_t layouts; /* the greatest number of groups of a key */
    xkb_keycode_t min, max;
    int key_of[KEYCODES];
    xkc_key *keys;
    char **key_names;
    xkc_type *types;
    xkc_entry *entries;
    xkc_group *groups;
    xkc_level *levels;
    uint32_t *keysyms;
    char **group_names;
    struct alias *aliases;
    struct virtual_modifier *virtual_modifiers;
    struct led leds[MOST_LEDS];
    xkb_led_index_t led_count;
};

struct xkb_state {
    const void *kind;
    int owners;
    struct xkb_keymap *keymap;
    xkc_keyboard keyboard;
    xkc_follower follower;
    xkc_state told;
    /* what xkb_state_update_mask was told beside what the keyboard has by its held keys, and beside real modifiers */
    uint8_t more_base, less_base;
    uint32_t more_base_group;
    xkb_mod_mask_t virtual_base, virtual_latched, virtual_locked;
    xkb_layout_index_t latched_group; /* as it was told, before it is taken modulo the groups */
    uint32_t lit;
    uint16_t presses[KEYCODES]; /* a key that is pressed twice is up after two releases */
};

static inline bool is_of_kind(const void *handle, const void *kind)
{
    return *(const void *const *)handle == kind;
}

static inline bool is_our_context(const struct xkb_context *c) { return is_of_kind(c, &context_kind); }
static inline bool is_our_keymap(const struct xkb_keymap *m) { return is_of_kind(m, &keymap_kind); }
static inline bool is_our_state(const struct xkb_state *s) { return is_of_kind(s, &state_kind); }

/* real.c: a call of the real library, or NULL where it isn't installed. */
void *real(const char *name);
void *real_of_x11(const char *name);
#define REAL(name) ((__typeof__(&name))real(#name))

/* Hands a call whose handle isn't ours on to the real library. */
#define HAND_ON(is_ours, none, name, ...)             \
    do {                                              \
        if (!(is_ours)) {                             \
            __typeof__(&name) of_real = REAL(name);   \
            return of_real ? of_real(__VA_ARGS__) : (none); \
        }                                             \
    } while (0)
#define HAND_ON_VOID(is_ours, name, ...)            \
    do {                                            \
        if (!(is_ours)) {                           \
            __typeof__(&name) of_real = REAL(name); \
            if (of_real) of_real(__VA_ARGS__);      \
            return;                                 \
        }                                           \
    } while (0)

/* context.c */
void tell(struct xkb_context *c, enum xkb_log_level level, const char *format, ...) __attribute__((format(printf, 3, 4)));
const char *from_environment(const struct xkb_context *c, const char *name);
struct xkb_context *twin_of(struct xkb_context *c);

/* keysyms.c: the names of keysyms, which one thread uses at a time. */
xkc_names *take_names(void);
void give_names_back(void);

/* rows.c */
bool read_rows(struct xkb_keymap *m);
void free_rows(struct xkb_keymap *m);
const xkc_key *key_of(const struct xkb_keymap *m, xkb_keycode_t code);
bool is_in_range(const struct xkb_keymap *m, xkb_keycode_t code);
unsigned group_of(const xkc_key *key, int64_t group);
const xkc_group *group_row(const struct xkb_keymap *m, const xkc_key *key, xkb_layout_index_t layout);
const xkc_type *type_row(const struct xkb_keymap *m, const xkc_group *group);
const xkc_level *level_row(const struct xkb_keymap *m, const xkc_group *group, xkb_level_index_t level);
const xkc_entry *entry_for(const struct xkb_keymap *m, const xkc_type *type, xkb_mod_mask_t mods);
#endif
