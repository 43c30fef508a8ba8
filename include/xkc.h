/* xkc: compiles XKB keymap text and runs keyboards.
 *
 * Every call is proved to return, to stay within the memory that it is handed, and to do what its contract in
 * crates/xkc_c says, where its caller keeps the duties below. docs/c.md tells more, with a compositor and a client.
 *
 * Handles. Each is a struct of one pointer, and belongs to the library: {0} is empty. A call that makes something puts it
 * in the place of what the handle had, which is let go; where it is refused, the handle is as it was. A call that ends
 * leaves the handle empty, and may be made twice. A keymap may be ended while keyboards and followers run over it.
 * Don't copy a handle: move it, and forget the old one.
 *
 * Duties, which nothing checks:
 * - No pointer is null, also of an empty text or array: pass "" and 0.
 * - What is pointed to has its type's size, and a text or array its length. What is only written need not be set before.
 * - The arguments of a call don't overlap, and no other call uses them meanwhile. An xkc_file's bytes may be those of another.
 * - A handle is {0}, or what a call left in it.
 * - A keymap, and all keyboards and followers that were started over it, stay in one thread. So does each names handle.
 * - While xkc_source_named runs, no other thread changes the environment.
 * - malloc, realloc and free are of one allocator. A thread has 8 MB of stack, the usual size.
 *
 * Memory. Calls that make something take memory, as their comments say; the others take none. No call keeps a pointer to
 * what its caller passed.
 *
 * Texts are bytes and a length, without a 0 at the end. Truths are uint8_t, 0 or 1. Indices and groups count from 0.
 * Of modifiers, bits 0 to 7 are Shift, Lock, Control and Mod1 to Mod5. */
#ifndef XKC_H
#define XKC_H

#include <stddef.h>
#include <stdint.h>

#ifdef __cplusplus
extern "C" {
#endif

/* The version of this header, as xkc_version tells that of the library: 1.0.0. */
#define XKC_VERSION 0x010000u

typedef struct xkc_names { void *at; } xkc_names;
typedef struct xkc_keymap { void *at; } xkc_keymap;
typedef struct xkc_keyboard { void *at; } xkc_keyboard;
typedef struct xkc_follower { void *at; } xkc_follower;
typedef struct xkc_source { void *at; } xkc_source;
typedef struct xkc_left { void *at; } xkc_left;
typedef struct xkc_words { void *at; } xkc_words;

/* What a call answers. */
enum {
    XKC_OK = 0,      /* it was done */
    XKC_EMPTY = 1,   /* the handle is empty */
    XKC_MEMORY = 2,  /* a growth was refused */
    XKC_IMAGE = 3,   /* the bytes are no image */
    XKC_NAMES = 4,   /* a line of names has a fault */
    XKC_SOURCE = 5,  /* the source has a fault */
    XKC_MISSING = 6, /* there is no row of that index, no keysym of that name, or no key can have so great a code */
    XKC_ROOM = 7,    /* there is no room for the bytes: the size says how much there must be */
    XKC_RULES = 8,   /* there are no rules of that name, or they are refused: the words say why */
    XKC_FILE = 9     /* a file or folder can't be read, or its path is no text: the words say which */
};

/* What xkc_keymap_name names. */
enum { XKC_KEY_NAME = 0, XKC_TYPE_NAME = 1, XKC_INDICATOR_NAME = 2, XKC_GROUP_NAME = 3 };

/* A file that a source may include: its name, as "symbols/us", and its bytes. */
typedef struct xkc_file {
    const uint8_t *name;
    size_t name_size;
    const uint8_t *text;
    size_t text_size;
} xkc_file;

/* Why a source is refused: the number n of its fault Fn, 2 to 18; the text in which it stands, 0 the source and n the
 * n-th file; its first byte there, and the one behind its last. docs/text.md and docs/meaning.md have the faults. */
typedef struct xkc_fault {
    uint32_t number;
    uint32_t file;
    uint32_t start;
    uint32_t stop;
} xkc_fault;

/* Why lines of names are refused: the line, from 1, and the number n of its fault Nn, 2 to 4. */
typedef struct xkc_names_fault {
    size_t line;
    uint32_t number;
} xkc_names_fault;

/* The modifiers and groups of a keyboard. What counts are the union of the three sets of modifiers, and the group
 * `effective_group`, which the other three groups give. */
typedef struct xkc_state {
    int32_t base_group;
    uint8_t base;
    uint8_t latched;
    uint8_t locked;
    uint8_t latched_group;
    uint8_t locked_group;
    uint8_t effective_group;
} xkc_state;

/* What a keyboard answers to an event: the first `count` keysyms are those of the key in the state before it, `consumed`
 * the modifiers that they use up, `known` whether the keymap has the key; `state` and `lit` are those after the event. */
typedef struct xkc_reply {
    uint32_t keysyms[8];
    xkc_state state;
    uint32_t lit;
    uint8_t count;
    uint8_t consumed;
    uint8_t known;
} xkc_reply;

/* What a key gives in a state. */
typedef struct xkc_look {
    uint32_t keysyms[8];
    uint8_t count;
    uint8_t consumed;
    uint8_t known;
} xkc_look;

/* A byte's line, and its place among the line's bytes, both from 1. */
typedef struct xkc_position {
    size_t line;
    size_t column;
} xkc_position;

/* How many rows of each kind a keymap has. */
typedef struct xkc_counts {
    uint32_t types;
    uint32_t entries;
    uint32_t keys;
    uint32_t groups;
    uint32_t levels;
    uint32_t keysyms;
    uint32_t indicators;
    uint32_t group_names;
} xkc_counts;

/* A key type: the modifiers that select a level, how many levels there are, and its entries. No entry selects the first
 * level. */
typedef struct xkc_type {
    uint32_t first_entry;
    uint32_t entries;
    uint8_t mods;
    uint8_t levels;
} xkc_type;

/* An entry of a key type: these modifiers select the level, which counts from 1; `preserve` are those of them that aren't
 * consumed. */
typedef struct xkc_entry {
    uint8_t mods;
    uint8_t level;
    uint8_t preserve;
} xkc_entry;

/* A key: its code, its groups, the real modifiers that it is mapped to, and what becomes of a group that it doesn't have:
 * 0 it is taken modulo `groups`, 1 the nearest one is, 2 `redirect` is, or the first where the key doesn't have that. */
typedef struct xkc_key {
    uint32_t code;
    uint32_t first_group;
    uint8_t groups;
    uint8_t modmap;
    uint8_t range;
    uint8_t redirect;
} xkc_key;

/* A group of a key: its first level, of which it has as many as its key type. */
typedef struct xkc_group {
    uint32_t first_level;
    uint32_t key_type;
} xkc_group;

/* What a level does: 0 nothing; 1 to 3 it sets, latches or locks modifiers; 4 to 6 it sets, latches or locks a group, which
 * is `group`, or so many further where `is_relative` is 1. Of locking, `locks` is 1 where a press locks, and `unlocks` where
 * a release unlocks. */
typedef struct xkc_action {
    int32_t group;
    uint8_t kind;
    uint8_t mods;
    uint8_t is_relative;
    uint8_t clear_locks;
    uint8_t latch_to_lock;
    uint8_t locks;
    uint8_t unlocks;
} xkc_action;

/* A level of a group: its action, and its keysyms, 8 at most. */
typedef struct xkc_level {
    xkc_action action;
    uint32_t first_keysym;
    uint8_t keysyms;
} xkc_level;

/* An indicator: lit while its modifiers, or its groups (bit g is group g), are among those of the states that it looks at:
 * bit 0 is base, 1 latched, 2 locked, 3 effective. */
typedef struct xkc_indicator {
    uint32_t groups;
    uint8_t mods;
    uint8_t mod_states;
    uint8_t group_states;
} xkc_indicator;

/* Where a keysym is given: the index of a key, and a group and a level of it, counted from 0. */
typedef struct xkc_spot {
    uint32_t key;
    uint32_t group;
    uint32_t level;
} xkc_spot;

/* A folder in which files are looked for: its path, in UTF-8. */
typedef struct xkc_folder {
    const uint8_t *path;
    size_t path_size;
} xkc_folder;

/* The names by which a keymap is asked for, in UTF-8, as "de,us" of layouts. An empty name isn't asked for, and so are empty
 * options, but where `has_options` is 1. For what isn't asked for stands the default: rules evdev, model pc105, layout us, no
 * variant and no options; or, where `environment` is 1, what XKB_DEFAULT_RULES, _MODEL, _LAYOUT, _VARIANT and _OPTIONS say. */
typedef struct xkc_asked {
    const uint8_t *rules;
    size_t rules_size;
    const uint8_t *model;
    size_t model_size;
    const uint8_t *layouts;
    size_t layouts_size;
    const uint8_t *variants;
    size_t variants_size;
    const uint8_t *options;
    size_t options_size;
    uint8_t has_options;
    uint8_t environment;
} xkc_asked;

/* How much of a source had no effect, as `xkc compile` counts it. */
typedef struct xkc_notes {
    uint32_t keysyms;
    uint32_t keys;
    uint32_t types;
    uint32_t levels;
    uint32_t actions;
} xkc_notes;

/* How many aliases of keys, virtual modifiers and names of indicators there are. */
typedef struct xkc_left_counts {
    uint32_t aliases;
    uint32_t modifiers;
    uint32_t indicators;
} xkc_left_counts;

/* The version of the library. */
uint32_t xkc_version(void);

/* Where the byte at a place of a text stands, or the end where the text is shorter: for people, of a fault's span. */
void xkc_locate(const uint8_t *text, size_t text_size, size_t place, xkc_position *position);

/* ---- Names of keysyms. An empty handle has the built-in ones alone. */

/* Takes all names of X11 and XFree86, and the letters of Unicode's case mapping, as the program does. Answers XKC_OK, or
 * XKC_MEMORY. Takes memory: one block of a few bytes. */
uint32_t xkc_names_x11(xkc_names *names);

/* Reads lines of a name, blanks and a number, so that a source, print and the two calls below know them beside the
 * built-in ones. Answers XKC_OK; XKC_MEMORY; or XKC_NAMES and writes `fault`, else that isn't written. Takes memory. */
uint32_t xkc_names_read(xkc_names *names, const uint8_t *lines, size_t lines_size, xkc_names_fault *fault);

/* The keysym of a name: XKC_OK and writes `keysym`, or XKC_MISSING. */
uint32_t xkc_names_keysym(xkc_names *names, const uint8_t *name, size_t name_size, uint32_t *keysym);

/* The name of a keysym, 64 bytes at most: its first name, else the U form, else the 0x form. Writes `size`, and answers
 * XKC_OK with the name in `out`, or XKC_ROOM. */
uint32_t xkc_names_name(xkc_names *names, uint32_t keysym, uint8_t *out, size_t room, size_t *size);

/* Lets go of the names. Keymaps that were compiled with them go on. */
void xkc_names_end(xkc_names *names);

/* ---- Keymaps */

/* Compiles a source, with files that it may include: of two that have one name the later is taken. Answers XKC_OK;
 * XKC_MEMORY; or XKC_SOURCE and writes `fault`, else that isn't written. Takes memory. */
uint32_t xkc_keymap_compile(xkc_keymap *keymap, const uint8_t *source, size_t source_size, const xkc_file *files,
                            size_t file_count, xkc_names *names, xkc_fault *fault);

/* Opens an image of any version, of which it keeps a copy. Answers XKC_OK, XKC_MEMORY, or XKC_IMAGE. Takes memory. */
uint32_t xkc_keymap_open(xkc_keymap *keymap, const uint8_t *image, size_t image_size);

/* The keymap's image, for another process to open. Writes `size`, and answers XKC_OK with the bytes in `out`, or XKC_ROOM;
 * XKC_EMPTY writes nothing. */
uint32_t xkc_keymap_image(xkc_keymap *keymap, uint8_t *out, size_t room, size_t *size);

/* The keymap as text, in the same way; or XKC_MEMORY, which writes nothing. Takes memory while it runs. */
uint32_t xkc_keymap_print(xkc_keymap *keymap, uint8_t *out, size_t room, size_t *size);

/* Lets go of the keymap. Keyboards and followers over it go on. */
void xkc_keymap_end(xkc_keymap *keymap);

/* The rows of a keymap. Each call answers XKC_OK and writes the row; XKC_MISSING, where there is none of that index; or
 * XKC_EMPTY. Keys stand by rising codes. */
uint32_t xkc_keymap_counts(xkc_keymap *keymap, xkc_counts *counts);
uint32_t xkc_keymap_key(xkc_keymap *keymap, uint32_t index, xkc_key *key);
uint32_t xkc_keymap_type(xkc_keymap *keymap, uint32_t index, xkc_type *type);
uint32_t xkc_keymap_entry(xkc_keymap *keymap, uint32_t index, xkc_entry *entry);
uint32_t xkc_keymap_group(xkc_keymap *keymap, uint32_t index, xkc_group *group);
uint32_t xkc_keymap_level(xkc_keymap *keymap, uint32_t index, xkc_level *level);
uint32_t xkc_keymap_keysym(xkc_keymap *keymap, uint32_t index, uint32_t *keysym);
uint32_t xkc_keymap_indicator(xkc_keymap *keymap, uint32_t index, xkc_indicator *indicator);

/* The index of the key of a code: XKC_OK and writes `index`, XKC_MISSING or XKC_EMPTY. */
uint32_t xkc_keymap_key_of(xkc_keymap *keymap, uint32_t code, uint32_t *index);

/* The name of a row: of a key, a key type, an indicator, or of the keymap's group of that index, which may be empty. Writes
 * `size`, and answers XKC_OK with the name in `out`, or XKC_ROOM; XKC_MISSING and XKC_EMPTY write nothing. */
uint32_t xkc_keymap_name(xkc_keymap *keymap, uint32_t kind, uint32_t index, uint8_t *out, size_t room, size_t *size);

/* All places at which a keysym is given, alone or with others. Writes how many they are in `count`, and answers XKC_OK with them
 * in `spots`, or XKC_ROOM where there is no room for all; XKC_MEMORY and XKC_EMPTY write nothing. Takes memory while it runs. */
uint32_t xkc_keymap_spots(xkc_keymap *keymap, uint32_t keysym, xkc_spot *spots, size_t room, size_t *count);

/* ---- Sources: what a keymap is compiled from, with the files that its includes reach. These alone read files and the
 * environment. */

/* Takes a source by its text, and finds the files that its includes reach in the folders, of which the first that has a file
 * gives it; with no folder nothing is looked for. Answers XKC_OK, XKC_MEMORY, or XKC_FILE and makes `words`. Takes memory. */
uint32_t xkc_source_read(xkc_source *source, const uint8_t *text, size_t text_size, const xkc_folder *folders,
                         size_t folder_count, xkc_words *words);

/* Takes the source that rules make of names, and finds its files in the same way. With no folder those of the program are
 * looked in, as far as they are there: $XDG_CONFIG_HOME/xkb or ~/.config/xkb, ~/.xkb, /etc/xkb or $XKB_CONFIG_EXTRA_PATH,
 * /usr/share/X11/xkb or $XKB_CONFIG_ROOT. Answers XKC_OK, XKC_MEMORY, XKC_FILE or XKC_RULES, and makes `words` but for
 * XKC_MEMORY: of XKC_OK they are the names that no rule takes, or none. Takes memory. */
uint32_t xkc_source_named(xkc_source *source, const xkc_asked *asked, const xkc_folder *folders, size_t folder_count,
                          xkc_words *words);

/* Its text. Writes `size`, and answers XKC_OK with the bytes in `out`, or XKC_ROOM; XKC_EMPTY writes nothing. */
uint32_t xkc_source_bytes(xkc_source *source, uint8_t *out, size_t room, size_t *size);

/* Compiles it. Answers XKC_OK, makes `keymap` and writes `notes`; XKC_SOURCE, writes `fault` and makes `words`, which show it
 * as the program does; XKC_MEMORY or XKC_EMPTY. The n-th file of a fault is the n-th that was found. Takes memory. */
uint32_t xkc_source_compile(xkc_source *source, xkc_names *names, xkc_keymap *keymap, xkc_notes *notes, xkc_fault *fault,
                            xkc_words *words);

/* The text of its keymap for clients, which needs no files: all that the image has, with what it leaves out. Writes `size`,
 * and answers XKC_OK with the bytes in `out`, or XKC_ROOM; XKC_SOURCE, XKC_MEMORY and XKC_EMPTY write nothing, nor does
 * XKC_MISSING, where no text means the same: a source of 4,096 key types of which none is ONE_LEVEL is known. Takes memory while
 * it runs. */
uint32_t xkc_source_text(xkc_source *source, xkc_names *names, uint8_t *out, size_t room, size_t *size);

/* What its keymap's image leaves out. Answers XKC_OK and makes `left`; XKC_SOURCE, XKC_MEMORY or XKC_EMPTY. Takes memory. */
uint32_t xkc_source_left(xkc_source *source, xkc_names *names, xkc_left *left);

void xkc_source_end(xkc_source *source);

/* ---- What an image leaves out. These calls take no memory. */

/* XKC_OK and writes `counts`, or XKC_EMPTY. */
uint32_t xkc_left_counts_of(xkc_left *left, xkc_left_counts *counts);

/* Whether the key of a code repeats while it is held: XKC_OK and writes `repeats`, or XKC_EMPTY. */
uint32_t xkc_left_repeats(xkc_left *left, uint32_t code, uint8_t *repeats);

/* By index: an alias, the name of the alias's key, the name of a virtual modifier, and the name that keycodes give indicator
 * `index`, which may be empty. Each writes `size`, and answers XKC_OK with the name in `out`, or XKC_ROOM; XKC_MISSING and
 * XKC_EMPTY write nothing. Of a virtual modifier that is there `mods` are the real ones for which it stands. */
uint32_t xkc_left_alias(xkc_left *left, uint32_t index, uint8_t *out, size_t room, size_t *size);
uint32_t xkc_left_alias_key(xkc_left *left, uint32_t index, uint8_t *out, size_t room, size_t *size);
uint32_t xkc_left_modifier(xkc_left *left, uint32_t index, uint8_t *mods, uint8_t *out, size_t room, size_t *size);
uint32_t xkc_left_indicator(xkc_left *left, uint32_t index, uint8_t *out, size_t room, size_t *size);

void xkc_left_end(xkc_left *left);

/* ---- Words: lines in UTF-8 that a person reads of something that went wrong. */

/* Writes `size`, and answers XKC_OK with the lines in `out`, or XKC_ROOM; XKC_EMPTY writes nothing. Takes no memory. */
uint32_t xkc_words_text(xkc_words *words, uint8_t *out, size_t room, size_t *size);

void xkc_words_end(xkc_words *words);

/* ---- Keyboards: what a compositor runs */

/* Starts a keyboard over a keymap, with nothing held, latched or locked. Answers XKC_OK, XKC_MEMORY, or XKC_EMPTY where the
 * keymap is empty. Takes memory; no other call of a keyboard does. */
uint32_t xkc_keyboard_start(xkc_keyboard *keyboard, xkc_keymap *keymap);

/* Tells a keyboard of a press, or of a release where `down` is 0: XKC_OK and writes `reply`; XKC_MISSING for a code above
 * 65,535, which changes nothing; or XKC_EMPTY. A code that the keymap doesn't have is answered with `known` 0. */
uint32_t xkc_keyboard_event(xkc_keyboard *keyboard, uint32_t code, uint8_t down, xkc_reply *reply);

/* Latches and locks what a state says, in the place of what is latched and locked; its groups are taken modulo the keymap's.
 * The keys that are held stay so: the state's base modifiers, its base group and its effective group aren't read. XKC_OK or
 * XKC_EMPTY. */
uint32_t xkc_keyboard_set(xkc_keyboard *keyboard, const xkc_state *state);

/* The modifiers and groups, and the indicators that are lit: bit i is indicator i. XKC_OK or XKC_EMPTY. */
uint32_t xkc_keyboard_state(xkc_keyboard *keyboard, xkc_state *state);
uint32_t xkc_keyboard_lit(xkc_keyboard *keyboard, uint32_t *lit);

void xkc_keyboard_end(xkc_keyboard *keyboard);

/* ---- Keysyms and characters, by no handle. They answer as libxkbcommon's calls of the names at their right. */

uint32_t xkc_keysym_character(uint32_t keysym);    /* its character, as a code point, or 0   (xkb_keysym_to_utf32) */
uint32_t xkc_character_keysym(uint32_t character); /* the keysym of a code point, or 0       (xkb_utf32_to_keysym) */
uint32_t xkc_keysym_upper(uint32_t keysym);        /* the letter in upper case, or the same  (xkb_keysym_to_upper) */
uint32_t xkc_keysym_lower(uint32_t keysym);        /* the letter in lower case, or the same  (xkb_keysym_to_lower) */

/* ---- Followers: what a client looks its keys up in */

/* Starts a follower of a keyboard over a keymap, with nothing held, latched or locked. Answers as xkc_keyboard_start. Takes
 * memory; no other call of a follower does. */
uint32_t xkc_follower_start(xkc_follower *follower, xkc_keymap *keymap);

/* Tells a follower the keyboard's state: XKC_OK or XKC_EMPTY. `effective_group` is not read: the other three give it. */
uint32_t xkc_follower_set(xkc_follower *follower, const xkc_state *state);

/* What the key of a code gives in that state: XKC_OK and writes `look`; XKC_MISSING for a code above 65,535; or XKC_EMPTY. */
uint32_t xkc_follower_look(xkc_follower *follower, uint32_t code, xkc_look *look);

/* The keysym of that key, where it gives one: in upper case where Lock is active and not consumed. 0 where it gives none or
 * several. Answers as xkc_follower_look. */
uint32_t xkc_follower_keysym(xkc_follower *follower, uint32_t code, uint32_t *keysym);

/* The text that the key types, in UTF-8, of at most 32 bytes: the characters of its keysyms, or nothing where one has none. Of a
 * key with one keysym Lock, where it is active and not consumed, makes upper case, and Control a control character, as the
 * byte 3 of c; where the keysym isn't ASCII's, of the first group in which the key gives one that is. As
 * xkb_state_key_get_utf8 of libxkbcommon. Answers as xkc_follower_look, or XKC_ROOM. */
uint32_t xkc_follower_text(xkc_follower *follower, uint32_t code, uint8_t *out, size_t room, size_t *size);

/* The indicators that are lit in that state. XKC_OK or XKC_EMPTY. */
uint32_t xkc_follower_lit(xkc_follower *follower, uint32_t *lit);

void xkc_follower_end(xkc_follower *follower);

#ifdef __cplusplus
}
#endif

#endif
