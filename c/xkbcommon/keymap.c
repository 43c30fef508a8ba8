/* Keymaps: made of names, texts and files, and written as the text that clients read. */
#define _GNU_SOURCE
#include "private.h"
#include <stdio.h>
#include <stdlib.h>
#include <string.h>

const char keymap_kind;

/* Tells what was said of something, and lets go of it. */
static void tell_words(struct xkb_context *c, enum xkb_log_level level, xkc_words *words)
{
    uint8_t none;
    size_t size = 0;
    if (xkc_words_text(words, &none, 0, &size) != XKC_EMPTY && size) {
        char *text = calloc(size + 1, 1);
        if (text) xkc_words_text(words, (uint8_t *)text, size, &size);
        if (text) tell(c, level, "%s%s", text, text[size - 1] == '\n' ? "" : "\n");
        free(text);
    }
    xkc_words_end(words);
}

static xkc_folder *folders_of(const struct xkb_context *c)
{
    xkc_folder *all = calloc(c->folder_count + 1, sizeof *all);
    for (size_t i = 0; all && i < c->folder_count; i++) all[i] = (xkc_folder){(const uint8_t *)c->folders[i], strlen(c->folders[i])};
    return all;
}

/* ---- From a source to a keymap */

static bool compile(struct xkb_keymap *m)
{
    xkc_notes notes;
    xkc_fault fault;
    xkc_words words = {0};
    xkc_names *names = take_names();
    uint32_t status = xkc_source_compile(&m->source, names, &m->handle, &notes, &fault, &words);
    if (!status) status = xkc_source_left(&m->source, names, &m->left);
    give_names_back();
    tell_words(m->context, XKB_LOG_LEVEL_ERROR, &words);
    return !status && read_rows(m);
}

/* Takes the source over. */
static struct xkb_keymap *keymap_of(struct xkb_context *c, xkc_source source)
{
    struct xkb_keymap *m = calloc(1, sizeof *m);
    if (!m) {
        xkc_source_end(&source);
        return NULL;
    }
    m->kind = &keymap_kind;
    m->owners = 1;
    m->context = xkb_context_ref(c);
    m->source = source;
    if (compile(m)) return m;
    xkb_keymap_unref(m);
    return NULL;
}

/* Where a token that is neither a word nor a number ends: a string, the name of a key, a comment or another byte. */
static size_t token_end(const char *text, size_t size, size_t start)
{
    char first = text[start];
    bool is_comment = first == '#' || (first == '/' && start + 1 < size && text[start + 1] == '/');
    char last = is_comment ? '\n' : first == '<' ? '>' : first;
    size_t at = start + 1;
    if (!is_comment && first != '"' && first != '<') return at;
    for (; at < size && text[at] != last; at++)
        if (first == '"' && text[at] == '\\') at++;
    return at < size ? at + 1 : size;
}

/* Names of characters have six digits at most in xkc, and libxkbcommon writes eight, as U0001F600: zeros in front of six digits
 * go, and blanks stand behind. */
static void shorten_names(char *text, size_t size)
{
    static const char word[] = "ABCDEFGHIJKLMNOPQRSTUVWXYZabcdefghijklmnopqrstuvwxyz_0123456789";
    for (size_t start = 0, end; start < size; start = end) {
        end = start;
        while (end < size && text[end] && strchr(word, text[end])) end++;
        size_t digits = strspn(text + start + 1, "0123456789ABCDEFabcdef"), zeros = strspn(text + start + 1, "0");
        if (end == start) {
            end = token_end(text, size, start);
        } else if (text[start] == 'U' && start + 1 + digits == end && digits > 6 && digits <= 8 && zeros >= digits - 6) {
            memmove(text + start + 1, text + end - 6, 6);
            memset(text + start + 7, ' ', digits - 6);
        }
    }
}

static struct xkb_keymap *keymap_of_text(struct xkb_context *c, const char *text, size_t size)
{
    while (size && !text[size - 1]) size--;
    xkc_source source = {0};
    xkc_words words = {0};
    xkc_folder *folders = folders_of(c);
    char *own = calloc(size + 1, 1);
    uint32_t status = XKC_MEMORY;
    if (folders && own) {
        memcpy(own, text, size);
        shorten_names(own, size);
        status = xkc_source_read(&source, (const uint8_t *)own, size, folders, c->folder_count, &words);
    }
    free(own);
    free(folders);
    tell_words(c, XKB_LOG_LEVEL_ERROR, &words);
    return status ? NULL : keymap_of(c, source);
}

static bool is_asked_well(struct xkb_context *c, enum xkb_keymap_format format, enum xkb_keymap_compile_flags flags, const void *from)
{
    if (format != XKB_KEYMAP_FORMAT_TEXT_V1) tell(c, XKB_LOG_LEVEL_ERROR, "there is no format %d of keymaps\n", (int)format);
    else if (flags) tell(c, XKB_LOG_LEVEL_ERROR, "there are no flags %#x of keymaps\n", (unsigned)flags);
    else if (!from) tell(c, XKB_LOG_LEVEL_ERROR, "there is nothing that a keymap is to be made of\n");
    else return true;
    return false;
}

struct xkb_keymap *xkb_keymap_new_from_buffer(struct xkb_context *c, const char *text, size_t size, enum xkb_keymap_format format,
    enum xkb_keymap_compile_flags flags)
{
    HAND_ON(is_our_context(c), NULL, xkb_keymap_new_from_buffer, c, text, size, format, flags);
    return is_asked_well(c, format, flags, text) ? keymap_of_text(c, text, size) : NULL;
}

struct xkb_keymap *xkb_keymap_new_from_string(struct xkb_context *c, const char *text, enum xkb_keymap_format format, enum xkb_keymap_compile_flags flags)
{
    return xkb_keymap_new_from_buffer(c, text, text ? strlen(text) : 0, format, flags);
}

static char *contents(FILE *file, size_t *size)
{
    size_t room = 1 << 16;
    char *bytes = malloc(room);
    for (*size = 0; bytes;) {
        size_t count = fread(bytes + *size, 1, room - *size, file);
        if (!count) break;
        *size += count;
        if (*size == room) {
            char *grown = realloc(bytes, room *= 2);
            if (!grown) free(bytes);
            bytes = grown;
        }
    }
    return bytes;
}

struct xkb_keymap *xkb_keymap_new_from_file(struct xkb_context *c, FILE *file, enum xkb_keymap_format format, enum xkb_keymap_compile_flags flags)
{
    HAND_ON(is_our_context(c), NULL, xkb_keymap_new_from_file, c, file, format, flags);
    if (!is_asked_well(c, format, flags, file)) return NULL;
    size_t size;
    char *text = contents(file, &size);
    struct xkb_keymap *m = text ? keymap_of_text(c, text, size) : NULL;
    free(text);
    return m;
}

/* ---- From names */

/* A name that is asked for, else the environment's, else the default. */
static const char *name_or(const struct xkb_context *c, const char *asked, const char *variable, const char *otherwise)
{
    if (asked && *asked) return asked;
    const char *found = c->names_from_environment ? from_environment(c, variable) : NULL;
    return found ? found : otherwise;
}

/* Layouts and variants go together; options may be asked for empty. */
static struct xkb_rule_names names_asked(const struct xkb_context *c, const struct xkb_rule_names *asked)
{
    struct xkb_rule_names names = asked ? *asked : (struct xkb_rule_names){0};
    names.rules = name_or(c, names.rules, "XKB_DEFAULT_RULES", "evdev");
    names.model = name_or(c, names.model, "XKB_DEFAULT_MODEL", "pc105");
    if (!names.layout || !*names.layout) {
        bool has_layout = from_environment(c, "XKB_DEFAULT_LAYOUT");
        names.layout = name_or(c, NULL, "XKB_DEFAULT_LAYOUT", "us");
        names.variant = has_layout ? name_or(c, NULL, "XKB_DEFAULT_VARIANT", "") : "";
    }
    if (!names.variant) names.variant = "";
    if (!names.options) names.options = name_or(c, NULL, "XKB_DEFAULT_OPTIONS", "");
    return names;
}

#define BYTES(text) (const uint8_t *)(text), strlen(text)

struct xkb_keymap *xkb_keymap_new_from_names(struct xkb_context *c, const struct xkb_rule_names *asked, enum xkb_keymap_compile_flags flags)
{
    HAND_ON(is_our_context(c), NULL, xkb_keymap_new_from_names, c, asked, flags);
    if (!is_asked_well(c, XKB_KEYMAP_FORMAT_TEXT_V1, flags, c)) return NULL;
    if (!c->folder_count) {
        tell(c, XKB_LOG_LEVEL_ERROR, "there is no folder in which rules are looked for\n");
        return NULL;
    }
    const struct xkb_rule_names names = names_asked(c, asked);
    const xkc_asked all = {BYTES(names.rules), BYTES(names.model), BYTES(names.layout), BYTES(names.variant), BYTES(names.options), 1, 0};
    xkc_source source = {0};
    xkc_words words = {0};
    xkc_folder *folders = folders_of(c);
    uint32_t status = folders ? xkc_source_named(&source, &all, folders, c->folder_count, &words) : XKC_MEMORY;
    free(folders);
    tell_words(c, status ? XKB_LOG_LEVEL_ERROR : XKB_LOG_LEVEL_WARNING, &words);
    return status ? NULL : keymap_of(c, source);
}

/* ---- Owners */

struct xkb_keymap *xkb_keymap_ref(struct xkb_keymap *m)
{
    HAND_ON(is_our_keymap(m), m, xkb_keymap_ref, m);
    m->owners++;
    return m;
}

void xkb_keymap_unref(struct xkb_keymap *m)
{
    if (!m) return;
    HAND_ON_VOID(is_our_keymap(m), xkb_keymap_unref, m);
    if (--m->owners > 0) return;
    xkc_source_end(&m->source);
    xkc_keymap_end(&m->handle);
    xkc_left_end(&m->left);
    free_rows(m);
    free(m->text);
    xkb_context_unref(m->context);
    m->kind = NULL;
    free(m);
}

/* ---- As text */

/* The text for clients, or the tables' where a source has none. */
static uint32_t text_of(struct xkb_keymap *m, char *text, size_t room, size_t *size)
{
    xkc_names *names = take_names();
    uint32_t status = xkc_source_text(&m->source, names, (uint8_t *)text, room, size);
    give_names_back();
    return status == XKC_MISSING ? xkc_keymap_print(&m->handle, (uint8_t *)text, room, size) : status;
}

static char *made_text(struct xkb_keymap *m)
{
    size_t size = 0;
    uint32_t status = XKC_ROOM;
    char *text = NULL;
    for (size_t room = 1 << 17; status == XKC_ROOM; room = size) {
        free(text);
        text = malloc(room + 1);
        if (!text) return NULL;
        status = text_of(m, text, room, &size);
    }
    if (!status) {
        text[size] = 0;
        return text;
    }
    free(text);
    return NULL;
}

/* It is made once: a compositor asks for it for each of its keyboards. */
char *xkb_keymap_get_as_string(struct xkb_keymap *m, enum xkb_keymap_format format)
{
    HAND_ON(is_our_keymap(m), NULL, xkb_keymap_get_as_string, m, format);
    if (format != XKB_KEYMAP_USE_ORIGINAL_FORMAT && format != XKB_KEYMAP_FORMAT_TEXT_V1) {
        tell(m->context, XKB_LOG_LEVEL_ERROR, "there is no format %d of keymaps\n", (int)format);
        return NULL;
    }
    if (!m->text) m->text = made_text(m);
    return m->text ? strdup(m->text) : NULL;
}
