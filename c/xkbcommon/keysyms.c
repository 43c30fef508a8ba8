/* Keysyms: their names, characters and cases. */
#define _GNU_SOURCE
#include "private.h"
#include "folded_names.h"
#include <stdio.h>
#include <stdlib.h>
#include <string.h>
#include <strings.h>

enum { FIRST_3270 = 0xfd01, COUNT_3270 = 30, MOST_KEYSYM = 0x1fffffff, FIRST_CHARACTER = 0x01000100, LAST_CHARACTER = 0x0110ffff };

/* Names that begin with a digit, which xkc's table hasn't, by their keysyms. */
static const char *const NAMES_3270[COUNT_3270] = {"Duplicate", "FieldMark", "Right2", "Left2", "BackTab", "EraseEOF", "EraseInput", "Reset", "Quit",
    "PA1", "PA2", "PA3", "Test", "Attn", "CursorBlink", "AltCursor", "KeyClick", "Jump", "Ident", "Rule", "Copy", "Play", "Setup", "Record",
    "ChangeScreen", "DeleteWord", "ExSelect", "CursorSelect", "PrintScreen", "Enter"};

static xkc_names names;
static pthread_mutex_t in_use = PTHREAD_MUTEX_INITIALIZER;

/* Where memory is refused they are the built-in ones alone. */
xkc_names *take_names(void)
{
    pthread_mutex_lock(&in_use);
    if (!names.at) xkc_names_x11(&names);
    return &names;
}

void give_names_back(void)
{
    pthread_mutex_unlock(&in_use);
}

/* ---- From a keysym to its name */

/* The name that xkc writes; its 0x form has no zeros before the number, and its U form no more than it needs. */
static int name_of(xkb_keysym_t keysym, char *name, size_t room)
{
    size_t size = 0;
    xkc_names_name(take_names(), keysym, (uint8_t *)name, room - 1, &size);
    give_names_back();
    name[size] = 0;
    bool is_character = keysym >= FIRST_CHARACTER && keysym <= LAST_CHARACTER;
    char form[16];
    snprintf(form, sizeof form, is_character ? "U%04X" : "0x%x", (unsigned)(is_character ? keysym - 0x01000000 : keysym));
    if (strcmp(name, form)) return (int)size;
    if (is_character) return snprintf(name, room, "U%0*X", keysym & 0xff0000 ? 8 : 4, (unsigned)(keysym & 0xffffff));
    return snprintf(name, room, "0x%08x", (unsigned)keysym);
}

int xkb_keysym_get_name(xkb_keysym_t keysym, char *buffer, size_t room)
{
    char name[80];
    if (keysym > MOST_KEYSYM) {
        snprintf(buffer, room, "Invalid");
        return -1;
    }
    if (keysym >= FIRST_3270 && keysym < FIRST_3270 + COUNT_3270) return snprintf(buffer, room, "3270_%s", NAMES_3270[keysym - FIRST_3270]);
    name_of(keysym, name, sizeof name);
    return snprintf(buffer, room, "%s", name);
}

/* ---- From a name to its keysym */

static xkb_keysym_t keysym_of(const char *name)
{
    uint32_t keysym = XKB_KEY_NoSymbol;
    if (!strncmp(name, "3270_", 5)) {
        for (int i = 0; i < COUNT_3270; i++)
            if (!strcmp(name + 5, NAMES_3270[i])) return FIRST_3270 + (xkb_keysym_t)i;
        return XKB_KEY_NoSymbol;
    }
    uint32_t status = xkc_names_keysym(take_names(), (const uint8_t *)name, strlen(name), &keysym);
    give_names_back();
    return status ? XKB_KEY_NoSymbol : keysym;
}

static bool is_lower(xkb_keysym_t keysym)
{
    return xkb_keysym_to_lower(keysym) == keysym && xkb_keysym_to_upper(keysym) != keysym;
}

/* Of the names that are alike but for case that of a letter in lower case, else the one that libxkbcommon's search meets first. */
static xkb_keysym_t keysym_of_any_case(const char *name)
{
    int low = 0, high = sizeof FOLDED_NAMES / sizeof *FOLDED_NAMES, end = high, met = -1;
    while (met < 0 && low < high) {
        int middle = (low + high - 1) / 2, order = strcasecmp(name, FOLDED_NAMES[middle]);
        if (!order) met = middle;
        else if (order > 0) low = middle + 1;
        else high = middle;
    }
    if (met < 0) return XKB_KEY_NoSymbol;
    int first = met;
    while (first > 0 && !strcasecmp(name, FOLDED_NAMES[first - 1])) first--;
    for (int i = first; i < end && !strcasecmp(name, FOLDED_NAMES[i]); i++)
        if (is_lower(keysym_of(FOLDED_NAMES[i]))) return keysym_of(FOLDED_NAMES[i]);
    return keysym_of(FOLDED_NAMES[met]);
}

/* Up to eight hexadecimal digits, which is all of the text. */
static bool is_hexadecimal(const char *text, uint32_t *number)
{
    size_t count = strspn(text, "0123456789abcdefABCDEF");
    if (!count || count > 8 || text[count]) return false;
    *number = (uint32_t)strtoul(text, NULL, 16);
    return true;
}

static xkb_keysym_t keysym_of_character(uint32_t character)
{
    if (character < 0x20 || (character > 0x7e && character < 0xa0) || character > 0x10ffff) return XKB_KEY_NoSymbol;
    return character < 0x100 ? character : character | 0x01000000;
}

xkb_keysym_t xkb_keysym_from_name(const char *name, enum xkb_keysym_flags flags)
{
    if (flags & ~XKB_KEYSYM_CASE_INSENSITIVE) return XKB_KEY_NoSymbol;
    bool any_case = flags & XKB_KEYSYM_CASE_INSENSITIVE;
    uint32_t number;
    if ((*name == 'U' || (any_case && *name == 'u')) && is_hexadecimal(name + 1, &number)) return keysym_of_character(number);
    if (*name == '0' && (name[1] == 'x' || (any_case && name[1] == 'X'))) return is_hexadecimal(name + 2, &number) ? number : XKB_KEY_NoSymbol;
    xkb_keysym_t keysym = any_case ? keysym_of_any_case(name) : keysym_of(name);
    if (keysym || !any_case || strncasecmp(name, "XF86_", 5)) return keysym;
    char *shorter;
    if (asprintf(&shorter, "XF86%s", name + 5) < 0) return XKB_KEY_NoSymbol;
    keysym = keysym_of_any_case(shorter);
    free(shorter);
    return keysym;
}

/* ---- Characters and cases */

uint32_t xkb_keysym_to_utf32(xkb_keysym_t keysym)
{
    return xkc_keysym_character(keysym);
}

xkb_keysym_t xkb_utf32_to_keysym(uint32_t character)
{
    return xkc_character_keysym(character);
}

xkb_keysym_t xkb_keysym_to_upper(xkb_keysym_t keysym)
{
    return xkc_keysym_upper(keysym);
}

xkb_keysym_t xkb_keysym_to_lower(xkb_keysym_t keysym)
{
    return xkc_keysym_lower(keysym);
}

int xkb_keysym_to_utf8(xkb_keysym_t keysym, char *buffer, size_t room)
{
    if (room < 7) return -1;
    uint32_t character = xkc_keysym_character(keysym);
    if (!character) return 0;
    int count = character < 0x80 ? 1 : character < 0x800 ? 2 : character < 0x10000 ? 3 : 4;
    static const uint8_t heads[] = {0, 0, 0xc0, 0xe0, 0xf0};
    for (int i = count - 1; i > 0; i--, character >>= 6) buffer[i] = (char)(0x80 | (character & 0x3f));
    buffer[0] = (char)(heads[count] | character);
    buffer[count] = 0;
    return count + 1;
}
