/* Every call, with each of its statuses but want of memory, which growths.c shows. */
#include "check.h"

static xkc_names no_names, mine;
static xkc_keymap keymap;
static xkc_fault fault;

/* Whether a name is these bytes. */
static int is(const uint8_t *bytes, size_t size, const char *text)
{
    return size == strlen(text) && !memcmp(bytes, text, size);
}

static void texts(void)
{
    xkc_position position;
    holds(xkc_version() == XKC_VERSION, "the library has the header's version");
    xkc_locate(TEXT("one\ntwo\n"), 5, &position);
    holds(position.line == 2 && position.column == 2, "the sixth byte is the second of line 2");
    xkc_locate(TEXT("one"), 9, &position);
    holds(position.line == 1 && position.column == 4, "a place behind the text is its end");
}

static void names(void)
{
    xkc_names_fault wrong = {7, 7};
    uint32_t keysym = 7;
    uint8_t name[64];
    size_t size = 7;
    holds(xkc_names_read(&mine, TEXT(MINE), &wrong) == XKC_OK && wrong.number == 7, "lines are read, and the fault isn't written");
    void *at = mine.at;
    holds(xkc_names_read(&mine, TEXT("A 1000\nfine 0x64\n1 2\n"), &wrong) == XKC_NAMES && wrong.number == 3 && wrong.line == 1, "A is 65 already: N3 in line 1");
    holds(xkc_names_read(&mine, TEXT("\nfine\n"), &wrong) == XKC_NAMES && wrong.number == 2 && wrong.line == 2, "no value: N2 in line 2");
    holds(xkc_names_read(&mine, TEXT("fine 9"), &wrong) == XKC_NAMES && wrong.number == 4 && wrong.line == 1, "too small: N4 in line 1");
    holds(mine.at == at, "what is refused leaves the names");
    holds(xkc_names_keysym(&mine, TEXT("Mine"), &keysym) == XKC_OK && keysym == 0x1234567, "a line's name has its keysym");
    keysym = 7;
    holds(xkc_names_keysym(&no_names, TEXT("Mine"), &keysym) == XKC_MISSING && keysym == 7, "and is none of the built-in names");
    holds(xkc_names_keysym(&no_names, TEXT("\xff\xfe"), &keysym) == XKC_MISSING, "bytes that are no text name nothing");
    holds(xkc_names_keysym(&no_names, TEXT("Return"), &keysym) == XKC_OK && keysym == 0xff0d, "a built-in name");
    holds(xkc_names_keysym(&no_names, TEXT("U20AC"), &keysym) == XKC_OK && keysym == 0x010020ac, "a character");
    holds(xkc_names_name(&mine, 0x1234567, name, sizeof name, &size) == XKC_OK && is(name, size, "Mine"), "the name of a keysym");
    holds(xkc_names_name(&no_names, 0x1234567, name, sizeof name, &size) == XKC_OK && is(name, size, "0x1234567"), "the number of one without a name");
    xkc_names x11 = {0};
    holds(xkc_names_x11(&x11) == XKC_OK && xkc_names_keysym(&x11, TEXT("Cyrillic_ya"), &keysym) == XKC_OK && keysym == 0x6d1, "a name of X11");
    holds(xkc_names_keysym(&no_names, TEXT("Cyrillic_ya"), &keysym) == XKC_MISSING, "is none of the built-in names");
    holds(xkc_names_keysym(&x11, TEXT("XF86_AudioMute"), &keysym) == XKC_OK && keysym == 0x1008ff12, "and with a mark after XF86");
    holds(xkc_names_name(&x11, 0x1008ff12, name, sizeof name, &size) == XKC_OK && is(name, size, "XF86AudioMute"), "which is not the first");
    xkc_names_end(&x11);
    name[0] = 'x';
    holds(xkc_names_name(&no_names, 0xff0d, name, 5, &size) == XKC_ROOM && size == 6 && name[0] == 'x', "no room for a name of six bytes");
}

static void sources(void)
{
    static const char *const faults[] = {"xkb_keymap { \x01 };", "xkb_keymap { \"", "xkb_keymap { <", "xkb_keymap { xkb_keycodes { <A>=4096; }; };"};
    static const uint32_t numbers[] = {3, 4, 5, 18};
    xkc_file files[] = {file_of("keycodes/k", CODES), file_of("symbols/us", SYMBOLS)};
    fault.number = 7;
    holds(xkc_keymap_compile(&keymap, TEXT(ONE_KEY), files, 0, &no_names, &fault) == XKC_OK && fault.number == 7, "a source is compiled, and the fault isn't written");
    void *at = keymap.at;
    for (size_t i = 0; i < sizeof faults / sizeof *faults; i++)
        holds(xkc_keymap_compile(&keymap, TEXT(faults[i]), files, 0, &no_names, &fault) == XKC_SOURCE && fault.number == numbers[i] && fault.file == 0, "a source with a fault");
    holds(fault.start < fault.stop && !memcmp(faults[3] + fault.start, "4096", fault.stop - fault.start), "the fault's span is the code");
    holds(xkc_keymap_compile(&keymap, TEXT(INCLUDES), files, 1, &no_names, &fault) == XKC_SOURCE && fault.number == 9, "a file that isn't handed in");
    holds(keymap.at == at, "what is refused leaves the keymap");
    holds(xkc_keymap_compile(&keymap, TEXT(INCLUDES), files, 2, &no_names, &fault) == XKC_OK, "files are handed in");
    files[1] = file_of("symbols/us", "xkb_symbols { key <A> {[a] };");
    holds(xkc_keymap_compile(&keymap, TEXT(INCLUDES), files, 2, &no_names, &fault) == XKC_SOURCE && fault.file == 2, "a fault in the second file");
}

static void images(void)
{
    static uint8_t image[4096], again[4096], text[4096];
    xkc_keymap empty = {0}, other = {0};
    xkc_file none = {0};
    size_t size = 7, more = 7;
    holds(xkc_keymap_image(&empty, image, sizeof image, &size) == XKC_EMPTY && size == 7, "the image of an empty handle");
    holds(xkc_keymap_print(&empty, image, sizeof image, &size) == XKC_EMPTY && size == 7, "the text of an empty handle");
    holds(xkc_keymap_compile(&keymap, TEXT(DESK), &none, 0, &mine, &fault) == XKC_OK, "a desktop's keymap, with names of its own");
    holds(xkc_keymap_image(&keymap, image, 0, &size) == XKC_ROOM && size > 100 && size < sizeof image && !image[0], "no room for an image");
    holds(xkc_keymap_image(&keymap, image, size, &size) == XKC_OK && !memcmp(image, "KXI\n", 4), "the image of a keymap");
    holds(xkc_keymap_open(&other, image, size) == XKC_OK, "an image is opened");
    holds(xkc_keymap_image(&other, again, sizeof again, &more) == XKC_OK && more == size && !memcmp(image, again, size), "and is its keymap's image");
    void *at = other.at;
    holds(xkc_keymap_open(&other, image, size - 1) == XKC_IMAGE && other.at == at, "a part of an image is none, and leaves the keymap");
    holds(xkc_keymap_open(&other, TEXT("")) == XKC_IMAGE, "no bytes are no image");
    holds(xkc_keymap_print(&keymap, text, 0, &size) == XKC_ROOM && size > 100 && size < sizeof text, "no room for the text");
    holds(xkc_keymap_print(&keymap, text, size, &size) == XKC_OK && xkc_keymap_compile(&other, text, size, &none, 0, &no_names, &fault) == XKC_OK, "the printed text is compiled");
    holds(xkc_keymap_image(&other, again, sizeof again, &size) == XKC_OK && size == more && !memcmp(image, again, size), "to the image itself");
    xkc_keymap_end(&other);
    xkc_keymap_end(&other);
    holds(!other.at, "a handle is ended twice");
}

static void rows_of_empty(void)
{
    xkc_keymap empty = {0};
    xkc_counts counts;
    xkc_key key;
    xkc_type type;
    xkc_entry entry;
    xkc_group group;
    xkc_level level;
    xkc_indicator indicator;
    xkc_spot spot;
    uint32_t number = 7;
    size_t size = 7;
    uint8_t byte;
    holds(xkc_keymap_counts(&empty, &counts) == XKC_EMPTY && xkc_keymap_key(&empty, 0, &key) == XKC_EMPTY && xkc_keymap_type(&empty, 0, &type) == XKC_EMPTY
              && xkc_keymap_entry(&empty, 0, &entry) == XKC_EMPTY && xkc_keymap_group(&empty, 0, &group) == XKC_EMPTY && xkc_keymap_level(&empty, 0, &level) == XKC_EMPTY
              && xkc_keymap_keysym(&empty, 0, &number) == XKC_EMPTY && xkc_keymap_indicator(&empty, 0, &indicator) == XKC_EMPTY
              && xkc_keymap_key_of(&empty, 38, &number) == XKC_EMPTY && xkc_keymap_name(&empty, XKC_KEY_NAME, 0, &byte, 1, &size) == XKC_EMPTY
              && xkc_keymap_spots(&empty, 'a', &spot, 1, &size) == XKC_EMPTY,
        "an empty handle has no rows");
    holds(number == 7 && size == 7, "and writes nothing");
}

static void rows(void)
{
    xkc_counts counts;
    xkc_key key;
    xkc_type type;
    xkc_entry entry;
    xkc_group group;
    xkc_level level;
    xkc_indicator indicator;
    uint32_t index = 7, keysym = 7;
    size_t size;
    uint8_t name[64];
    holds(xkc_keymap_counts(&keymap, &counts) == XKC_OK && counts.keys == 4 && counts.groups == 5 && counts.indicators == 1 && counts.group_names == 2, "the counts");
    holds(xkc_keymap_key_of(&keymap, 38, &index) == XKC_OK && index == 0, "the key of a code");
    holds(xkc_keymap_key_of(&keymap, 39, &index) == XKC_MISSING && xkc_keymap_key_of(&keymap, 65536 + 38, &index) == XKC_MISSING && index == 0, "codes that no key has");
    holds(xkc_keymap_key(&keymap, 0, &key) == XKC_OK && key.code == 38 && key.groups == 2 && key.range == 0, "a key");
    holds(xkc_keymap_key(&keymap, 4, &key) == XKC_MISSING && xkc_keymap_key(&keymap, UINT32_MAX, &key) == XKC_MISSING && key.code == 38, "no fifth key");
    holds(xkc_keymap_group(&keymap, key.first_group + 1, &group) == XKC_OK && xkc_keymap_group(&keymap, counts.groups, &group) == XKC_MISSING, "its second group");
    holds(xkc_keymap_type(&keymap, group.key_type, &type) == XKC_OK && type.levels == 2 && type.mods == 3 && xkc_keymap_type(&keymap, counts.types, &type) == XKC_MISSING, "of the type ALPHABETIC");
    holds(xkc_keymap_entry(&keymap, type.first_entry, &entry) == XKC_OK && entry.level == 2 && xkc_keymap_entry(&keymap, counts.entries, &entry) == XKC_MISSING, "with an entry for its second level");
    holds(xkc_keymap_level(&keymap, group.first_level + 1, &level) == XKC_OK && level.keysyms == 1 && level.action.kind == 0 && xkc_keymap_level(&keymap, counts.levels, &level) == XKC_MISSING, "its second level");
    holds(xkc_keymap_keysym(&keymap, level.first_keysym, &keysym) == XKC_OK && keysym == 'B' && xkc_keymap_keysym(&keymap, counts.keysyms, &keysym) == XKC_MISSING, "has the keysym B");
    holds(!xkc_keymap_key(&keymap, 1, &key) && !xkc_keymap_group(&keymap, key.first_group, &group) && !xkc_keymap_level(&keymap, group.first_level, &level) && level.action.kind == 1 && level.action.mods == 1, "an action that sets Shift");
    holds(!xkc_keymap_key(&keymap, 2, &key) && !xkc_keymap_group(&keymap, key.first_group, &group) && !xkc_keymap_level(&keymap, group.first_level, &level) && level.action.kind == 3 && level.action.locks && level.action.unlocks, "an action that locks");
    holds(xkc_keymap_indicator(&keymap, 0, &indicator) == XKC_OK && indicator.mods == 2 && xkc_keymap_indicator(&keymap, 1, &indicator) == XKC_MISSING, "an indicator");
    holds(!xkc_keymap_name(&keymap, XKC_KEY_NAME, 1, name, sizeof name, &size) && is(name, size, "L"), "the name of a key");
    holds(!xkc_keymap_name(&keymap, XKC_TYPE_NAME, group.key_type, name, sizeof name, &size) && is(name, size, "ONE_LEVEL"), "the name of a type");
    holds(!xkc_keymap_name(&keymap, XKC_INDICATOR_NAME, 0, name, sizeof name, &size) && is(name, size, "Caps"), "the name of an indicator");
    holds(!xkc_keymap_name(&keymap, XKC_GROUP_NAME, 1, name, sizeof name, &size) && is(name, size, "Second"), "the name of a group");
    holds(xkc_keymap_name(&keymap, XKC_GROUP_NAME, 1, name, 5, &size) == XKC_ROOM && size == 6, "no room for a name");
    holds(xkc_keymap_name(&keymap, XKC_GROUP_NAME, 2, name, sizeof name, &size) == XKC_MISSING && xkc_keymap_name(&keymap, 4, 0, name, sizeof name, &size) == XKC_MISSING && size == 6, "rows without a name, and no kind of rows");
}

static void spots(void)
{
    xkc_spot found[2] = {{9, 9, 9}, {9, 9, 9}};
    size_t count = 7;
    holds(xkc_keymap_spots(&keymap, 'B', found, 2, &count) == XKC_OK && count == 1 && found[0].key == 0 && found[0].group == 1 && found[0].level == 1, "where a keysym is given");
    holds(found[1].key == 9 && found[1].group == 9 && found[1].level == 9, "what is behind stays");
    found[0].key = 9;
    holds(xkc_keymap_spots(&keymap, 'B', found, 0, &count) == XKC_ROOM && count == 1 && found[0].key == 9, "no room for a spot");
    holds(xkc_keymap_spots(&keymap, 0x1234568, found, 2, &count) == XKC_OK && count == 0 && found[0].key == 9, "no key gives it");
}

static void keyboards(void)
{
    xkc_keymap empty = {0};
    xkc_keyboard keyboard = {0};
    xkc_reply reply;
    xkc_state state;
    uint32_t lit = 7;
    memset(&reply, 7, sizeof reply);
    holds(xkc_keyboard_event(&keyboard, 38, 1, &reply) == XKC_EMPTY && xkc_keyboard_state(&keyboard, &state) == XKC_EMPTY && xkc_keyboard_lit(&keyboard, &lit) == XKC_EMPTY && reply.known == 7 && lit == 7, "a keyboard that wasn't started");
    holds(xkc_keyboard_start(&keyboard, &empty) == XKC_EMPTY && !keyboard.at, "no keyboard over an empty keymap");
    holds(xkc_keyboard_start(&keyboard, &keymap) == XKC_OK, "a keyboard is started");
    holds(!xkc_keyboard_event(&keyboard, 38, 1, &reply) && reply.known == 1 && reply.count == 1 && reply.keysyms[0] == 'a' && reply.consumed == 3, "a press");
    holds(!xkc_keyboard_event(&keyboard, 38, 0, &reply) && !xkc_keyboard_event(&keyboard, 50, 255, &reply) && reply.state.base == 1, "Shift, by any number but 0");
    holds(!xkc_keyboard_event(&keyboard, 38, 1, &reply) && reply.keysyms[0] == 'A', "a press with Shift");
    holds(!xkc_keyboard_event(&keyboard, 38, 0, &reply) && !xkc_keyboard_event(&keyboard, 50, 0, &reply) && reply.state.base == 0, "and its release");
    holds(!xkc_keyboard_event(&keyboard, 66, 1, &reply) && reply.state.locked == 2 && reply.lit == 1, "Caps Lock lights the indicator");
    holds(!xkc_keyboard_state(&keyboard, &state) && !memcmp(&state, &reply.state, 10) && !xkc_keyboard_lit(&keyboard, &lit) && lit == 1, "the state is the reply's");
    holds(!xkc_keyboard_event(&keyboard, 9, 1, &reply) && reply.known == 0 && reply.count == 0 && reply.lit == 1, "a code without a key");
    reply.known = 7;
    holds(xkc_keyboard_event(&keyboard, 65536 + 38, 1, &reply) == XKC_MISSING && reply.known == 7, "a code above 65,535");
    holds(!xkc_keyboard_event(&keyboard, 67, 1, &reply) && reply.keysyms[0] == 0x1234567, "a keysym of the line's name");
    state = (xkc_state){.base = 1, .base_group = 1, .latched = 1, .locked = 0, .latched_group = 2, .locked_group = 5, .effective_group = 9};
    holds(!xkc_keyboard_set(&keyboard, &state) && !xkc_keyboard_state(&keyboard, &state) && state.base == 2 && state.base_group == 0 && state.latched == 1 && state.locked == 0, "a keyboard that is told what is latched and locked keeps what is held");
    holds(state.latched_group == 0 && state.locked_group == 1 && state.effective_group == 1 && !xkc_keyboard_lit(&keyboard, &lit) && lit == 1, "its groups are those of the keymap, and the key that is held lights the indicator");
    holds(!xkc_keyboard_event(&keyboard, 38, 1, &reply) && reply.keysyms[0] == 'b' && reply.state.latched == 0 && reply.state.locked_group == 1, "and the next event goes on from there");
    xkc_keyboard_end(&keyboard);
    xkc_keyboard_end(&keyboard);
    holds(!keyboard.at && xkc_keyboard_set(&keyboard, &state) == XKC_EMPTY, "a keyboard is ended twice");
}

static void followers(void)
{
    xkc_keymap empty = {0};
    xkc_follower follower = {0};
    xkc_look look;
    xkc_state state = {0};
    uint32_t lit = 7;
    memset(&look, 7, sizeof look);
    holds(xkc_follower_set(&follower, &state) == XKC_EMPTY && xkc_follower_look(&follower, 38, &look) == XKC_EMPTY && xkc_follower_lit(&follower, &lit) == XKC_EMPTY && look.known == 7 && lit == 7, "a follower that wasn't started");
    holds(xkc_follower_start(&follower, &empty) == XKC_EMPTY && !follower.at, "no follower over an empty keymap");
    holds(xkc_follower_start(&follower, &keymap) == XKC_OK && !xkc_follower_look(&follower, 38, &look) && look.keysyms[0] == 'a' && look.count == 1 && look.known == 1 && look.consumed == 3, "a follower is started");
    state.locked = 2;
    state.locked_group = 1;
    holds(!xkc_follower_set(&follower, &state) && !xkc_follower_look(&follower, 38, &look) && look.keysyms[0] == 'B', "and told of a state");
    holds(!xkc_follower_look(&follower, 38, &look) && look.keysyms[0] == 'B' && !xkc_follower_lit(&follower, &lit) && lit == 1, "which a look leaves");
    holds(!xkc_follower_look(&follower, 9, &look) && look.known == 0 && look.count == 0, "a code without a key");
    holds(xkc_follower_look(&follower, 65536, &look) == XKC_MISSING, "a code above 65,535");
    xkc_keymap_end(&keymap);
    holds(!xkc_follower_look(&follower, 38, &look) && look.keysyms[0] == 'B', "a follower goes on when its keymap has ended");
    xkc_follower_end(&follower);
    xkc_follower_end(&follower);
    holds(!follower.at, "a follower is ended twice");
}

int main(void)
{
    texts();
    names();
    sources();
    images();
    rows_of_empty();
    rows();
    spots();
    keyboards();
    followers();
    xkc_keymap_end(&keymap);
    xkc_names_end(&mine);
    xkc_names_end(&mine);
    holds(!mine.at, "names are ended twice");
    return counted();
}
