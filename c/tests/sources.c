/* Every call of a source, of what its image leaves out and of words, with each of its statuses but want of memory: sources FOLDER, where
 * tests/library.sh makes the folder, which the environment names too. */
#include "check.h"

static xkc_names names;
static xkc_source source;
static xkc_keymap keymap;
static xkc_left left;
static xkc_words words;
static xkc_notes notes;
static xkc_fault fault;
static xkc_folder folder;
static uint8_t text[4096];
static size_t size;

/* Whether the words are these lines. */
static int said(const char *lines)
{
    return xkc_words_text(&words, text, sizeof text, &size) == XKC_OK && size == strlen(lines) && !memcmp(text, lines, size);
}

/* Whether the words begin with these. */
static int said_first(const char *lines)
{
    return xkc_words_text(&words, text, sizeof text, &size) == XKC_OK && size > strlen(lines) && !memcmp(text, lines, strlen(lines));
}

static uint32_t read_text(const char *of)
{
    return xkc_source_read(&source, TEXT(of), &folder, 1, &words);
}

static uint32_t compile(void)
{
    return xkc_source_compile(&source, &names, &keymap, &notes, &fault, &words);
}

/* Whether the key of a code has a keysym among its first. */
static int gives(uint32_t code, uint32_t keysym)
{
    xkc_follower follower = {0};
    xkc_look look;
    int gives = xkc_follower_start(&follower, &keymap) == XKC_OK && xkc_follower_look(&follower, code, &look) == XKC_OK && look.count == 1 && look.keysyms[0] == keysym;
    xkc_follower_end(&follower);
    return gives;
}

static xkc_asked asked_for(const char *layouts)
{
    xkc_asked asked = {0};
    asked.rules = asked.model = asked.variants = asked.options = (const uint8_t *)"";
    asked.layouts = (const uint8_t *)layouts;
    asked.layouts_size = strlen(layouts);
    return asked;
}

static void empty_handles(void)
{
    xkc_source none = {0};
    xkc_left no_left = {0};
    xkc_words no_words = {0};
    xkc_left_counts counts;
    uint8_t byte = 7;
    size = 7;
    holds(xkc_source_bytes(&none, text, sizeof text, &size) == XKC_EMPTY && xkc_source_text(&none, &names, text, sizeof text, &size) == XKC_EMPTY
              && xkc_source_compile(&none, &names, &keymap, &notes, &fault, &words) == XKC_EMPTY && xkc_source_left(&none, &names, &left) == XKC_EMPTY,
        "an empty handle has no source");
    holds(xkc_left_counts_of(&no_left, &counts) == XKC_EMPTY && xkc_left_repeats(&no_left, 38, &byte) == XKC_EMPTY
              && xkc_left_alias(&no_left, 0, text, sizeof text, &size) == XKC_EMPTY && xkc_left_alias_key(&no_left, 0, text, sizeof text, &size) == XKC_EMPTY
              && xkc_left_modifier(&no_left, 0, &byte, text, sizeof text, &size) == XKC_EMPTY && xkc_left_indicator(&no_left, 0, text, sizeof text, &size) == XKC_EMPTY,
        "nor what an image leaves out");
    holds(xkc_words_text(&no_words, text, sizeof text, &size) == XKC_EMPTY, "nor words");
    holds(size == 7 && byte == 7 && !keymap.at && !left.at && !words.at, "and nothing is written");
}

static void by_text(void)
{
    holds(xkc_source_read(&source, TEXT(ONE_KEY), &folder, 0, &words) == XKC_OK && !words.at, "a source by itself");
    holds(xkc_source_bytes(&source, text, 0, &size) == XKC_ROOM && size == strlen(ONE_KEY), "no room for its text");
    holds(xkc_source_bytes(&source, text, size, &size) == XKC_OK && !memcmp(text, ONE_KEY, size), "its text");
    notes.keys = fault.number = 7;
    holds(compile() == XKC_OK && notes.keys == 0 && fault.number == 7 && !words.at && gives(38, 'a'), "it is compiled, and no fault is written");
    holds(read_text("xkb_keymap { xkb_keycodes { include \"evdev\" }; xkb_symbols { include \"us\" }; };") == XKC_OK && compile() == XKC_OK && gives(38, 'a'), "files are found in a folder");
    void *at = keymap.at;
    holds(xkc_source_read(&source, TEXT("xkb_keymap { xkb_symbols { include \"us\" }; };"), &folder, 0, &words) == XKC_OK && compile() == XKC_SOURCE && fault.number == 9,
        "with no folder none is looked for");
    holds(read_text("xkb_keymap {\n\txkb_symbols { include \"uss\" };\n};") == XKC_OK && compile() == XKC_SOURCE && fault.number == 9 && keymap.at == at, "a file that isn't there");
    holds(said_first("<source>:2:24: error: "), "the words have the place");
    holds(strstr((char *)text, "^^^") && strstr((char *)text, "looked for in "), "and a mark below the line, and where it was looked for");
    holds(read_text("xkb_keymap { xkb_symbols { include \"broken\" }; };") == XKC_OK && compile() == XKC_SOURCE && fault.file == 1, "a fault of a file");
    holds(said_first("symbols/broken:2:1: error: ") && strstr((char *)text, "included from <source>:1:36\n"), "the words have its path below the folder, and the include");
    holds(xkc_words_text(&words, text, 3, &size) == XKC_ROOM && size > 3, "no room for the words");
    at = source.at;
    xkc_folder nowhere = {TEXT("/no/such/folder")}, bytes = {TEXT("\xff")};
    holds(xkc_source_read(&source, TEXT(ONE_KEY), &nowhere, 1, &words) == XKC_FILE && source.at == at && said("error: '/no/such/folder' can't be used: there is no such file or folder\n"), "a folder that isn't there");
    holds(xkc_source_read(&source, TEXT(ONE_KEY), &bytes, 1, &words) == XKC_FILE && source.at == at && said("error: a path or a name is no text in UTF-8\n"), "a path that is no text");
    char including[6000] = "xkb_keymap { xkb_symbols { include \"";
    memset(including + strlen(including), 'n', 5000);
    strcat(including, "\" }; };");
    holds(read_text(including) == XKC_OK && compile() == XKC_SOURCE && fault.number == 9, "a name that no file can have");
}

static void by_names(void)
{
    xkc_asked asked = asked_for("");
    holds(xkc_source_named(&source, &asked, &folder, 1, &words) == XKC_OK && said("") && compile() == XKC_OK && gives(38, 'a'), "the default is us");
    asked = asked_for("de");
    holds(xkc_source_named(&source, &asked, &folder, 0, &words) == XKC_OK && compile() == XKC_OK && gives(38, 'd'), "a layout, found in the folders of the environment");
    asked = asked_for("");
    asked.environment = 1;
    holds(xkc_source_named(&source, &asked, &folder, 1, &words) == XKC_OK && compile() == XKC_OK && gives(38, 'n') && gives(56, 0xfe08), "the names of the environment");
    asked.has_options = 1;
    holds(xkc_source_named(&source, &asked, &folder, 1, &words) == XKC_OK && compile() == XKC_OK && gives(38, 'n') && gives(56, 'z'), "but no options, where they are given empty");
    asked = asked_for("us");
    asked.options = (const uint8_t *)"no:such";
    asked.options_size = 7;
    holds(xkc_source_named(&source, &asked, &folder, 1, &words) == XKC_OK && said_first("warning: ") && strstr((char *)text, "'no:such'"), "a name that no rule takes");
    void *at = source.at;
    asked = asked_for("us");
    asked.rules = (const uint8_t *)"nowhere";
    asked.rules_size = 7;
    holds(xkc_source_named(&source, &asked, &folder, 1, &words) == XKC_RULES && source.at == at && said_first("error: no folder has 'rules/nowhere'\nlooked for in "), "rules that aren't there");
    asked.rules = (const uint8_t *)"broken";
    asked.rules_size = 6;
    holds(xkc_source_named(&source, &asked, &folder, 1, &words) == XKC_RULES && source.at == at && said_first("rules/broken:1: error: "), "rules that are refused");
    asked = asked_for("nn");
    holds(xkc_source_named(&source, &asked, &folder, 1, &words) == XKC_OK && compile() == XKC_SOURCE && fault.number == 9, "a layout that isn't there");
    holds(said_first("<names>:") && strstr((char *)text, "asked for by --rules evdev --model pc105 --layout nn\n"), "the words have the names");
    asked = asked_for("dee");
    holds(xkc_source_named(&source, &asked, &folder, 1, &words) == XKC_OK && said("") && compile() == XKC_SOURCE && fault.number == 9
              && said_first("<names>:") && strstr((char *)text, "no layout 'dee' is listed; 'de' is listed\n"),
        "and a name that is listed");
}

static void what_is_left_out(void)
{
    xkc_left_counts counts;
    uint8_t repeats = 7, mods = 7;
    xkc_asked asked = asked_for("full");
    holds(xkc_source_named(&source, &asked, &folder, 1, &words) == XKC_OK && xkc_source_left(&source, &names, &left) == XKC_OK, "what an image leaves out");
    holds(xkc_left_counts_of(&left, &counts) == XKC_OK && counts.aliases == 1 && counts.modifiers == 1 && counts.indicators == 32, "how much it is");
    holds(xkc_left_repeats(&left, 38, &repeats) == XKC_OK && repeats == 1 && xkc_left_repeats(&left, 56, &repeats) == XKC_OK && repeats == 0, "a key that repeats, and one that doesn't");
    repeats = 7;
    holds(xkc_left_repeats(&left, 65536, &repeats) == XKC_OK && repeats == 0, "no key has so great a code");
    holds(xkc_left_alias(&left, 0, text, sizeof text, &size) == XKC_OK && size == 1 && *text == 'C' && xkc_left_alias_key(&left, 0, text, sizeof text, &size) == XKC_OK && *text == 'A', "an alias, and its key");
    holds(xkc_left_modifier(&left, 0, &mods, text, sizeof text, &size) == XKC_OK && size == 7 && !memcmp(text, "NumLock", 7) && mods == 0x10, "a virtual modifier, and what it stands for");
    holds(xkc_left_indicator(&left, 0, text, sizeof text, &size) == XKC_OK && size == 4 && !memcmp(text, "Caps", 4) && xkc_left_indicator(&left, 1, text, sizeof text, &size) == XKC_OK && size == 0, "the names of indicators");
    holds(xkc_left_indicator(&left, 0, text, 3, &size) == XKC_ROOM && size == 4, "no room for one");
    mods = 7;
    size = 7;
    holds(xkc_left_alias(&left, 1, text, sizeof text, &size) == XKC_MISSING && xkc_left_alias_key(&left, 1, text, sizeof text, &size) == XKC_MISSING
              && xkc_left_modifier(&left, 1, &mods, text, sizeof text, &size) == XKC_MISSING && xkc_left_indicator(&left, 32, text, sizeof text, &size) == XKC_MISSING && size == 7 && mods == 7,
        "there are no more");
    void *at = left.at;
    xkc_source refused = {0};
    holds(xkc_source_read(&refused, TEXT("xkb_keymap { \x01 };"), &folder, 0, &words) == XKC_OK && xkc_source_left(&refused, &names, &left) == XKC_SOURCE && left.at == at, "a source with a fault leaves the handle");
    size = 7;
    holds(xkc_source_text(&refused, &names, text, sizeof text, &size) == XKC_SOURCE && size == 7, "and has no text for clients");
    xkc_source_end(&refused);
}

static void for_clients(void)
{
    static uint8_t image[4096], again[4096];
    size_t more;
    xkc_fault none;
    xkc_file no_file = {0};
    holds(compile() == XKC_OK && xkc_keymap_image(&keymap, image, sizeof image, &more) == XKC_OK, "an image");
    holds(xkc_source_text(&source, &names, text, 0, &size) == XKC_ROOM && size > 100 && size < sizeof text, "no room for the text for clients");
    holds(xkc_source_text(&source, &names, text, size, &size) == XKC_OK && xkc_keymap_compile(&keymap, text, size, &no_file, 0, &names, &none) == XKC_OK, "it is compiled without files");
    holds(xkc_keymap_image(&keymap, again, sizeof again, &size) == XKC_OK && size == more && !memcmp(image, again, size), "to the same image");
}

int main(int count, char **given)
{
    if (count != 2) return 2;
    folder.path = (const uint8_t *)given[1];
    folder.path_size = strlen(given[1]);
    empty_handles();
    by_text();
    by_names();
    what_is_left_out();
    for_clients();
    xkc_source_end(&source);
    xkc_source_end(&source);
    xkc_left_end(&left);
    xkc_left_end(&left);
    xkc_words_end(&words);
    xkc_words_end(&words);
    xkc_keymap_end(&keymap);
    holds(!source.at && !left.at && !words.at, "handles are ended twice");
    return counted();
}
