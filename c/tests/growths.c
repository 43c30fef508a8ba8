/* Each growth refused in turn: the call answers want of memory and leaves its handle, and the same call works when there is
 * memory again. And no call takes memory behind a keyboard's start. Linked with malloc and realloc wrapped. */
#include "check.h"

void *__real_malloc(size_t size);
void *__real_realloc(void *old, size_t size);

/* No call asks so often. */
enum { MOST = 100000 };

/* A source that includes files of the folder. */
static const char REACHING[] = "xkb_keymap { xkb_keycodes { include \"evdev\" }; xkb_symbols { include \"us\" }; };";

static long left = -1; /* how many growths are granted; -1 is all */
static long asked;

static int is_granted(void)
{
    asked++;
    if (left < 0) return 1;
    if (left == 0) return 0;
    left--;
    return 1;
}

void *__wrap_malloc(size_t size)
{
    return is_granted() ? __real_malloc(size) : NULL;
}

void *__wrap_realloc(void *old, size_t size)
{
    return is_granted() ? __real_realloc(old, size) : NULL;
}

static xkc_names names;
static xkc_keymap keymap;
static xkc_keyboard keyboard;
static xkc_follower follower;
static xkc_source source;
static xkc_left out;
static xkc_words words;
static xkc_folder folder;
static uint8_t image[4096], text[4096];
static size_t image_size;

static uint32_t read_names(void)
{
    xkc_names_fault fault;
    return xkc_names_read(&names, TEXT(MINE), &fault);
}

static uint32_t x11_names(void)
{
    return xkc_names_x11(&names);
}

static uint32_t compile(void)
{
    xkc_file none = {0};
    xkc_fault fault;
    return xkc_keymap_compile(&keymap, TEXT(DESK), &none, 0, &names, &fault);
}

static uint32_t compile_files(void)
{
    xkc_file files[] = {file_of("keycodes/k", CODES), file_of("symbols/us", SYMBOLS)};
    xkc_fault fault;
    return xkc_keymap_compile(&keymap, TEXT(INCLUDES), files, 2, &names, &fault);
}

static uint32_t open_image(void)
{
    return xkc_keymap_open(&keymap, image, image_size);
}

static uint32_t print(void)
{
    size_t size;
    return xkc_keymap_print(&keymap, text, sizeof text, &size);
}

static uint32_t start(void)
{
    return xkc_keyboard_start(&keyboard, &keymap);
}

static uint32_t follow(void)
{
    return xkc_follower_start(&follower, &keymap);
}

static uint32_t read_source(void)
{
    return xkc_source_read(&source, TEXT(REACHING), &folder, 1, &words);
}

static uint32_t named_source(void)
{
    xkc_asked asked = {0};
    asked.rules = asked.model = asked.layouts = asked.variants = (const uint8_t *)"";
    asked.options = (const uint8_t *)"no:such";
    asked.options_size = 7;
    return xkc_source_named(&source, &asked, &folder, 1, &words);
}

static uint32_t compile_source(void)
{
    xkc_notes notes;
    xkc_fault fault;
    return xkc_source_compile(&source, &names, &keymap, &notes, &fault, &words);
}

static uint32_t text_of_source(void)
{
    size_t size;
    return xkc_source_text(&source, &names, text, sizeof text, &size);
}

static uint32_t left_of_source(void)
{
    return xkc_source_left(&source, &names, &out);
}

/* Makes a call with 0, 1, 2 .. growths granted until it does what it is to do. */
static void refused_in_turn(const char *what, uint32_t (*call)(void), void **handle)
{
    void *before = *handle;
    long refused = 0;
    uint32_t status = XKC_MEMORY;
    int is_unchanged = 1, is_well = 1;
    for (; refused < MOST; refused++) {
        left = refused;
        status = call();
        left = -1;
        if (status != XKC_MEMORY) break;
        is_unchanged &= *handle == before;
        is_well &= call() == XKC_OK;
        before = *handle;
    }
    printf("%s: refused %ld times\n", what, refused);
    holds(status == XKC_OK && refused > 0, what);
    holds(is_unchanged, "the handle is left");
    holds(is_well, "and the next call works");
}

/* Calls that take no memory. */
static void without_memory(void)
{
    static uint8_t bytes[4096];
    xkc_reply reply;
    xkc_look look;
    xkc_state state;
    xkc_counts counts;
    xkc_key key;
    xkc_left_counts left_counts;
    uint32_t number;
    uint8_t byte;
    size_t size;
    int all = 1;
    asked = 0;
    left = 0;
    for (uint32_t code = 0; code < 100; code++) {
        all &= !xkc_keyboard_event(&keyboard, code, 1, &reply) && !xkc_keyboard_event(&keyboard, code, 0, &reply);
        all &= !xkc_keyboard_state(&keyboard, &state) && !xkc_keyboard_lit(&keyboard, &number);
        all &= !xkc_follower_set(&follower, &state) && !xkc_follower_look(&follower, code, &look) && !xkc_follower_lit(&follower, &number);
    }
    all &= !xkc_keymap_counts(&keymap, &counts) && !xkc_keymap_key(&keymap, 0, &key) && !xkc_keymap_key_of(&keymap, 38, &number);
    all &= !xkc_keymap_name(&keymap, XKC_KEY_NAME, 0, bytes, sizeof bytes, &size) && !xkc_keymap_image(&keymap, bytes, sizeof bytes, &size);
    all &= !xkc_names_keysym(&names, TEXT("Mine"), &number) && !xkc_names_name(&names, number, bytes, sizeof bytes, &size);
    all &= !xkc_source_bytes(&source, bytes, sizeof bytes, &size) && !xkc_words_text(&words, bytes, sizeof bytes, &size) && !xkc_left_counts_of(&out, &left_counts);
    all &= !xkc_left_repeats(&out, 38, &byte) && !xkc_left_alias(&out, 0, bytes, sizeof bytes, &size) && !xkc_left_indicator(&out, 0, bytes, sizeof bytes, &size);
    left = -1;
    holds(all && asked == 0, "no call takes memory behind the start of a keyboard");
}

/* growths FOLDER: one in which files are found, as tests/library.sh makes it. */
int main(int count, char **given)
{
    if (count != 2) return 2;
    folder.path = (const uint8_t *)given[1];
    folder.path_size = strlen(given[1]);
    refused_in_turn("names of X11", x11_names, &names.at);
    refused_in_turn("names", read_names, &names.at);
    refused_in_turn("compile", compile, &keymap.at);
    refused_in_turn("compile with files", compile_files, &keymap.at);
    holds(compile() == XKC_OK && xkc_keymap_image(&keymap, image, sizeof image, &image_size) == XKC_OK, "an image");
    refused_in_turn("open", open_image, &keymap.at);
    refused_in_turn("print", print, &keymap.at);
    refused_in_turn("start of a keyboard", start, &keyboard.at);
    refused_in_turn("start of a follower", follow, &follower.at);
    refused_in_turn("a source of text", read_source, &source.at);
    refused_in_turn("a source of names", named_source, &source.at);
    refused_in_turn("compile a source", compile_source, &keymap.at);
    refused_in_turn("the text for clients", text_of_source, &source.at);
    refused_in_turn("what is left out", left_of_source, &out.at);
    without_memory();
    xkc_keyboard_end(&keyboard);
    xkc_follower_end(&follower);
    xkc_keymap_end(&keymap);
    xkc_source_end(&source);
    xkc_left_end(&out);
    xkc_words_end(&words);
    xkc_names_end(&names);
    return counted();
}
