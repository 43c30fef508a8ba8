/* A terminal's part: terminal LAYOUT < EVENTS, or terminal -f FILE < EVENTS. Of the keymap that the layout's names give, or of
 * the file's text, a line `down 38`, `up 38` or `repeat 38` is an event; it writes what a terminal sends for each press, and for
 * each repeat of a key that repeats. The codes are 8 more than the kernel's. */
#include <stdio.h>
#include <string.h>
#include <xkc.h>

static uint8_t bytes[1 << 22];

static uint32_t read_source(xkc_source *source, char **words, int count, xkc_words *why)
{
    xkc_asked asked = {0};
    const xkc_folder none = {0}, system = {(const uint8_t *)"/usr/share/X11/xkb", 18};
    if (count == 2) {
        asked.layouts = (const uint8_t *)words[1], asked.layouts_size = strlen(words[1]);
        asked.rules = asked.model = asked.variants = asked.options = asked.layouts;
        asked.environment = 1;
        return xkc_source_named(source, &asked, &none, 0, why);
    }
    FILE *in = fopen(words[2], "rb");
    size_t size = in ? fread(bytes, 1, sizeof bytes, in) : 0;
    if (in) fclose(in);
    return xkc_source_read(source, bytes, size, &system, 1, why);
}

int main(int count, char **words)
{
    xkc_source source = {0};
    xkc_names names = {0};
    xkc_keymap keymap = {0};
    xkc_left left = {0};
    xkc_keyboard keyboard = {0};
    xkc_follower follower = {0};
    xkc_words why = {0};
    xkc_notes notes;
    xkc_fault fault;
    size_t size = 0;
    if (count < 2 || xkc_names_x11(&names)) return 2;
    if (read_source(&source, words, count, &why) || xkc_source_compile(&source, &names, &keymap, &notes, &fault, &why)) {
        xkc_words_text(&why, bytes, sizeof bytes, &size);
        fprintf(stderr, "%.*s\n", (int)size, (const char *)bytes);
        return 1;
    }
    if (xkc_source_left(&source, &names, &left) || xkc_keyboard_start(&keyboard, &keymap) || xkc_follower_start(&follower, &keymap)) return 1;
    char word[7], text[64];
    for (unsigned code; scanf("%6s %u", word, &code) == 2;) {
        uint8_t repeats = 0, again = !strcmp(word, "repeat"), down = !strcmp(word, "down");
        if (again && xkc_left_repeats(&left, code, &repeats)) continue;
        if ((down || repeats) && !xkc_follower_text(&follower, code, (uint8_t *)text, sizeof text, &size)) fwrite(text, 1, size, stdout);
        xkc_reply reply;
        if (!again && !xkc_keyboard_event(&keyboard, code, down, &reply)) xkc_follower_set(&follower, &reply.state);
    }
    xkc_follower_end(&follower), xkc_keyboard_end(&keyboard), xkc_left_end(&left), xkc_keymap_end(&keymap);
    xkc_source_end(&source), xkc_names_end(&names), xkc_words_end(&why);
    return 0;
}
