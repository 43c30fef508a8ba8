/* A compositor's part: compositor KEYMAP IMAGE < EVENTS. It compiles the keymap, writes its image for clients, and answers
 * each event, as `down 38`, with the key's keysyms and, behind a colon, the state for the client. */
#include <stdio.h>
#include <string.h>
#include <xkc.h>

static uint8_t bytes[1 << 22];

int main(int count, char **words)
{
    FILE *in = count == 3 ? fopen(words[1], "rb") : NULL, *out = in ? fopen(words[2], "wb") : NULL;
    if (!out) return 2;
    size_t size = fread(bytes, 1, sizeof bytes, in);
    xkc_names names = {0};
    xkc_keymap keymap = {0};
    xkc_keyboard keyboard = {0};
    const xkc_file no_file = {0};
    xkc_fault fault;
    xkc_names_x11(&names);
    uint32_t status = xkc_keymap_compile(&keymap, bytes, size, &no_file, 0, &names, &fault);
    if (status == XKC_SOURCE) {
        xkc_position place;
        xkc_locate(bytes, size, fault.start, &place);
        fprintf(stderr, "%s:%zu:%zu: F%u\n", words[1], place.line, place.column, (unsigned)fault.number);
    }
    if (status || xkc_keyboard_start(&keyboard, &keymap) || xkc_keymap_image(&keymap, bytes, sizeof bytes, &size)) return 1;
    fwrite(bytes, 1, size, out);
    char word[5], name[64];
    for (unsigned code; scanf("%4s %u", word, &code) == 2;) {
        xkc_reply reply;
        if (xkc_keyboard_event(&keyboard, code, !strcmp(word, "down"), &reply)) continue;
        for (int i = 0; i < reply.count; i++) {
            xkc_names_name(&names, reply.keysyms[i], (uint8_t *)name, sizeof name, &size);
            printf("%.*s ", (int)size, name);
        }
        const xkc_state *s = &reply.state;
        printf(": %u %u %u %d %u %u\n", s->base, s->latched, s->locked, (int)s->base_group, s->latched_group, s->locked_group);
    }
    xkc_keyboard_end(&keyboard), xkc_keymap_end(&keymap), xkc_names_end(&names);
    return fclose(in) || fclose(out);
}
