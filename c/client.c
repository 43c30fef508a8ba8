/* A client's part: client IMAGE < STATES. It opens the image that a compositor wrote. A line of its input is a code and a
 * state as the compositor printed it, as `38 1 0 0 0 0 0`; it answers what the key gives in that state, and what is left of
 * the modifiers. */
#include <stdio.h>
#include <xkc.h>

static uint8_t bytes[1 << 22];

int main(int count, char **words)
{
    FILE *in = count == 2 ? fopen(words[1], "rb") : NULL;
    if (!in) return 2;
    size_t size = fread(bytes, 1, sizeof bytes, in);
    fclose(in);
    xkc_names names = {0};
    xkc_keymap keymap = {0};
    xkc_follower follower = {0};
    xkc_names_x11(&names);
    if (xkc_keymap_open(&keymap, bytes, size) || xkc_follower_start(&follower, &keymap)) return 1;
    unsigned code, base, latched, locked, latched_group, locked_group;
    char name[64];
    for (int group; scanf("%u %u %u %u %d %u %u", &code, &base, &latched, &locked, &group, &latched_group, &locked_group) == 7;) {
        xkc_state state = {0};
        xkc_look look;
        state.base = (uint8_t)base, state.latched = (uint8_t)latched, state.locked = (uint8_t)locked;
        state.base_group = group, state.latched_group = (uint8_t)latched_group, state.locked_group = (uint8_t)locked_group;
        xkc_follower_set(&follower, &state);
        if (xkc_follower_look(&follower, code, &look)) continue;
        for (int i = 0; i < look.count; i++) {
            xkc_names_name(&names, look.keysyms[i], (uint8_t *)name, sizeof name, &size);
            printf("%.*s ", (int)size, name);
        }
        printf(": %u\n", (base | latched | locked) & ~look.consumed & 0xffu);
    }
    xkc_follower_end(&follower), xkc_keymap_end(&keymap), xkc_names_end(&names);
    return 0;
}
