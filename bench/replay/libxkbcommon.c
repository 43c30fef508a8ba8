/* Answers event lines as `xkc replay` does, with libxkbcommon, over the keymap of a file. */
#include <stdio.h>
#include <stdlib.h>
#include <string.h>
#include <xkbcommon/xkbcommon.h>

static struct xkb_keymap *keymap;

static char *put(char *at, const char *text)
{
    size_t count = strlen(text);
    memcpy(at, text, count);
    return at + count;
}

static char *put_mods(char *at, const char *label, struct xkb_state *state, enum xkb_state_component part)
{
    xkb_mod_mask_t mask = xkb_state_serialize_mods(state, part) & 255;
    at = put(at, label);
    if (!mask)
        return put(at, "none");
    for (int bit = 0, some = 0; bit < 8; bit++)
        if (mask >> bit & 1) {
            if (some++)
                *at++ = '+';
            at = put(at, xkb_keymap_mod_get_name(keymap, bit));
        }
    return at;
}

static char *put_keysyms(char *at, struct xkb_state *state, xkb_keycode_t code)
{
    const xkb_keysym_t *keysyms;
    int count = xkb_state_key_get_syms(state, code, &keysyms);
    if (!xkb_keymap_key_get_name(keymap, code))
        return put(at, "?");
    if (count == 0)
        return put(at, "-");
    for (int i = 0; i < count; i++) {
        char name[64];
        if (i)
            *at++ = ',';
        xkb_keysym_get_name(keysyms[i], name, sizeof name);
        at = put(at, name);
    }
    return at;
}

int main(int count, char **words)
{
    FILE *file = count == 2 ? fopen(words[1], "rb") : NULL;
    struct xkb_context *context = xkb_context_new(XKB_CONTEXT_NO_DEFAULT_INCLUDES);
    if (!file || !context)
        return 3;
    keymap = xkb_keymap_new_from_file(context, file, XKB_KEYMAP_FORMAT_TEXT_V1, XKB_KEYMAP_COMPILE_NO_FLAGS);
    if (!keymap)
        return 1;
    struct xkb_state *state = xkb_state_new(keymap);
    static char in[1 << 16], out[1 << 16];
    setvbuf(stdin, in, _IOFBF, sizeof in);
    setvbuf(stdout, out, _IOFBF, sizeof out);
    char line[64], answer[512];
    while (fgets_unlocked(line, sizeof line, stdin)) {
        int down = line[0] == 'd';
        xkb_keycode_t code = strtoul(line + (down ? 5 : 3), NULL, 10);
        char *at = answer + sprintf(answer, "%u %s ", code, down ? "down" : "up");
        at = put_keysyms(at, state, code);
        xkb_mod_mask_t consumed = xkb_state_key_get_consumed_mods2(state, code, XKB_CONSUMED_MODE_XKB);
        at = put(at, consumed ? " consumed=some" : " consumed=none");
        xkb_state_update_key(state, code, down ? XKB_KEY_DOWN : XKB_KEY_UP);
        at = put_mods(at, " base=", state, XKB_STATE_MODS_DEPRESSED);
        at = put_mods(at, " latched=", state, XKB_STATE_MODS_LATCHED);
        at = put_mods(at, " locked=", state, XKB_STATE_MODS_LOCKED);
        at += sprintf(at, " group=%u\n", xkb_state_serialize_layout(state, XKB_STATE_LAYOUT_EFFECTIVE) + 1);
        fwrite_unlocked(answer, 1, at - answer, stdout);
    }
    return 0;
}
