/* Compiles the keymap of a file with libxkbcommon once; a second word is the folder in which included files are found. */
#include <stdio.h>
#include <stdlib.h>
#include <xkbcommon/xkbcommon.h>

int main(int count, char **words)
{
    FILE *file = count == 2 || count == 3 ? fopen(words[1], "rb") : NULL;
    struct xkb_context *context = xkb_context_new(XKB_CONTEXT_NO_DEFAULT_INCLUDES);
    if (!file || !context)
        return 3;
    if (count == 3 && !xkb_context_include_path_append(context, words[2]))
        return 3;
    xkb_context_set_log_level(context, XKB_LOG_LEVEL_CRITICAL);
    struct xkb_keymap *keymap = xkb_keymap_new_from_file(context, file, XKB_KEYMAP_FORMAT_TEXT_V1, XKB_KEYMAP_COMPILE_NO_FLAGS);
    if (!keymap)
        return 1;
    xkb_keymap_unref(keymap);
    xkb_context_unref(context);
    fclose(file);
    return 0;
}
