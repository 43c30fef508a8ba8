/* Counts what holds. The last line that a test prints is `N passed, M failed`. */
#ifndef CHECK_H
#define CHECK_H
#include <stdio.h>
#include <stdlib.h>
#include <string.h>
#include <xkc.h>

static int passed, failed;

static void holds(int truth, const char *what)
{
    if (truth) {
        passed++;
    } else {
        failed++;
        printf("FAILED: %s\n", what);
    }
}

static int counted(void)
{
    printf("%d passed, %d failed\n", passed, failed);
    return failed != 0;
}

#define TEXT(text) (const uint8_t *)(text), strlen(text)

/* One key `<A>` of code 38 with the keysym a. */
static const char ONE_KEY[] = "xkb_keymap { xkb_keycodes { <A>=38; }; xkb_symbols { key <A> {[a]}; }; };";

/* Two groups with names, a key type, a modifier with its indicator, and names of keysyms that no table has. */
static const char DESK[] =
    "xkb_keymap {\n"
    "xkb_keycodes { <A>=38; <L>=50; <C>=66; <M>=67; indicator 1=\"Caps\"; };\n"
    "xkb_types { type \"ALPHABETIC\" { modifiers=Shift+Lock; map[Shift]=Level2; map[Lock]=Level2; }; };\n"
    "xkb_compat { indicator \"Caps\" { modifiers=Lock; }; };\n"
    "xkb_symbols { name[Group1]=\"First\"; name[Group2]=\"Second\";\n"
    "key <A> {[a, A], [b, B]}; key <L> {[Shift_L], actions[1]=[SetMods(modifiers=Shift)]};\n"
    "key <C> {[Caps_Lock], actions[1]=[LockMods(modifiers=Lock)]}; key <M> {[Mine]}; };\n"
    "};\n";
static const char MINE[] = "# a line of one's own\nMine 0x1234567\n";

/* A source that includes two files. */
static const char INCLUDES[] = "xkb_keymap { xkb_keycodes { include \"k\" }; xkb_symbols { include \"us\" }; };";
static const char CODES[] = "xkb_keycodes { <A>=38; };", SYMBOLS[] = "xkb_symbols { key <A> {[a, A]}; };";

static inline xkc_file file_of(const char *name, const char *text)
{
    xkc_file file = {(const uint8_t *)name, strlen(name), (const uint8_t *)text, strlen(text)};
    return file;
}
#endif
