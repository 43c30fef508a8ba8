/* times KEYMAP: the time of an event and of a compile through the library for C, and beside it libxkbcommon's, in one run. */
#include <stdint.h>
#include <stdio.h>
#include <stdlib.h>
#include <string.h>
#include <time.h>
#include <xkc.h>
#ifdef HAS_XKBCOMMON
#include <xkbcommon/xkbcommon.h>
#endif

enum { EVENTS = 4000000, COMPILES = 20 };

static char text[1 << 22];
static size_t size;

static double seconds(void)
{
    struct timespec now;
    clock_gettime(CLOCK_MONOTONIC, &now);
    return (double)now.tv_sec + (double)now.tv_nsec / 1e9;
}

static int later(const void *a, const void *b)
{
    double x = *(const double *)a, y = *(const double *)b;
    return (x > y) - (x < y);
}

/* The code and the direction of event i: a key of a hundred is pressed and released. */
static uint32_t code_of(uint32_t i) { return 9 + i / 2 * 7 % 100; }
static uint8_t is_down(uint32_t i) { return !(i & 1); }

static double compile(xkc_keymap *keymap)
{
    const xkc_file no_file = {0};
    xkc_names names = {0};
    xkc_fault fault = {0};
    double start = seconds();
    uint32_t status = xkc_keymap_compile(keymap, (const uint8_t *)text, size, &no_file, 0, &names, &fault);
    double taken = seconds() - start;
    if (status) {
        printf("xkc refuses it: status %u, F%u\n", (unsigned)status, (unsigned)fault.number);
        exit(1);
    }
    return taken;
}

static double events(xkc_keymap *keymap)
{
    xkc_keyboard keyboard = {0};
    xkc_reply reply;
    if (xkc_keyboard_start(&keyboard, keymap)) exit(1);
    double start = seconds();
    for (uint32_t i = 0; i < EVENTS; i++) xkc_keyboard_event(&keyboard, code_of(i), is_down(i), &reply);
    double taken = seconds() - start;
    xkc_keyboard_end(&keyboard);
    return taken;
}

#ifdef HAS_XKBCOMMON
static double compile_theirs(struct xkb_context *context, struct xkb_keymap **keymap)
{
    double start = seconds();
    *keymap = xkb_keymap_new_from_buffer(context, text, size, XKB_KEYMAP_FORMAT_TEXT_V1, XKB_KEYMAP_COMPILE_NO_FLAGS);
    double taken = seconds() - start;
    if (!*keymap) exit(1);
    return taken;
}

static double events_theirs(struct xkb_keymap *keymap)
{
    struct xkb_state *state = xkb_state_new(keymap);
    double start = seconds();
    for (uint32_t i = 0; i < EVENTS; i++) {
        const xkb_keysym_t *keysyms;
        xkb_state_key_get_syms(state, code_of(i), &keysyms);
        xkb_state_key_get_consumed_mods(state, code_of(i));
        xkb_state_update_key(state, code_of(i), is_down(i) ? XKB_KEY_DOWN : XKB_KEY_UP);
    }
    double taken = seconds() - start;
    xkb_state_unref(state);
    return taken;
}
#endif

int main(int count, char **words)
{
    FILE *file = count == 2 ? fopen(words[1], "rb") : NULL;
    if (!file) return 2;
    size = fread(text, 1, sizeof text, file);
    fclose(file);
    double ours[COMPILES], theirs[COMPILES];
    xkc_keymap keymap = {0};
    for (int i = 0; i < COMPILES; i++) ours[i] = compile(&keymap);
#ifdef HAS_XKBCOMMON
    struct xkb_context *context = xkb_context_new(XKB_CONTEXT_NO_DEFAULT_INCLUDES);
    struct xkb_keymap *other = NULL;
    for (int i = 0; i < COMPILES; i++) {
        xkb_keymap_unref(other);
        theirs[i] = compile_theirs(context, &other);
    }
#endif
    qsort(ours, COMPILES, sizeof *ours, later);
    printf("a compile of %zu bytes: xkc %.2f ms", size, ours[COMPILES / 2] * 1e3);
#ifdef HAS_XKBCOMMON
    qsort(theirs, COMPILES, sizeof *theirs, later);
    printf(", libxkbcommon %.2f ms", theirs[COMPILES / 2] * 1e3);
#endif
    printf("\nan event: xkc %.1f ns", events(&keymap) / EVENTS * 1e9);
#ifdef HAS_XKBCOMMON
    printf(", libxkbcommon %.1f ns", events_theirs(other) / EVENTS * 1e9);
    xkb_keymap_unref(other);
    xkb_context_unref(context);
#endif
    (void)theirs;
    printf("\n");
    xkc_keymap_end(&keymap);
    return 0;
}
