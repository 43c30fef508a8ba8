/* client ours IMAGE COUNT, client theirs TEXT COUNT: makes so many times what a client needs to look its keys up, of an image
 * through the library for C, or of a keymap's text through libxkbcommon. Prints the median time, and the memory that one holds. */
#include <malloc.h>
#include <stdint.h>
#include <stdio.h>
#include <stdlib.h>
#include <string.h>
#include <time.h>
#include <xkbcommon/xkbcommon.h>
#include <xkc.h>

enum { MOST = 1000 };

static uint8_t bytes[1 << 22];
static size_t size;

static double microseconds(void)
{
    struct timespec now;
    clock_gettime(CLOCK_MONOTONIC, &now);
    return (double)now.tv_sec * 1e6 + (double)now.tv_nsec / 1e3;
}

static int later(const void *a, const void *b)
{
    double x = *(const double *)a, y = *(const double *)b;
    return (x > y) - (x < y);
}

/* The bytes that malloc has given and not got back. */
static size_t held(void)
{
    struct mallinfo2 now = mallinfo2();
    return now.uordblks + now.hblkhd;
}

/* The time that an image and a follower take, and the memory that they hold. */
static double open_ours(size_t *memory)
{
    xkc_keymap keymap = {0};
    xkc_follower follower = {0};
    size_t before = held();
    double start = microseconds();
    if (xkc_keymap_open(&keymap, bytes, size) || xkc_follower_start(&follower, &keymap)) exit(1);
    double taken = microseconds() - start;
    *memory = held() - before;
    xkc_follower_end(&follower);
    xkc_keymap_end(&keymap);
    return taken;
}

/* The same of a keymap's text and a state. */
static double open_theirs(struct xkb_context *context, size_t *memory)
{
    size_t before = held();
    double start = microseconds();
    struct xkb_keymap *keymap =
        xkb_keymap_new_from_string(context, (const char *)bytes, XKB_KEYMAP_FORMAT_TEXT_V1, XKB_KEYMAP_COMPILE_NO_FLAGS);
    struct xkb_state *state = keymap ? xkb_state_new(keymap) : NULL;
    if (!state) exit(1);
    double taken = microseconds() - start;
    *memory = held() - before;
    xkb_state_unref(state);
    xkb_keymap_unref(keymap);
    return taken;
}

int main(int words, char **word)
{
    static double times[MOST];
    int count = words == 4 ? atoi(word[3]) : 0;
    FILE *file = count > 0 && count <= MOST ? fopen(word[2], "rb") : NULL;
    if (!file) return 2;
    size = fread(bytes, 1, sizeof bytes - 1, file);
    fclose(file);
    size_t memory = 0;
    struct xkb_context *context = xkb_context_new(XKB_CONTEXT_NO_DEFAULT_INCLUDES);
    int ours = !strcmp(word[1], "ours");
    for (int i = 0; i < count; i++) times[i] = ours ? open_ours(&memory) : open_theirs(context, &memory);
    xkb_context_unref(context);
    qsort(times, (size_t)count, sizeof *times, later);
    printf("%.1f microseconds, %zu bytes of memory\n", times[count / 2], memory);
    return 0;
}
