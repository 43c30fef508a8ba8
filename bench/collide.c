/* Prints names of six letters and digits, or numbers of keysyms, a line each: by chance, or such that the hash by which the
 * kit's IndexMap finds them ends in 14 bits of 0, so that they fall into one place of a table.
 *   collide alike|any names|keysyms COUNT */
#include <stdint.h>
#include <stdio.h>
#include <stdlib.h>
#include <string.h>

#define FACTOR 0x9e3779b97f4a7c15u
#define NAME 6
#define KEYSYMS 0x1fffffffu

/* The two halves of a product, together. */
static uint64_t fold(uint64_t a, uint64_t b)
{
    unsigned __int128 product = (unsigned __int128)a * b;
    return (uint64_t)product ^ (uint64_t)(product >> 64);
}

/* A state once so many bytes, 8 at most, are fed, which the hash reads as this one number. */
static uint64_t fed(uint64_t state, uint64_t short_read, unsigned bytes)
{
    return fold(state ^ short_read, FACTOR ^ (2 * bytes));
}

static int falls_together(uint64_t state)
{
    return ((state ^ (state >> 32)) & 0x3fff) == 0;
}

static uint64_t hash_of_name(const char *name)
{
    uint64_t state = fed(0x243f6a8885a308d3u, NAME, 8);
    for (int i = 0; i < NAME; i++) {
        uint64_t byte = (unsigned char)name[i];
        state = fed(state, byte | byte << 8 | byte << 16, 1);
    }
    return state;
}

static uint64_t hash_of_keysym(uint64_t keysym)
{
    return fed(0x243f6a8885a308d3u, keysym | keysym << 32, 4);
}

/* A number by chance (xorshift). */
static uint64_t by_chance(void)
{
    static uint64_t state = 88172645463325252u;
    state ^= state << 13;
    state ^= state >> 7;
    state ^= state << 17;
    return state;
}

static void make_name(char *name)
{
    static const char signs[] = "abcdefghijklmnopqrstuvwxyzABCDEFGHIJKLMNOPQRSTUVWXYZ0123456789";
    uint64_t number = by_chance();
    for (int i = 0; i < NAME; i++) {
        name[i] = signs[number % (sizeof signs - 1)];
        number /= sizeof signs - 1;
    }
    name[NAME] = 0;
}

int main(int count, char **words)
{
    if (count != 4)
        return 2;
    int alike = strcmp(words[1], "alike") == 0;
    int names = strcmp(words[2], "names") == 0;
    for (long left = atol(words[3]); left > 0;) {
        char name[NAME + 1];
        uint64_t keysym = by_chance() % KEYSYMS;
        make_name(name);
        if (alike && !falls_together(names ? hash_of_name(name) : hash_of_keysym(keysym)))
            continue;
        if (names)
            puts(name);
        else
            printf("0x%x\n", (unsigned)keysym);
        left--;
    }
    return 0;
}
