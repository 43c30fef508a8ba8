/* What bench/soak.sh tries, by a number that chooses it: the same number gives the same everywhere.
 *
 *   make source SEED                  a keymap's source, an item a line, without what docs/meaning.md lists as differences
 *   make names SEED < LISTS           words that name a keymap, of lines as `layout us`, `variant de neo`, `option grp:toggle`
 *   make events SEED ORDER < CODES    event lines, of lines as `38 plain`, `50 acts`, `66 latch`; other lines say nothing
 *   make change SEED < BYTES          the bytes with a few of them changed, as an image
 *   make disorder SEED < TEXT         the text with a few lines or words moved, doubled or gone
 *
 * ORDER is `free`, or `last` where the key that was pressed last is released first, both without latches; or `latches`, where a
 * latch is followed by a key without an action. */
#include <stdint.h>
#include <stdio.h>
#include <stdlib.h>
#include <string.h>

enum { EVENTS = 80, HELD = 4, MOST = 1 << 24 };

static uint64_t random_state;

static uint32_t below(uint32_t count)
{
    uint64_t mixed = random_state += 0x9e3779b97f4a7c15u;
    mixed = (mixed ^ mixed >> 30) * 0xbf58476d1ce4e5b9u;
    mixed = (mixed ^ mixed >> 27) * 0x94d049bb133111ebu;
    return (uint32_t)((mixed ^ mixed >> 31) >> 32) % count;
}

/* Whether something of one in so many is. */
static int one_in(uint32_t count) { return below(count) == 0; }

#define ANY(list) (list)[below(sizeof (list) / sizeof *(list))]

static const char *const real[] = {"Shift", "Lock", "Control", "Mod1", "Mod2", "Mod3", "Mod4", "Mod5"};
static const char *const virtual[] = {"Alt", "Meta", "NumLock", "LevelThree", "LevelFive", "Hyper"};
static const char *const letters[][2] = {{"a", "A"}, {"b", "B"}, {"z", "Z"}, {"adiaeresis", "Adiaeresis"}, {"eacute", "Eacute"},
    {"oslash", "Ooblique"}, {"Greek_alpha", "Greek_ALPHA"}, {"Greek_omega", "Greek_OMEGA"}, {"Cyrillic_ya", "Cyrillic_YA"},
    {"Ukrainian_i", "Ukrainian_I"}, {"U0561", "U0531"}, {"scaron", "Scaron"}, {"lstroke", "Lstroke"}, {"U10D0", "U10D1"}};
static const char *const others[] = {"1", "2", "9", "0", "exclam", "at", "EuroSign", "U20AC", "U1F600", "0x1002190", "ssharp", "space",
    "Return", "Escape", "Tab", "BackSpace", "Delete", "F1", "F12", "Left", "Home", "dead_acute", "dead_tilde", "Multi_key", "hebrew_aleph",
    "Arabic_seen", "Thai_kokai", "kana_A", "Hangul", "XF86AudioMute", "XF86Switch_VT_1", "Print", "Menu", "leftarrow", "hyphen", "mu", "0x41"};
static const char *const keypad[] = {"KP_0", "KP_9", "KP_Enter", "KP_Home", "KP_Insert", "KP_Decimal", "KP_Separator", "KP_F1"};
static const char *const holds[] = {"Shift_L", "Shift_R", "Control_L", "Alt_L", "Meta_L", "Super_L", "Caps_Lock", "Num_Lock", "ISO_Level3_Shift",
    "ISO_Level5_Shift", "Mode_switch", "ISO_Next_Group", "ISO_Prev_Group", "ISO_Group_Shift", "ISO_First_Group", "Shift_Lock", "Hyper_L"};
static const char *const types[] = {"ONE_LEVEL", "TWO_LEVEL", "ALPHABETIC", "KEYPAD", "FOUR_LEVEL", "FOUR_LEVEL_ALPHABETIC",
    "FOUR_LEVEL_SEMIALPHABETIC", "FOUR_LEVEL_KEYPAD", "own", "Own", "third"};

enum { REAL = sizeof real / sizeof *real, VIRTUAL = sizeof virtual / sizeof *virtual, TYPES = sizeof types / sizeof *types };

static int declared;    /* so many virtual modifiers are, by their first names */
static uint32_t most_groups; /* of a key; the first has as many */
static int has_several; /* whether levels have several keysyms; then no interpretation is for any, which libxkbcommon takes there */

/* One to three modifiers, or none. */
static void mask(int may_be_none)
{
    if (may_be_none && one_in(6)) {
        printf(one_in(2) ? "none" : "None");
        return;
    }
    for (uint32_t left = 1 + (one_in(2) ? 0 : below(3)), first = 1; left > 0; left--, first = 0)
        printf("%s%s", first ? "" : "+", declared && one_in(3) ? virtual[below(declared)] : ANY(real));
}

static void real_mask(void)
{
    for (uint32_t left = 1 + below(3), first = 1; left > 0; left--, first = 0)
        printf("%s%s", first ? "" : "+", ANY(real));
}

static void flag(const char *name)
{
    if (one_in(3))
        printf(",%s", name);
    else if (one_in(5))
        printf(",%s=%s", name, one_in(2) ? "yes" : "false");
    else if (one_in(8))
        printf(",!%s", name);
}

/* Less than no group isn't asked for: libxkbcommon 1.5 takes one past the last for a multiple of the number of groups. */
static void group(int may_fall)
{
    if (may_fall && most_groups > 1 && one_in(4))
        printf("-1");
    else if (one_in(2))
        printf("+%u", 1 + below(3));
    else
        printf("%u", 1 + below(4));
}

static void action(int may_latch)
{
    switch (below(9)) {
    case 0: case 1:
        printf("SetMods(modifiers=");
        if (one_in(4)) printf("modMapMods"); else mask(0);
        flag("clearLocks");
        break;
    case 2:
        printf("LockMods(%s=", one_in(4) ? "mods" : "modifiers");
        if (one_in(4)) printf("modMapMods"); else mask(0);
        static const char *const affects[] = {"lock", "unlock", "both", "neither"};
        if (one_in(3)) printf(",affect=%s", ANY(affects));
        break;
    case 3:
        printf("SetGroup(group=");
        group(0);
        flag("clearLocks");
        break;
    case 4: case 5:
        printf("LockGroup(group=");
        group(1);
        break;
    default:
        /* What does nothing here ends latches, and not those of libxkbcommon. */
        if (!may_latch) {
            static const char *const idle[] = {"Terminate(", "MovePtr(x=+1,y=2", "PtrBtn(button=1", "SwitchScreen(screen=2"};
            printf("%s", ANY(idle));
            break;
        }
        printf("LatchMods(modifiers=");
        if (one_in(4)) printf("modMapMods"); else mask(0);
    }
    printf(")");
}

static void keysym(void)
{
    switch (below(8)) {
    case 0: case 1: case 2: printf("%s", ANY(letters)[below(2)]); break;
    case 3: printf("%s", ANY(keypad)); break;
    case 4: printf("%s", ANY(holds)); break;
    case 5: printf(one_in(4) ? "NoSymbol" : "a"); break;
    default: printf("%s", ANY(others));
    }
}

/* A list of keysyms; often two of a letter, as layouts have. */
static void keysyms(uint32_t width)
{
    printf("[ ");
    for (uint32_t level = 0; level < width; level++) {
        if (level)
            printf(", ");
        if (level + 1 < width && one_in(2)) {
            const char *const *pair = ANY(letters);
            printf("%s, %s", pair[0], pair[1]);
            level++;
        } else if (has_several && one_in(12)) {
            printf("{ %s, %s }", ANY(letters)[0], ANY(others));
        } else {
            keysym();
        }
    }
    printf(" ]");
}

/* A list of actions, of which at least one is one. */
static void actions(uint32_t width, int may_latch)
{
    uint32_t certain = below(width);
    printf("[ ");
    for (uint32_t level = 0; level < width; level++) {
        if (level)
            printf(", ");
        if (level == certain || one_in(2))
            action(may_latch);
        else
            printf("NoAction()");
    }
    printf(" ]");
}

static void type_of(int number)
{
    printf("type \"%s\" { modifiers = ", types[number]);
    if (number == 0) {
        printf("none; };\n");
        return;
    }
    static const uint32_t widths[TYPES] = {1, 2, 2, 2, 4, 4, 4, 4, 3, 5, 8};
    if (number < 4)
        printf("Shift%s", number == 1 ? "" : number == 2 ? "+Lock" : "+Mod2");
    else {
        printf("Shift+");
        mask(0);
    }
    printf(";");
    for (uint32_t level = 2; level <= widths[number]; level++) {
        printf(" map[");
        if (one_in(3)) printf("Shift"); else mask(0);
        printf("] = %s%u;", one_in(2) ? "Level" : "", level);
    }
    if (one_in(3)) {
        printf(" preserve[Shift] = ");
        mask(1);
        printf(";");
    }
    for (uint32_t level = 1; level <= widths[number]; level++)
        if (one_in(3))
            printf(" level_name[%s%u] = \"%c\";", one_in(2) ? "Level" : "", level, 'a' + below(26));
    printf(" };\n");
}

/* The sections before the symbols. */
static void types_of(void)
{
    printf("xkb_types {\n");
    if (declared) {
        printf("virtual_modifiers ");
        for (int at = 0; at < declared; at++) {
            printf("%s%s", at ? ", " : "", virtual[at]);
            if (one_in(4)) {
                printf("=");
                real_mask();
            }
        }
        printf(";\n");
    }
    for (int number = 0; number < TYPES; number++)
        type_of(number);
    printf("};\n");
}

static void compat(int may_latch)
{
    static const char *const conditions[] = {"Exactly", "AllOf", "NoneOf", "AnyOf", "AnyOfOrNone"};
    printf("xkb_compat {\n");
    for (uint32_t left = below(10); left > 0; left--) {
        printf("interpret %s", !has_several && one_in(5) ? "Any" : ANY(holds));
        if (one_in(2)) {
            printf("+%s(", ANY(conditions));
            if (one_in(2)) printf("all"); else real_mask();
            printf(")");
        }
        printf(" { repeat=%s;", one_in(2) ? "True" : "False");
        if (!one_in(5)) {
            printf(" action=");
            action(may_latch);
            printf(";");
        }
        if (declared && one_in(2))
            printf(" virtualModifier=%s;", virtual[below(declared)]);
        if (one_in(3))
            printf(" useModMapMods=%s;", one_in(2) ? "level1" : "any");
        printf(" };\n");
    }
    static const char *const states[] = {"base", "latched", "locked", "effective", "locked+base"};
    static const char *const group_states[] = {"locked", "effective"};
    for (int number = 0; number < 4; number++) {
        if (one_in(2))
            continue;
        printf("indicator \"light %d\" {", number);
        int by_group = one_in(2);
        if (!by_group || one_in(3)) {
            printf(" modifiers=");
            mask(0);
            printf("; whichModState=%s;", ANY(states));
        }
        if (by_group)
            printf(" groups=0x%x; whichGroupState=%s;", below(16), ANY(group_states));
        printf(" };\n");
    }
    printf("};\n");
}

/* One statement of a key, with fields in any order. */
static void key(uint32_t number, int may_latch)
{
    uint32_t groups = number == 0 ? most_groups : one_in(2) ? 1 : 1 + below(most_groups);
    uint32_t width = one_in(3) ? 1 : 1 + below(4);
    int has_actions = one_in(3);
    printf("key <K%u> { ", number);
    if (one_in(4)) printf("type=\"%s\", ", ANY(types));
    if (one_in(6)) printf("type[%u]=\"%s\", ", 1 + below(groups), ANY(types));
    if (declared && one_in(6)) {
        printf("vmods=%s", virtual[below(declared)]);
        printf(", ");
    }
    if (one_in(6)) {
        static const char *const ranges[] = {"groupsWrap", "groupsClamp", "groupsWrap=false"};
        if (one_in(3)) printf("groupsRedirect=%u, ", 1 + below(4)); else printf("%s, ", ANY(ranges));
    }
    if (one_in(6)) printf("repeat=%s, ", one_in(2) ? "yes" : "no");
    for (uint32_t at = 0; at < groups; at++) {
        if (at)
            printf(", ");
        int by_itself = one_in(2);
        if (!by_itself) printf("symbols[%s%u]= ", one_in(4) ? "Group" : "", at + 1);
        /* A list by itself takes the first group that has none, so all below it have one. */
        keysyms(width);
        if (has_actions) {
            printf(", actions[%u]= ", at + 1);
            actions(width, may_latch);
        }
    }
    printf(" };\n");
}

static void source(void)
{
    uint32_t keys = 2 + below(20);
    int may_latch = one_in(3);
    declared = below(VIRTUAL + 1);
    has_several = one_in(2);
    most_groups = one_in(3) ? 1 : 2 + below(3);
    printf("xkb_keymap {\nxkb_keycodes {\n");
    for (uint32_t number = 0; number < keys; number++)
        printf("<K%u> = %u;\n", number, 9 + number * 3 + below(3));
    if (one_in(3)) printf("alias <ALIAS> = <K1>;\n");
    for (int number = 0; number < 4; number++)
        printf("indicator %d = \"light %d\";\n", number + 1, number);
    printf("};\n");
    types_of();
    compat(may_latch);
    printf("xkb_symbols {\n");
    for (uint32_t at = 0; at < 4; at++)
        if (one_in(3)) printf("name[%s%u]=\"group %u\";\n", one_in(2) ? "Group" : "", at + 1, at);
    if (one_in(6)) printf("key.type = \"%s\";\n", ANY(types));
    for (uint32_t number = 0; number < keys; number++)
        key(number, may_latch);
    static const char *const modes[] = {"override ", "augment ", "replace ", ""};
    for (uint32_t left = one_in(2) ? 0 : below(4); left > 0; left--) {
        printf("%s", ANY(modes));
        key(1 + below(keys - 1), may_latch);
    }
    /* Each key is in the map of one modifier at most. */
    for (uint32_t number = 0; number < keys; number++)
        if (one_in(3)) printf("modifier_map %s { <K%u> };\n", ANY(real), number);
    printf("};\n};\n");
}

static char *lines[1 << 17];
static char bytes[MOST];

static size_t read_lines(void)
{
    size_t count = 0, size = fread(bytes, 1, MOST - 1, stdin);
    bytes[size] = 0;
    for (char *line = strtok(bytes, "\n"); line && count < sizeof lines / sizeof *lines; line = strtok(NULL, "\n"))
        lines[count++] = line;
    return count;
}

/* The lines that begin with a word are moved to the front; answers how many. */
static size_t beginning(size_t from, size_t count, const char *word)
{
    size_t found = from;
    for (size_t at = from; at < count; at++)
        if (!strncmp(lines[at], word, strlen(word))) {
            char *line = lines[at];
            lines[at] = lines[found];
            lines[found++] = line;
        }
    return found - from;
}

static void names(void)
{
    size_t count = read_lines();
    size_t layouts = beginning(0, count, "layout "), variants = beginning(layouts, count, "variant ");
    size_t options = beginning(layouts + variants, count, "option ");
    char chosen[4][64], of[4][64] = {{0}};
    uint32_t many = 1 + below(3);
    for (uint32_t at = 0; at < many; at++) {
        if (variants && one_in(2)) sscanf(lines[layouts + below(variants)], "variant %63s %63s", chosen[at], of[at]);
        else if (layouts) sscanf(lines[below(layouts)], "layout %63s", chosen[at]);
    }
    printf("--layout\n");
    for (uint32_t at = 0; at < many; at++) printf("%s%s", at ? "," : "", chosen[at]);
    printf("\n--variant\n");
    for (uint32_t at = 0; at < many; at++) printf("%s%s", at ? "," : "", of[at]);
    printf("\n--options\n");
    for (uint32_t left = options ? below(4) : 0, first = 1; left > 0; left--, first = 0)
        printf("%s%s", first ? "" : ",", lines[layouts + variants + below(options)] + strlen("option "));
    printf("\n");
}

static unsigned codes[3][1 << 13];
static uint32_t counts[3];

static void press(unsigned code) { printf("down %u\n", code); }
static void release(unsigned code) { printf("up %u\n", code); }

static void events(const char *order)
{
    static const char *const kinds[3] = {"plain", "acts", "latch"};
    char line[64], kind[8];
    while (fgets(line, sizeof line, stdin)) {
        unsigned code;
        if (sscanf(line, "%u %7s", &code, kind) != 2) continue;
        for (int at = 0; at < 3; at++)
            if (!strcmp(kind, kinds[at]) && counts[at] < 1 << 13) codes[at][counts[at]++] = code;
    }
    uint32_t held = 0;
    unsigned down[HELD];
    for (int left = EVENTS; left > 0; left--) {
        if (!strcmp(order, "latches")) {
            unsigned plain = counts[0] ? codes[0][below(counts[0])] : 0;
            if (counts[2] && one_in(2)) {
                unsigned latch = codes[2][below(counts[2])];
                press(latch), release(latch);
                if (!counts[0]) return;
            }
            if (counts[0]) press(plain), release(plain);
            continue;
        }
        if (held == HELD || (held > 0 && one_in(2))) {
            uint32_t at = !strcmp(order, "last") ? held - 1 : below(held);
            release(down[at]);
            for (held--; at < held; at++) down[at] = down[at + 1];
            continue;
        }
        int which = counts[1] && (!counts[0] || one_in(2));
        if (!counts[which]) return;
        unsigned code = codes[which][below(counts[which])];
        int is_held = 0;
        for (uint32_t at = 0; at < held; at++) is_held |= down[at] == code;
        if (!is_held) press(down[held++] = code);
    }
}

static void change(void)
{
    size_t size = fread(bytes, 1, MOST, stdin);
    static const uint8_t edges[] = {0, 1, 2, 3, 8, 0x1f, 0x20, 0x7f, 0x80, 0xff};
    for (uint32_t left = one_in(4) ? 1 + below(4) : 1; left > 0 && size > 0; left--) {
        /* Seldom the header, since there most changes are refused. */
        size_t at = one_in(8) ? below(size < 32 ? size : 32) : below(size);
        bytes[at] = one_in(2) ? (char)ANY(edges) : one_in(2) ? (char)(bytes[at] + 1 - 2 * (int)below(2)) : (char)below(256);
    }
    if (one_in(16) && size > 0) size -= below(size < 40 ? size : 40);
    fwrite(bytes, 1, size, stdout);
}

static void disorder(void)
{
    size_t count = read_lines();
    static const char *const words[] = {"}", "{", ";", "];", "<K0>", "\"", "= 4096", "[1]", "+", "Group9", "include \"us\"", "(", "-1", "0x", "%%", "\t", "Level99",
        "augment", "xkb_types { };", "virtual_modifiers all;", "//", "#", "none", "type", "key <K1> { [ a, b, c ] };", "interpret Any { };", "\377", "modifier_map None { a };"};
    for (uint32_t left = 1 + below(3); left > 0 && count > 1; left--) {
        size_t at = below(count), to = below(count);
        switch (below(4)) {
        case 0: lines[at] = lines[to]; break;
        case 1: lines[at] = ""; break;
        case 2: {
            char *line = lines[at];
            lines[at] = lines[to], lines[to] = line;
            break;
        }
        default: {
            /* A word in the middle of a line, which is written over or pushed away. */
            const char *word = ANY(words);
            size_t size = strlen(lines[at]), place = size ? below(size) : 0;
            char *line = malloc(size + strlen(word) + 3);
            sprintf(line, "%.*s %s %s", (int)place, lines[at], word, lines[at] + place + (one_in(2) && place < size));
            lines[at] = line;
        }
        }
    }
    for (size_t at = 0; at < count; at++) printf("%s\n", lines[at]);
}

int main(int count, char **words)
{
    if (count < 3)
        return 2;
    random_state = strtoull(words[2], NULL, 10);
    below(1);
    if (!strcmp(words[1], "source")) source();
    else if (!strcmp(words[1], "names")) names();
    else if (!strcmp(words[1], "events") && count == 4) events(words[3]);
    else if (!strcmp(words[1], "change")) change();
    else if (!strcmp(words[1], "disorder")) disorder();
    else return 2;
    return ferror(stdout) || fflush(stdout);
}
