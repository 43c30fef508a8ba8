/* The calls of xkc.h that read files and the environment: xkc_source_read and xkc_source_named. What is looked for is said by the
 * steps of crates/xkc_c (gathering.rt), which are proved; here is read what they ask for, and nothing of this is proved. */
#define _POSIX_C_SOURCE 200809L
#define _XOPEN_SOURCE 700
#include <errno.h>
#include <fcntl.h>
#include <limits.h>
#include <stdlib.h>
#include <string.h>
#include <sys/stat.h>
#include <unistd.h>
#include <xkc.h>

typedef struct { void *at; } gathering;

/* What is at a path: 0 nothing or what can't be read, by errno; 1 a folder; 2 a file with its bytes. */
typedef struct {
    const uint8_t *path;
    size_t path_size;
    const uint8_t *whole;
    size_t whole_size;
    const uint8_t *bytes;
    size_t bytes_size;
    uint32_t number;
    uint32_t kind;
} found;

enum { ASKS = 10, READ_AT_ONCE = 65536 };

uint32_t xkc_gathering_text(gathering *gathering, const uint8_t *text, size_t text_size, const xkc_folder *folders, size_t folder_count, xkc_words *words);
uint32_t xkc_gathering_names(gathering *gathering, const xkc_asked *asked, const xkc_file *variables, size_t variable_count, const xkc_folder *folders,
                             size_t folder_count, xkc_words *words);
uint32_t xkc_gathering_step(gathering *gathering, xkc_source *source, xkc_words *words, uint8_t *out, size_t room, size_t *size);
uint32_t xkc_gathering_tell(gathering *gathering, const found *found);
void xkc_gathering_end(gathering *gathering);

/* The bytes of a file that is open, in memory of their own, or NULL with errno set. */
static uint8_t *bytes_of(int file, size_t *size)
{
    size_t room = READ_AT_ONCE, full = 0;
    uint8_t *bytes = malloc(room);
    while (bytes) {
        ssize_t count = read(file, bytes + full, room - full);
        if (count == 0) break;
        if (count < 0 && errno == EINTR) continue;
        if (count < 0) {
            int why = errno;
            free(bytes);
            errno = why;
            return NULL;
        }
        full += (size_t)count;
        if (full < room) continue;
        uint8_t *more = realloc(bytes, room *= 2);
        if (!more) free(bytes);
        bytes = more;
    }
    *size = full;
    if (!bytes) errno = ENOMEM;
    return bytes;
}

/* Reads what is at a path that is whole; what is told has no bytes where it can't be. */
static uint8_t *look_at(found *told, const char *whole)
{
    struct stat status;
    if (stat(whole, &status) == 0 && S_ISDIR(status.st_mode)) {
        told->kind = 1;
        return NULL;
    }
    int file;
    while ((file = open(whole, O_RDONLY | O_CLOEXEC | O_NOCTTY)) < 0 && errno == EINTR) {}
    uint8_t *bytes = file < 0 ? NULL : bytes_of(file, &told->bytes_size);
    told->number = bytes ? 0 : (uint32_t)errno;
    if (file >= 0) close(file);
    if (bytes) {
        told->kind = 2;
        told->bytes = bytes;
    }
    return bytes;
}

/* Tells what is at a path of so many bytes. */
static uint32_t tell(gathering *made, const char *path, size_t size)
{
    static const uint8_t none[1];
    char whole[PATH_MAX];
    found told = {(const uint8_t *)path, size, none, 0, none, 0, 0, 0};
    uint8_t *bytes = NULL;
    if (strlen(path) != size) {
        told.number = EINVAL;
    } else if (!realpath(path, whole)) {
        told.number = (uint32_t)errno;
    } else {
        told.whole = (const uint8_t *)whole;
        told.whole_size = strlen(whole);
        bytes = look_at(&told, whole);
    }
    uint32_t status = told.number == ENOMEM ? XKC_MEMORY : xkc_gathering_tell(made, &told);
    free(bytes);
    return status;
}

/* A step, where there is room for so many bytes of a path and more is made where it has more. */
static uint32_t step(gathering *made, xkc_source *source, xkc_words *words, char **path, size_t *room, size_t *size)
{
    uint32_t status = xkc_gathering_step(made, source, words, (uint8_t *)*path, *room, size);
    if (status != XKC_ROOM) return status;
    char *more = realloc(*path, *size + 1);
    if (!more) return XKC_MEMORY;
    *path = more;
    *room = *size;
    return xkc_gathering_step(made, source, words, (uint8_t *)*path, *room, size);
}

/* Goes on to the end, and lets go of the steps. */
static uint32_t gathered(gathering *made, xkc_source *source, xkc_words *words)
{
    size_t room = PATH_MAX, size;
    char *path = malloc(room + 1);
    uint32_t status = XKC_MEMORY;
    while (path && (status = step(made, source, words, &path, &room, &size)) == ASKS) {
        path[size] = 0;
        status = tell(made, path, size);
        if (status) break;
    }
    free(path);
    xkc_gathering_end(made);
    return status;
}

uint32_t xkc_source_read(xkc_source *source, const uint8_t *text, size_t text_size, const xkc_folder *folders, size_t folder_count, xkc_words *words)
{
    gathering made = {0};
    xkc_words unsaid = {0};
    uint32_t status = xkc_gathering_text(&made, text, text_size, folders, folder_count, words);
    if (status) return status;
    /* Of a source that is made nothing is said. */
    status = gathered(&made, source, &unsaid);
    if (status == XKC_FILE) {
        xkc_words_end(words);
        *words = unsaid;
    } else {
        xkc_words_end(&unsaid);
    }
    return status;
}

uint32_t xkc_source_named(xkc_source *source, const xkc_asked *asked, const xkc_folder *folders, size_t folder_count, xkc_words *words)
{
    static const char *const names[] = {"XKB_DEFAULT_RULES", "XKB_DEFAULT_MODEL", "XKB_DEFAULT_LAYOUT", "XKB_DEFAULT_VARIANT", "XKB_DEFAULT_OPTIONS",
                                        "XDG_CONFIG_HOME", "HOME", "XKB_CONFIG_EXTRA_PATH", "XKB_CONFIG_ROOT"};
    enum { NAMES = sizeof names / sizeof *names };
    xkc_file variables[NAMES];
    gathering made = {0};
    size_t count = 0;
    memset(variables, 0, sizeof variables);
    for (size_t i = 0; i < NAMES; i++) {
        const char *value = getenv(names[i]);
        if (!value) continue;
        variables[count].name = (const uint8_t *)names[i];
        variables[count].name_size = strlen(names[i]);
        variables[count].text = (const uint8_t *)value;
        variables[count++].text_size = strlen(value);
    }
    uint32_t status = xkc_gathering_names(&made, asked, variables, count, folders, folder_count, words);
    return status ? status : gathered(&made, source, words);
}
