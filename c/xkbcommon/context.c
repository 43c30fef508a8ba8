/* Contexts: folders in which files are looked for, and what is told of faults. */
#define _GNU_SOURCE
#include "private.h"
#include <errno.h>
#include <stdarg.h>
#include <stdio.h>
#include <stdlib.h>
#include <string.h>
#include <strings.h>
#include <sys/stat.h>
#include <unistd.h>

const char context_kind;

const char *from_environment(const struct xkb_context *c, const char *name)
{
    return c->is_secure ? secure_getenv(name) : getenv(name);
}

/* ---- What is told */

static void tell_on_standard_error(struct xkb_context *c, enum xkb_log_level level, const char *format, va_list args)
{
    (void)c;
    const char *word = level <= XKB_LOG_LEVEL_CRITICAL ? "CRITICAL"
        : level <= XKB_LOG_LEVEL_ERROR                 ? "ERROR"
        : level <= XKB_LOG_LEVEL_WARNING               ? "WARNING"
        : level <= XKB_LOG_LEVEL_INFO                  ? "INFO"
                                                       : "DEBUG";
    fprintf(stderr, "xkbcommon: %s: ", word);
    vfprintf(stderr, format, args);
}

void tell(struct xkb_context *c, enum xkb_log_level level, const char *format, ...)
{
    if (c->level < level || c->verbosity < 0) return;
    va_list args;
    va_start(args, format);
    c->log(c, level, format, args);
    va_end(args);
}

static enum xkb_log_level level_named(const char *word)
{
    char *end;
    errno = 0;
    long level = strtol(word, &end, 10);
    if (!errno && (!*end || strchr(" \t\n\v\f\r", *end))) return (enum xkb_log_level)level;
    if (!strncasecmp(word, "crit", 4)) return XKB_LOG_LEVEL_CRITICAL;
    if (!strncasecmp(word, "warn", 4)) return XKB_LOG_LEVEL_WARNING;
    if (!strncasecmp(word, "info", 4)) return XKB_LOG_LEVEL_INFO;
    if (!strncasecmp(word, "debug", 5) || !strncasecmp(word, "dbg", 3)) return XKB_LOG_LEVEL_DEBUG;
    return XKB_LOG_LEVEL_ERROR;
}

static int verbosity_named(const char *word)
{
    errno = 0;
    long verbosity = strtol(word, NULL, 10);
    return errno ? 0 : (int)verbosity;
}

/* ---- Contexts */

struct xkb_context *xkb_context_new(enum xkb_context_flags flags)
{
    struct xkb_context *c = calloc(1, sizeof *c);
    if (!c) return NULL;
    c->kind = &context_kind;
    c->owners = 1;
    c->is_secure = !(flags & XKB_CONTEXT_NO_SECURE_GETENV);
    c->names_from_environment = !(flags & XKB_CONTEXT_NO_ENVIRONMENT_NAMES);
    c->log = tell_on_standard_error;
    const char *level = from_environment(c, "XKB_LOG_LEVEL"), *verbosity = from_environment(c, "XKB_LOG_VERBOSITY");
    c->level = level ? level_named(level) : XKB_LOG_LEVEL_ERROR;
    c->verbosity = verbosity ? verbosity_named(verbosity) : 0;
    if (!(flags & XKB_CONTEXT_NO_DEFAULT_INCLUDES) && !xkb_context_include_path_append_default(c)) {
        tell(c, XKB_LOG_LEVEL_ERROR, "none of the default folders can be read\n");
        xkb_context_unref(c);
        return NULL;
    }
    return c;
}

struct xkb_context *xkb_context_ref(struct xkb_context *c)
{
    HAND_ON(is_our_context(c), c, xkb_context_ref, c);
    c->owners++;
    return c;
}

/* Its tables of compose and its keymaps of x11 may keep a twin longer. */
static void leave_twin(struct xkb_context *c)
{
    if (!c->twin) return;
    REAL(xkb_context_set_log_fn)(c->twin, NULL);
    REAL(xkb_context_unref)(c->twin);
}

void xkb_context_unref(struct xkb_context *c)
{
    if (!c) return;
    HAND_ON_VOID(is_our_context(c), xkb_context_unref, c);
    if (--c->owners > 0) return;
    leave_twin(c);
    xkb_context_include_path_clear(c);
    c->kind = NULL;
    free(c);
}

void xkb_context_set_user_data(struct xkb_context *c, void *user_data)
{
    HAND_ON_VOID(is_our_context(c), xkb_context_set_user_data, c, user_data);
    c->user_data = user_data;
}

void *xkb_context_get_user_data(struct xkb_context *c)
{
    if (!c) return NULL;
    HAND_ON(is_our_context(c), NULL, xkb_context_get_user_data, c);
    return c->user_data;
}

void xkb_context_set_log_level(struct xkb_context *c, enum xkb_log_level level)
{
    HAND_ON_VOID(is_our_context(c), xkb_context_set_log_level, c, level);
    c->level = level;
}

enum xkb_log_level xkb_context_get_log_level(struct xkb_context *c)
{
    HAND_ON(is_our_context(c), XKB_LOG_LEVEL_ERROR, xkb_context_get_log_level, c);
    return c->level;
}

void xkb_context_set_log_verbosity(struct xkb_context *c, int verbosity)
{
    HAND_ON_VOID(is_our_context(c), xkb_context_set_log_verbosity, c, verbosity);
    c->verbosity = verbosity;
}

int xkb_context_get_log_verbosity(struct xkb_context *c)
{
    HAND_ON(is_our_context(c), 0, xkb_context_get_log_verbosity, c);
    return c->verbosity;
}

void xkb_context_set_log_fn(struct xkb_context *c, void (*log)(struct xkb_context *, enum xkb_log_level, const char *, va_list))
{
    HAND_ON_VOID(is_our_context(c), xkb_context_set_log_fn, c, log);
    c->log = log ? log : tell_on_standard_error;
}

/* ---- The real library's context */

static void tell_for_twin(struct xkb_context *twin, enum xkb_log_level level, const char *format, va_list args)
{
    struct xkb_context *c = REAL(xkb_context_get_user_data)(twin);
    c->log(c, level, format, args);
}

/* The context itself where it is the real library's; NULL where that isn't there. */
struct xkb_context *twin_of(struct xkb_context *c)
{
    if (!is_our_context(c)) return c;
    __typeof__(&xkb_context_new) new_context = REAL(xkb_context_new);
    if (!c->twin && new_context) {
        int flags = XKB_CONTEXT_NO_DEFAULT_INCLUDES | (c->names_from_environment ? 0 : XKB_CONTEXT_NO_ENVIRONMENT_NAMES);
        c->twin = new_context((enum xkb_context_flags)(flags | (c->is_secure ? 0 : XKB_CONTEXT_NO_SECURE_GETENV)));
        if (!c->twin) return NULL;
        REAL(xkb_context_set_user_data)(c->twin, c);
        REAL(xkb_context_set_log_fn)(c->twin, tell_for_twin);
    }
    if (c->twin) {
        REAL(xkb_context_set_log_level)(c->twin, c->level);
        REAL(xkb_context_set_log_verbosity)(c->twin, c->verbosity);
    }
    return c->twin;
}

/* ---- Folders */

static int reason_against(const char *path)
{
    struct stat found;
    if (stat(path, &found)) return errno;
    if (!S_ISDIR(found.st_mode)) return ENOTDIR;
    return eaccess(path, R_OK | X_OK) ? EACCES : 0;
}

int xkb_context_include_path_append(struct xkb_context *c, const char *path)
{
    HAND_ON(is_our_context(c), 0, xkb_context_include_path_append, c, path);
    int reason = reason_against(path);
    char *own = reason ? NULL : strdup(path), **grown = own ? realloc(c->folders, (c->folder_count + 1) * sizeof *grown) : NULL;
    if (!grown) {
        free(own);
        tell(c, XKB_LOG_LEVEL_DEBUG, "the folder %s is left out: %s\n", path, strerror(reason ? reason : ENOMEM));
        return 0;
    }
    c->folders = grown;
    c->folders[c->folder_count++] = own;
    return 1;
}

static int append_below(struct xkb_context *c, const char *folder, const char *below)
{
    char *path;
    if (!folder || asprintf(&path, "%s%s", folder, below) < 0) return 0;
    int is_appended = xkb_context_include_path_append(c, path);
    free(path);
    return is_appended;
}

int xkb_context_include_path_append_default(struct xkb_context *c)
{
    HAND_ON(is_our_context(c), 0, xkb_context_include_path_append_default, c);
    const char *home = from_environment(c, "HOME"), *config = from_environment(c, "XDG_CONFIG_HOME");
    const char *extra = from_environment(c, "XKB_CONFIG_EXTRA_PATH"), *root = from_environment(c, "XKB_CONFIG_ROOT");
    int count = config ? append_below(c, config, "/xkb") : append_below(c, home, "/.config/xkb");
    count += append_below(c, home, "/.xkb");
    count += append_below(c, extra ? extra : "/etc/xkb", "");
    count += append_below(c, root ? root : "/usr/share/X11/xkb", "");
    return count > 0;
}

int xkb_context_include_path_reset_defaults(struct xkb_context *c)
{
    HAND_ON(is_our_context(c), 0, xkb_context_include_path_reset_defaults, c);
    xkb_context_include_path_clear(c);
    return xkb_context_include_path_append_default(c);
}

void xkb_context_include_path_clear(struct xkb_context *c)
{
    HAND_ON_VOID(is_our_context(c), xkb_context_include_path_clear, c);
    for (size_t i = 0; i < c->folder_count; i++) free(c->folders[i]);
    free(c->folders);
    c->folders = NULL;
    c->folder_count = 0;
}

unsigned int xkb_context_num_include_paths(struct xkb_context *c)
{
    HAND_ON(is_our_context(c), 0, xkb_context_num_include_paths, c);
    return (unsigned int)c->folder_count;
}

const char *xkb_context_include_path_get(struct xkb_context *c, unsigned int index)
{
    HAND_ON(is_our_context(c), NULL, xkb_context_include_path_get, c, index);
    return index < c->folder_count ? c->folders[index] : NULL;
}
