/* The real libxkbcommon, which is opened where a call of compose or x11 comes, or one with a handle of its own. Its calls of
 * itself may come here, since a preloaded library stands before it, and are handed back. XKC_LIBXKBCOMMON names its file, where
 * this library stands in its place. */
#define _GNU_SOURCE
#include "private.h"
#include <dlfcn.h>
#include <stdlib.h>

static void *library, *x11_library;
static pthread_once_t opened = PTHREAD_ONCE_INIT, x11_opened = PTHREAD_ONCE_INIT;

/* Opens a library, unless it is this one under its name. */
static void *open_other(const char *file, const char *name, const void *own)
{
    void *found = dlopen(file, RTLD_LAZY | RTLD_LOCAL);
    if (!found || dlsym(found, name) != own) return found;
    dlclose(found);
    return NULL;
}

static void open_real(void)
{
    const char *file = secure_getenv("XKC_LIBXKBCOMMON");
    library = open_other(file ? file : "libxkbcommon.so.0", "xkb_context_new", (const void *)xkb_context_new);
}

void *real(const char *name)
{
    pthread_once(&opened, open_real);
    return library ? dlsym(library, name) : NULL;
}

int32_t xkb_x11_get_core_keyboard_device_id(void *connection);

static void open_x11(void)
{
    const char *name = "xkb_x11_get_core_keyboard_device_id";
    x11_library = open_other("libxkbcommon-x11.so.0", name, (const void *)xkb_x11_get_core_keyboard_device_id);
}

void *real_of_x11(const char *name)
{
    pthread_once(&x11_opened, open_x11);
    return x11_library ? dlsym(x11_library, name) : NULL;
}
