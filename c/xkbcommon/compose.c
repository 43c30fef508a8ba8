/* Compose and x11: the real library's calls. Where one takes a context, it gets the twin of ours. */
#include "private.h"

struct xkb_compose_table *xkb_compose_table_new_from_locale(struct xkb_context *c, const char *locale, enum xkb_compose_compile_flags flags)
{
    __typeof__(&xkb_compose_table_new_from_locale) call = REAL(xkb_compose_table_new_from_locale);
    struct xkb_context *own = twin_of(c);
    return call && own ? call(own, locale, flags) : NULL;
}

struct xkb_compose_table *xkb_compose_table_new_from_file(struct xkb_context *c, FILE *file, const char *locale, enum xkb_compose_format format,
    enum xkb_compose_compile_flags flags)
{
    __typeof__(&xkb_compose_table_new_from_file) call = REAL(xkb_compose_table_new_from_file);
    struct xkb_context *own = twin_of(c);
    return call && own ? call(own, file, locale, format, flags) : NULL;
}

struct xkb_compose_table *xkb_compose_table_new_from_buffer(struct xkb_context *c, const char *text, size_t size, const char *locale,
    enum xkb_compose_format format, enum xkb_compose_compile_flags flags)
{
    __typeof__(&xkb_compose_table_new_from_buffer) call = REAL(xkb_compose_table_new_from_buffer);
    struct xkb_context *own = twin_of(c);
    return call && own ? call(own, text, size, locale, format, flags) : NULL;
}

/* A table or state that a caller has is the real library's, so that is there. */

struct xkb_compose_table *xkb_compose_table_ref(struct xkb_compose_table *table)
{
    return REAL(xkb_compose_table_ref)(table);
}

void xkb_compose_table_unref(struct xkb_compose_table *table)
{
    if (table) REAL(xkb_compose_table_unref)(table);
}

struct xkb_compose_state *xkb_compose_state_new(struct xkb_compose_table *table, enum xkb_compose_state_flags flags)
{
    return REAL(xkb_compose_state_new)(table, flags);
}

struct xkb_compose_state *xkb_compose_state_ref(struct xkb_compose_state *state)
{
    return REAL(xkb_compose_state_ref)(state);
}

void xkb_compose_state_unref(struct xkb_compose_state *state)
{
    if (state) REAL(xkb_compose_state_unref)(state);
}

struct xkb_compose_table *xkb_compose_state_get_compose_table(struct xkb_compose_state *state)
{
    return REAL(xkb_compose_state_get_compose_table)(state);
}

enum xkb_compose_feed_result xkb_compose_state_feed(struct xkb_compose_state *state, xkb_keysym_t keysym)
{
    return REAL(xkb_compose_state_feed)(state, keysym);
}

void xkb_compose_state_reset(struct xkb_compose_state *state)
{
    REAL(xkb_compose_state_reset)(state);
}

enum xkb_compose_status xkb_compose_state_get_status(struct xkb_compose_state *state)
{
    return REAL(xkb_compose_state_get_status)(state);
}

int xkb_compose_state_get_utf8(struct xkb_compose_state *state, char *text, size_t room)
{
    return REAL(xkb_compose_state_get_utf8)(state, text, room);
}

xkb_keysym_t xkb_compose_state_get_one_sym(struct xkb_compose_state *state)
{
    return REAL(xkb_compose_state_get_one_sym)(state);
}

/* ---- x11, as xkbcommon-x11.h declares it; a connection is only passed on */

int xkb_x11_setup_xkb_extension(void *connection, uint16_t major, uint16_t minor, int flags, uint16_t *major_out, uint16_t *minor_out,
    uint8_t *event_out, uint8_t *error_out);
int32_t xkb_x11_get_core_keyboard_device_id(void *connection);
struct xkb_keymap *xkb_x11_keymap_new_from_device(struct xkb_context *c, void *connection, int32_t device, enum xkb_keymap_compile_flags flags);
struct xkb_state *xkb_x11_state_new_from_device(struct xkb_keymap *m, void *connection, int32_t device);

#define REAL_OF_X11(name) ((__typeof__(&name))real_of_x11(#name))

int xkb_x11_setup_xkb_extension(void *connection, uint16_t major, uint16_t minor, int flags, uint16_t *major_out, uint16_t *minor_out,
    uint8_t *event_out, uint8_t *error_out)
{
    __typeof__(&xkb_x11_setup_xkb_extension) call = REAL_OF_X11(xkb_x11_setup_xkb_extension);
    return call ? call(connection, major, minor, flags, major_out, minor_out, event_out, error_out) : 0;
}

int32_t xkb_x11_get_core_keyboard_device_id(void *connection)
{
    __typeof__(&xkb_x11_get_core_keyboard_device_id) call = REAL_OF_X11(xkb_x11_get_core_keyboard_device_id);
    return call ? call(connection) : -1;
}

struct xkb_keymap *xkb_x11_keymap_new_from_device(struct xkb_context *c, void *connection, int32_t device, enum xkb_keymap_compile_flags flags)
{
    __typeof__(&xkb_x11_keymap_new_from_device) call = REAL_OF_X11(xkb_x11_keymap_new_from_device);
    struct xkb_context *own = twin_of(c);
    return call && own ? call(own, connection, device, flags) : NULL;
}

struct xkb_state *xkb_x11_state_new_from_device(struct xkb_keymap *m, void *connection, int32_t device)
{
    __typeof__(&xkb_x11_state_new_from_device) call = REAL_OF_X11(xkb_x11_state_new_from_device);
    return call ? call(m, connection, device) : NULL;
}
