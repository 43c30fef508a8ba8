/* What libxkbcommon's test of rules calls, made of the calls of xkc.h: the components of names, read off the source of the names. */
#include "config.h"

#include "test.h"
#include "xkbcomp/xkbcomp-priv.h"
#include "xkbcomp/rules.h"
#include <xkc.h>

static const uint8_t *bytes(const char *text) { return (const uint8_t *)(text ? text : ""); }
static size_t size_of(const char *text) { return text ? strlen(text) : 0; }

/* What the include of a section names. */
static char *included(const char *source, const char *section)
{
    const char *start = strstr(source, section);
    start = start ? strchr(start, '"') : NULL;
    const char *stop = start ? strchr(start + 1, '"') : NULL;
    return stop ? strndup(start + 1, (size_t)(stop - start - 1)) : NULL;
}

bool xkb_components_from_rules(struct xkb_context *context, const struct xkb_rule_names *names, struct xkb_component_names *out)
{
    xkc_folder folders[8] = {{0}};
    size_t count = xkb_context_num_include_paths(context);
    for (size_t i = 0; i < count && i < 8; i++) {
        const char *path = xkb_context_include_path_get(context, (unsigned)i);
        folders[i] = (xkc_folder){bytes(path), size_of(path)};
    }
    xkc_asked asked = {
        bytes(names->rules), size_of(names->rules), bytes(names->model), size_of(names->model), bytes(names->layout), size_of(names->layout),
        bytes(names->variant), size_of(names->variant), bytes(names->options), size_of(names->options), names->options != NULL, 0,
    };
    xkc_source source = {0};
    xkc_words words = {0};
    char text[65536] = "";
    size_t size = 0;
    bool is_made = xkc_source_named(&source, &asked, folders, count, &words) == XKC_OK &&
                   xkc_source_bytes(&source, (uint8_t *)text, sizeof text - 1, &size) == XKC_OK;
    if (is_made) {
        out->keycodes = included(text, "xkb_keycodes");
        out->types = included(text, "xkb_types");
        out->compat = included(text, "xkb_compat");
        out->symbols = included(text, "xkb_symbols");
    }
    xkc_source_end(&source);
    xkc_words_end(&words);
    return is_made && out->keycodes && out->types && out->compat && out->symbols;
}
