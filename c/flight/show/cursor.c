#include "cursor.h"
#include "text.h"

#include <stdarg.h>
#include <stdio.h>
#include <stdlib.h>
#include <string.h>

bool refuse(struct cursor *c, size_t offset, const char *format, ...)
{
    va_list values;
    va_start(values, format);
    vsnprintf(c->fault->text, sizeof c->fault->text, format, values);
    va_end(values);
    c->fault->offset = offset;
    return false;
}

const uint8_t *take(struct cursor *c, size_t len, const char *what)
{
    if (c->end - c->at < len) {
        refuse(c, c->at, "%zu bytes are expected (%s), and %zu are left", len, what, c->end - c->at);
        return NULL;
    }
    c->at += len;
    return c->file + c->at - len;
}

bool take_text(struct cursor *c, const char *what, struct bytes *text)
{
    const uint8_t *len = take(c, 4, what);
    if (!len)
        return false;
    text->len = number32_at(len);
    if (text->len > LONGEST_TEXT)
        return refuse(c, c->at - 4, "at most %d bytes are expected (%s), and not %zu", LONGEST_TEXT, what, text->len);
    text->at = take(c, text->len, what);
    return text->at != NULL;
}

// Checks the kinds of a site's arguments.
static bool check_kinds(struct cursor *c, const struct site *site)
{
    for (size_t k = 0; k < site->kinds.len; k++) {
        uint8_t kind = site->kinds.at[k], size = kind_size(kind);
        bool is_whole = size == 4 || size == 8 || (kind_class(kind) != CLASS_FLOATING && (size == 1 || size == 2));
        if (kind_class(kind) >= CLASSES || (kind_class(kind) == CLASS_TEXT ? size != 0 : !is_whole))
            return refuse(c, (size_t)(site->kinds.at - c->file) + k, "there is no kind 0x%02x of argument", kind);
    }
    return true;
}

struct site *add_site(struct dump *dump, size_t *room)
{
    if (dump->site_count == *room) {
        struct site *grown = allocate(2 * *room + 16, sizeof *grown);
        if (dump->site_count)
            memcpy(grown, dump->sites, dump->site_count * sizeof *grown);
        free(dump->sites);
        dump->sites = grown;
        *room = 2 * *room + 16;
    }
    return &dump->sites[dump->site_count++];
}

bool read_site(struct cursor *c, struct site *site)
{
    size_t begin = c->at;
    const uint8_t *at = take(c, 16, "site");
    if (!at)
        return false;
    size_t count = number32_at(at + 12);
    uint32_t style = number32_at(at + 8), level = style >> SITE_LEVEL_SHIFT;
    *site = (struct site){.id = number32_at(at), .line = number32_at(at + 4), .offset = begin};
    if (style % (1 << SITE_LEVEL_SHIFT) >= STYLES || level >= LEVELS)
        return refuse(c, begin + 8, "there is no style %u", style);
    site->style = (enum style)(style % (1 << SITE_LEVEL_SHIFT));
    site->level = (enum level)level;
    if (count > MOST_ARGUMENTS)
        return refuse(c, begin + 12, "at most %d arguments are expected, and not %zu", MOST_ARGUMENTS, count);
    site->kinds = (struct bytes){take(c, count, "kinds of arguments"), count};
    return site->kinds.at && check_kinds(c, site) && take_text(c, "file", &site->file)
        && take_text(c, "format", &site->format);
}

static int compare_sites(const void *one, const void *other)
{
    const struct site *a = one, *b = other;
    if (a->id != b->id)
        return a->id < b->id ? -1 : 1;
    return a->offset < b->offset ? -1 : a->offset > b->offset;
}

void sort_sites(struct dump *dump)
{
    if (dump->site_count)
        qsort(dump->sites, dump->site_count, sizeof *dump->sites, compare_sites);
}
