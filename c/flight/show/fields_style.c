// Formats a site's text and its named fields: TEXT NAME=VALUE NAME=VALUE. The format is the text, and then each name
// behind a zero.
#include "arguments.h"

#include <inttypes.h>
#include <stdio.h>
#include <stdlib.h>
#include <string.h>

// What is before the next zero.
static struct bytes front_of(struct bytes bytes)
{
    const uint8_t *zero = bytes.len ? memchr(bytes.at, 0, bytes.len) : NULL;
    return (struct bytes){bytes.at, zero ? (size_t)(zero - bytes.at) : bytes.len};
}

// What is behind the next zero.
static struct bytes behind(struct bytes bytes)
{
    size_t len = front_of(bytes).len;
    return len < bytes.len ? (struct bytes){bytes.at + len + 1, bytes.len - len - 1} : (struct bytes){NULL, 0};
}

struct bytes field_name(const struct site *site, size_t field)
{
    struct bytes rest = site->format;
    for (size_t k = 0; k <= field; k++)
        rest = behind(rest);
    struct bytes name = front_of(rest);
    return name.len ? name : bytes_of_string("?");
}

// Adds the fewest digits that are read as this value again.
static void add_floating(struct text *text, const struct argument *argument)
{
    char digits[64];
    double value = double_of(argument);
    bool is_short = argument->size == 4;
    for (int count = is_short ? 6 : 15; count <= (is_short ? 9 : 17); count++) {
        snprintf(digits, sizeof digits, "%.*g", count, value);
        if (is_short ? (double)strtof(digits, NULL) == value : strtod(digits, NULL) == value)
            break;
    }
    add_string(text, digits);
}

// Adds a text in quotes.
static void add_text(struct text *text, const struct argument *argument)
{
    struct text whole = {NULL, 0, 0};
    add_argument_text(&whole, argument);
    add_string(text, "\"");
    for (size_t k = 0; k < whole.len; k++) {
        if (whole.at[k] == '"' || whole.at[k] == '\\')
            add_string(text, "\\");
        add_bytes(text, &whole.at[k], 1);
    }
    add_string(text, "\"");
    free_text(&whole);
}

static void add_value(struct text *text, const struct argument *argument)
{
    switch (argument->class) {
    case CLASS_SIGNED: add_format(text, "%" PRId64, (int64_t)argument->value); break;
    case CLASS_FLOATING: add_floating(text, argument); break;
    case CLASS_ADDRESS: add_format(text, "0x%" PRIx64, argument->value); break;
    case CLASS_TEXT: add_text(text, argument); break;
    default: add_format(text, "%" PRIu64, argument->value);
    }
}

void format_fields(struct text *text, const struct site *site, struct arguments *arguments)
{
    struct bytes said = front_of(site->format);
    add_bytes(text, said.at, said.len);
    for (const struct argument *argument; (argument = next_argument(arguments));) {
        struct bytes name = field_name(site, arguments->next - 1);
        add_string(text, text->len ? " " : "");
        add_bytes(text, name.at, name.len);
        add_string(text, "=");
        add_value(text, argument);
    }
}
