#include "text.h"

#include <stdarg.h>
#include <stdio.h>
#include <stdlib.h>
#include <string.h>

_Noreturn void end_without_memory(void)
{
    fputs("tracering-flight: memory\n", stderr);
    exit(3);
}

void *allocate(size_t count, size_t size)
{
    void *made = calloc(count ? count : 1, size);
    if (!made)
        end_without_memory();
    return made;
}

void free_text(struct text *text)
{
    free(text->at);
    *text = (struct text){NULL, 0, 0};
}

static void make_room(struct text *text, size_t more)
{
    if (text->room - text->len >= more)
        return;
    if (more > SIZE_MAX / 4 || text->room > SIZE_MAX / 4)
        end_without_memory();
    size_t room = text->room + text->room / 2 + more + 64;
    char *grown = realloc(text->at, room);
    if (!grown)
        end_without_memory();
    text->at = grown;
    text->room = room;
}

void add_bytes(struct text *text, const void *bytes, size_t len)
{
    if (!len)
        return;
    make_room(text, len);
    memcpy(text->at + text->len, bytes, len);
    text->len += len;
}

void add_string(struct text *text, const char *string)
{
    add_bytes(text, string, strlen(string));
}

void add_fill(struct text *text, const char *fill, size_t len, size_t count)
{
    for (size_t k = 0; k < count; k++)
        add_bytes(text, fill, len);
}

void add_format(struct text *text, const char *format, ...)
{
    char made[1024];
    va_list values;
    va_start(values, format);
    int len = vsnprintf(made, sizeof made, format, values);
    va_end(values);
    if (len > 0)
        add_bytes(text, made, (size_t)len < sizeof made ? (size_t)len : sizeof made - 1);
}

// The code point of a character of `len` bytes.
static uint32_t code_point(const uint8_t *at, size_t len)
{
    uint32_t code = len == 1 ? at[0] : at[0] & (0x7fu >> len);
    for (size_t k = 1; k < len; k++)
        code = code << 6 | (at[k] & 0x3fu);
    return code;
}

// How many bytes a character has that begins with this one; 0: none begins so.
static size_t stated_length(uint8_t first)
{
    if (first < 0x80)
        return 1;
    if (first < 0xc2 || first > 0xf4)
        return 0;
    return first < 0xe0 ? 2 : first < 0xf0 ? 3 : 4;
}

// How many bytes the character at the front has; 0: these aren't UTF-8.
static size_t character_length(struct bytes bytes)
{
    size_t len = bytes.len ? stated_length(bytes.at[0]) : 0;
    if (!len || len > bytes.len)
        return 0;
    for (size_t k = 1; k < len; k++)
        if ((bytes.at[k] & 0xc0) != 0x80)
            return 0;
    uint32_t code = code_point(bytes.at, len);
    if ((len == 3 && code < 0x800) || (len == 4 && (code < 0x10000 || code > 0x10ffff)))
        return 0;
    return code >= 0xd800 && code < 0xe000 ? 0 : len;
}

size_t plain_length(struct bytes bytes)
{
    size_t len = character_length(bytes);
    uint32_t code = len ? code_point(bytes.at, len) : 0;
    return code < 0x20 || (code >= 0x7f && code < 0xa0) ? 0 : len;
}

static void add_escape(struct text *text, uint8_t byte)
{
    switch (byte) {
    case '\n': add_string(text, "\\n"); break;
    case '\t': add_string(text, "\\t"); break;
    case '\r': add_string(text, "\\r"); break;
    default: add_format(text, "\\x%02x", byte);
    }
}

void add_escaped(struct text *text, struct bytes bytes)
{
    while (bytes.len) {
        size_t len = plain_length(bytes);
        if (len) {
            add_bytes(text, bytes.at, len);
        } else {
            add_escape(text, bytes.at[0]);
            len = 1;
        }
        bytes.at += len;
        bytes.len -= len;
    }
}

static void add_json_character(struct text *text, const uint8_t *at, size_t len)
{
    if (len > 1) {
        add_bytes(text, at, len);
        return;
    }
    switch (at[0]) {
    case '"': add_string(text, "\\\""); break;
    case '\\': add_string(text, "\\\\"); break;
    case '\n': add_string(text, "\\n"); break;
    case '\t': add_string(text, "\\t"); break;
    case '\r': add_string(text, "\\r"); break;
    default:
        if (at[0] < 0x20 || at[0] == 0x7f)
            add_format(text, "\\u%04x", at[0]);
        else
            add_bytes(text, at, 1);
    }
}

void add_json(struct text *text, struct bytes bytes)
{
    add_string(text, "\"");
    while (bytes.len) {
        size_t len = character_length(bytes);
        if (len) {
            add_json_character(text, bytes.at, len);
        } else {
            add_string(text, "\\ufffd");
            len = 1;
        }
        bytes.at += len;
        bytes.len -= len;
    }
    add_string(text, "\"");
}

void drop_line_end(struct text *text)
{
    if (text->len && text->at[text->len - 1] == '\n')
        text->len--;
}

struct bytes bytes_of(const struct text *text)
{
    return (struct bytes){(const uint8_t *)text->at, text->len};
}

struct bytes bytes_of_string(const char *string)
{
    return (struct bytes){(const uint8_t *)string, strlen(string)};
}
