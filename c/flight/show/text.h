// A text that grows. If memory is refused, the program ends with status 3.
#ifndef FLIGHT_SHOW_TEXT_H
#define FLIGHT_SHOW_TEXT_H

#include "bytes.h"

struct text {
    char *at;
    size_t len, room;
};

_Noreturn void end_without_memory(void);

// Memory for this many things of this size, all zeros.
void *allocate(size_t count, size_t size);

void free_text(struct text *text);

void add_bytes(struct text *text, const void *bytes, size_t len);
void add_string(struct text *text, const char *string);
void add_fill(struct text *text, const char *fill, size_t len, size_t count);
void add_format(struct text *text, const char *format, ...) __attribute__((format(printf, 2, 3)));

// How many bytes the character at the front has if these are UTF-8 and no control character, and else 0.
size_t plain_length(struct bytes bytes);

// Adds the bytes with each control character, and each byte that isn't UTF-8, written as an escape.
void add_escaped(struct text *text, struct bytes bytes);

// Adds the bytes as a string of JSON, in quotes; each byte that isn't UTF-8 is replaced by U+FFFD.
void add_json(struct text *text, struct bytes bytes);

// Drops a line's end at the end of the text, which is no part of what a record says.
void drop_line_end(struct text *text);

struct bytes bytes_of(const struct text *text);
struct bytes bytes_of_string(const char *string);

#endif
