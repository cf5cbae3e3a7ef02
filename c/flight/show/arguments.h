// The arguments of a record, and the three ways of formatting them.
#ifndef FLIGHT_SHOW_ARGUMENTS_H
#define FLIGHT_SHOW_ARGUMENTS_H

#include "dump.h"
#include "text.h"

struct argument {
    uint8_t class, size; // size: bytes, 0 of a text
    bool cut;            // of a text: it was longer
    uint64_t value;      // of a number: extended to 64 bits by its class; of a floating one: its bits
    struct bytes text;
};

// Those of a record that are whole, and how many a format has used.
struct arguments {
    struct argument at[MOST_ARGUMENTS];
    size_t count, next;
    size_t rest; // how many bytes of the payload are after them
};

// Reads the arguments of a site's record from its payload after the site's id.
void read_arguments(struct arguments *arguments, const struct site *site, struct bytes payload);

// The next argument, or null: there is none.
const struct argument *next_argument(struct arguments *arguments);

static inline bool is_integer(const struct argument *argument)
{
    return argument && (argument->class == CLASS_SIGNED || argument->class == CLASS_UNSIGNED);
}

// The value of a floating argument.
double double_of(const struct argument *argument);

// Adds the text, with dots if it was longer.
void add_argument_text(struct text *text, const struct argument *argument);

// Adds the shortest digits that are read as this value again, in the form d.ddde+dd.
void add_shortest(struct text *text, const struct argument *argument);

// Format as C's printf does, or as Rust's format does. What can't be formatted so is added in angle brackets.
void format_printf(struct text *text, struct bytes format, struct arguments *arguments);
void format_braces(struct text *text, struct bytes format, struct arguments *arguments);

// Adds the text of a site of named fields, and each field as NAME=VALUE.
void format_fields(struct text *text, const struct site *site, struct arguments *arguments);

// The name of a field of such a site, from 0 on; none is empty.
struct bytes field_name(const struct site *site, size_t field);

#endif
