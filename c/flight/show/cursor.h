// Where the reading of a file is: in the whole of it, or in a part.
#ifndef FLIGHT_SHOW_CURSOR_H
#define FLIGHT_SHOW_CURSOR_H

#include "dump.h"

struct cursor {
    const uint8_t *file;
    size_t at, end;
    struct fault *fault;
};

// Notes why the file is refused, and at which byte: false.
__attribute__((format(printf, 3, 4))) bool refuse(struct cursor *c, size_t offset, const char *format, ...);

// The next `len` bytes, or null: there are fewer.
const uint8_t *take(struct cursor *c, size_t len, const char *what);
bool take_text(struct cursor *c, const char *what, struct bytes *text);

// Reads what a section SITE has.
bool read_site(struct cursor *c, struct site *site);

// A new site of the dump. `room` is how many it has room for, at first 0.
struct site *add_site(struct dump *dump, size_t *room);

// Sorts the sites by id, and those of one id as they are in the file.
void sort_sites(struct dump *dump);

#endif
