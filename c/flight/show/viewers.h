// The ways of showing dumps.
#ifndef FLIGHT_SHOW_VIEWERS_H
#define FLIGHT_SHOW_VIEWERS_H

#include "arguments.h"
#include "listing.h"
#include "moments.h"

#include <stdio.h>

// What a viewer of lines needs: each line is made whole, and then written.
struct lines {
    struct text line, formatted;
    struct arguments arguments;
};

struct viewer text_viewer(struct lines *lines);
struct viewer json_viewer(struct lines *lines);

void write_line(struct lines *lines);
void free_lines(struct lines *lines);

// Parts of objects of JSON: what a line has of a dump's head and of a loss, and the value of an argument.
void add_json_head(struct text *line, const struct dump *dump);
void add_json_loss(struct text *line, const struct dump *dump, const struct loss *loss);
void add_json_argument(struct text *line, const struct argument *argument);
// `"args":[..]`, and the fields of a record that has names for them.
void add_json_arguments(struct text *line, const struct site *site, const struct arguments *arguments);
void add_json_date(struct text *line, const char *key, nanoseconds time, bool is_known);

// Prints the dumps as Trace Event Format, one object of JSON, which Perfetto and Chrome open.
void print_trace_events(struct dump *dumps, size_t count, const struct choice *choice);

// Writes the dump as Common Trace Format 1.8 to a folder, which is made if it isn't there. No file is overwritten.
// False: a file can't be written, and `path` names it.
bool write_ctf(struct dump *dump, const struct choice *choice, const char *folder, struct text *path);

#endif
