// The records of dumps, and of flight files, by time, with the numbers that are missing before them, and what was lost
// in all.
#ifndef FLIGHT_SHOW_LISTING_H
#define FLIGHT_SHOW_LISTING_H

#include "dump.h"
#include "text.h"

struct record {
    uint64_t moment, number;
    const struct ring *ring;
    const struct lease *lease; // null: the dump doesn't say which thread wrote it
    const struct site *site;   // null: the dump doesn't have it
    uint32_t id;               // of its site
    struct bytes payload;      // after the id
};

// Numbers of a ring without a record.
struct gap {
    const struct ring *ring;
    const struct lease *lease; // of its last number
    uint64_t first, last;
};

enum loss_kind {
    LOSS_OVERWRITTEN,
    LOSS_REFUSED,
    LOSS_NO_RING,
    LOSS_UNKNOWN, // overwritten, or on a page that is damaged
    LOSS_DAMAGED, // `what` can't be read, and it isn't known what that had
    LOSS_KINDS
};

struct loss {
    enum loss_kind kind;
    const char *why; // of what was refused or is damaged
    const struct ring *ring; // null: of no ring
    uint64_t count;
    const char *what; // of what is damaged; null: of more that is
    size_t offset;
};

// What is made of dumps.
struct viewer {
    void *self;
    void (*head)(void *self, const struct dump *dump);
    void (*record)(void *self, const struct dump *dump, const struct record *record);
    void (*gap)(void *self, const struct dump *dump, const struct gap *gap);
    void (*loss)(void *self, const struct dump *dump, const struct loss *loss);
    void (*end)(void *self, size_t losses);
};

// Which records are given: those that pass the filter, and of these the last `most`.
struct filter;
struct choice {
    size_t most;
    const struct filter *filter; // null: all pass
};

// Gives the viewer the dumps: their heads, then the records by time (by moment, if moments have none), then by dump,
// ring and number, each gap before its ring's next record that is given, or after all records, and then each loss.
void list_dumps(struct dump *dumps, size_t count, const struct choice *choice, const struct viewer *viewer);

// Formats a record as its site says.
struct arguments;
void format_record(struct text *text, const struct record *record, struct arguments *arguments);

// Adds what a line has of a record: its level, if it has one, and its text, which is formatted first.
void add_line_text(struct text *line, const struct record *record, struct text *formatted, struct arguments *arguments);

// The name of a level, as it is in lines, and in objects.
const char *level_name(enum level level);
const char *level_key(enum level level);

// Adds the thread as name and number, or that it isn't known.
void add_thread(struct text *text, const struct ring *ring, const struct lease *lease);

#endif
