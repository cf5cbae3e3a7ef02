// A flight dump, or a flight file, that was read and checked (docs/formats/files.md, "Flight dump", "Flight file"). The
// bytes that it names are bytes of the file.
#ifndef FLIGHT_SHOW_DUMP_H
#define FLIGHT_SHOW_DUMP_H

#include "bytes.h"
#include "../layout.h"
#include "tracering.h"

enum clock_kind { CLOCK_OF_MONOTONIC, CLOCK_OF_TSC, CLOCK_OF_CALLER, CLOCK_KINDS };

enum style { STYLE_PRINTF, STYLE_BRACES, STYLE_FIELDS, STYLES };

enum level { LEVEL_NONE, LEVEL_ERROR, LEVEL_WARNING, LEVEL_INFO, LEVEL_DEBUG, LEVEL_TRACE, LEVELS };

enum argument_class { CLASS_SIGNED, CLASS_UNSIGNED, CLASS_FLOATING, CLASS_ADDRESS, CLASS_TEXT, CLASSES };

// Limits of what a dump states: rings, arguments of a site, bytes of a name, a file's name or a format.
enum { RINGS = FILE_MOST_RINGS, MOST_ARGUMENTS = 64, LONGEST_TEXT = 65535, REASONS = SLOT_REASONS };
// The CPU of a ring's parcels is its number modulo CPUS, so the rings are of several collectors.
enum { CPUS = FILE_CPUS, COLLECTORS = RINGS / CPUS };

struct process {
    uint32_t pid, tid, signal, clock;
    uint64_t start_moment, start_time, dump_moment, dump_time; // times are nanoseconds from 1970 on
    uint64_t no_ring;
    struct bytes name;
    // Of a flight file. Then there is no dump, but the last moment at which both clocks were read.
    bool is_file, has_ended, is_inexact; // is_inexact: its times are, for want of a second such moment
};

// From which number on a thread had a ring, or from which moment on it had its name.
struct lease {
    uint64_t first;
    uint32_t tid;
    struct bytes name;
};

struct ring {
    uint32_t number, slot, level;
    uint64_t written;
    uint64_t refused[REASONS];
    size_t lease_count;
    struct lease *leases;
    bool is_damaged; // a page, or all
};

struct site {
    uint32_t id, line;
    enum style style;
    enum level level;
    struct bytes kinds, file, format;
    size_t offset; // of its section
};

// What can't be read.
struct damage {
    const char *what;
    const struct ring *ring; // null: it is of no ring
    char *why;
    size_t offset;
};

struct dump {
    const char *name; // its file, if others are listed with it, or null
    struct process process;
    size_t ring_count, site_count;
    struct ring *rings;            // in the file's order
    const struct ring **of_number; // null: the file has no such ring
    size_t name_count, name_room;
    struct lease *names; // of threads whose records have their numbers: by that, then by the first moment
    struct site *sites;            // by id
    struct tracering_collector records[COLLECTORS];
    size_t damage_count, more_damages; // more_damages: those that aren't listed
    struct damage *damages;
};

// Why a file is refused, and at which of its bytes.
struct fault {
    size_t offset;
    char text[200];
};

// Reads the file. False: it is refused, and `fault` says why.
bool dump_read(struct dump *dump, struct bytes file, struct fault *fault);
void dump_free(struct dump *dump);

// A dump of nothing.
void dump_begin(struct dump *dump);

// A new ring of the dump.
struct ring *dump_add_ring(struct dump *dump, const struct ring *ring);

// Adds a page of a ring to its records, as tracering_collector_add does.
int32_t dump_add_page(struct dump *dump, const struct ring *ring, struct bytes page, struct tracering_fault_at *at);

// Adds a name of a thread whose records have its number, and sorts them when all are there.
void dump_add_name(struct dump *dump, const struct lease *name);
void sort_names(struct dump *dump);

// The name that the thread of this number had at this moment, or null: it isn't known.
const struct lease *dump_name(const struct dump *dump, uint32_t thread, uint64_t moment);

// Notes what can't be read, and why.
void add_damage(struct dump *dump, const struct ring *ring, const char *what, const char *why, size_t offset);

// The site with this id, or null.
const struct site *dump_site(const struct dump *dump, uint32_t id);

// The thread that wrote the record of this number, or null if the dump doesn't say it.
const struct lease *ring_lease(const struct ring *ring, uint64_t number);

static inline uint8_t kind_class(uint8_t kind)
{
    return kind >> 4;
}

static inline uint8_t kind_size(uint8_t kind)
{
    return kind & 15;
}

#endif
