// Flight files (docs/formats/files.md, "Flight file"): they are copied, since a program may write them, then read as a
// dump.
#ifndef FLIGHT_SHOW_FILE_H
#define FLIGHT_SHOW_FILE_H

#include "cursor.h"
#include "text.h"

#include "../layout.h"

// What the header says of the rest.
struct file_header {
    size_t slot_count, ring_slots, levels, pages, size; // ring_slots: the first ones, which have rings
    size_t slots, sites, sites_len, rings;
};

bool is_flight_file(struct bytes file);

// Whether a file, which has a header, was stopped, and has the checksums of its blocks: nothing is stored there any
// more.
bool is_summed(struct bytes file);

// Reads and checks the header.
bool read_file_header(struct cursor *c, struct file_header *header);

// Where the region of a ring is in the file.
static inline size_t region_offset(const struct file_header *header, size_t slot, size_t level)
{
    return header->rings + slot * ring_offset(header->pages, header->size, header->levels)
        + ring_offset(header->pages, header->size, level);
}

// Adds a copy of the file, which is mapped, as it was at one moment.
void copy_flight_file(const uint8_t *mapped, size_t len, struct text *copy);

// Reads a flight file that nobody writes, as a dump. False: it is refused, and `fault` says why.
bool read_flight_file(struct dump *dump, struct bytes file, struct fault *fault);

// Reads the region of a ring.
void read_region(struct dump *dump, struct ring *ring, const struct file_header *header, struct bytes file);

#endif
