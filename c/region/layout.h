// The bytes of a region: docs/formats/pages.md, "Regions".
#ifndef REGION_LAYOUT_H
#define REGION_LAYOUT_H

#include "tracering_region.h"

enum {
    MAGIC_WORD,
    VERSION_WORD,
    PAGES_WORD,
    SIZE_WORD,
    CPU_WORD,
    STREAM_WORD,
    TAKEN_WORD,
    ENDED_WORD,
    ORDERED_WORD,
    HEADER_WORDS
};
enum { SLOT_CPU, SLOT_FILL, SLOT_FIRST, SLOT_MISSED, SLOT_TIME, SLOT_COMMIT, SLOT_WORDS };

// The bytes `tracring`, as a number.
#define REGION_MAGIC 0x676e697263617274u
#define REGION_VERSION 1u

#define MIN_PAGES 2u
#define MAX_PAGES 1024u
#define MIN_SIZE 32u
#define MAX_SIZE 65520u
#define MAX_CPUS 256u

// Whether a ring can have these numbers.
static inline bool has_limits(uint64_t pages, uint64_t size)
{
    return pages >= MIN_PAGES && pages <= MAX_PAGES && size >= MIN_SIZE && size <= MAX_SIZE && size % 4 == 0;
}

// How many bytes there are from slot to slot.
static inline size_t stride_of(size_t size)
{
    size_t align = TRACERING_REGION_ALIGN;
    return (TRACERING_HEADER + size + align - 1) / align * align;
}

static inline size_t slot_offset(size_t size, size_t slot)
{
    return TRACERING_REGION_HEADER + slot * stride_of(size);
}

static inline bool is_aligned(const void *region)
{
    return (uintptr_t)region % TRACERING_REGION_ALIGN == 0;
}

// Sets the number after the last record of a slot, which commits no more bytes than a page has; false: it is no page.
bool tracering_region_end(const void *slot, uint64_t *end);

#endif
