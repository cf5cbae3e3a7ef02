// The bytes of a flight file, which the recorder writes and `tracering-flight` reads: docs/formats/files.md,
// "Flight file". All its numbers are words of eight bytes, but those of sites.
#ifndef FLIGHT_LAYOUT_H
#define FLIGHT_LAYOUT_H

#include "tracering_region.h"

// The words of its header.
enum {
    FILE_MAGIC,
    FILE_VERSION,
    FILE_SLOT_COUNT,
    FILE_LEVELS,
    FILE_PAGES,
    FILE_SIZE,
    FILE_CLOCK,
    FILE_PROCESS,
    FILE_SLOTS,
    FILE_SLOTS_LEN,
    FILE_SITES,
    FILE_SITES_LEN,
    FILE_RINGS,
    FILE_RINGS_LEN,
    FILE_BOOT, // two words
    FILE_STARTED = 16,
    FILE_STARTED_REAL,
    FILE_STAMPS,
    FILE_STAMP, // two pairs
    FILE_SITES_USED = 24,
    FILE_ENDED,
    FILE_SUMS,
    FILE_SUMMED,
    FILE_RING_SLOTS, // how many slots have rings: the first ones; 0: all
    FILE_NAME = 32,         // 64 bytes
    FILE_WITHOUT_RING = 256 // several counts
};

// The bytes `TRLIVING`, as a number.
#define FILE_MAGIC_NUMBER 0x474e4956494c5254u
#define FILE_HEADER ((size_t)4096)
#define FILE_SITES_ROOM ((size_t)1 << 20)
// What a checksum of a file that was stopped is of.
#define FILE_BLOCK ((size_t)4096)

enum {
    FILE_VERSION_NUMBER = 2,
    FILE_NAME_SIZE = 64,
    FILE_LATER_PAGES = 2, // of a ring of level 1 and above
    FILE_MOST_RINGS = 65536,
    FILE_MOST_LEVELS = 4,
    FILE_CPUS = 256, // the CPU of a ring's parcels is its number modulo this
    FILE_COUNTS = 32, // of events without a ring
    FILE_COUNT_WORDS = 8, // from one to the next
    // The words of a slot: two, its leases, the counts of what was refused on each level, and zeros.
    SLOT_VERSION = 0,
    SLOT_COUNT,
    SLOT_LEASES,
    SLOT_LEASE_WORDS = 13, // of one lease
    SLOT_MOST_LEASES = 8,
    SLOT_REFUSED = SLOT_LEASES + SLOT_MOST_LEASES * SLOT_LEASE_WORDS,
    SLOT_REASONS = 6,
    SLOT_BYTES = 1088,
    // Where in the first word of an event it is said that its thread's number follows.
    EVENT_HAS_THREAD = 31,
    // What a site begins with: its room and its length, of four bytes each.
    SITE_HEAD = 8,
    // Where in a site's style its level is.
    SITE_LEVEL_SHIFT = 4
};

// A slot's version while its leases change: the place of the lease that does, and an odd number.
static inline uint64_t changing_version(uint64_t version, uint64_t place)
{
    return version + (place << 1 | 1);
}

static inline uint64_t place_of_change(uint64_t version)
{
    return version >> 1 & (SLOT_MOST_LEASES - 1);
}

static inline uint64_t next_version(uint64_t version)
{
    return (version | (2 * SLOT_MOST_LEASES - 1)) + 1;
}

// Where in the header the last pair of both clocks is, of this many stamps; it is none of the start's if `stamps` is 0.
static inline size_t stamp_word(uint64_t stamps)
{
    return FILE_STAMP + 2 * ((stamps / 2 - 1) & 1);
}

// How many bytes the checksums of a file's blocks take.
static inline size_t sums_len(size_t len)
{
    return len / FILE_BLOCK * sizeof(uint32_t);
}

// Where the kernel says which boot this is.
#define FILE_BOOT_ID "/proc/sys/kernel/random/boot_id"

// Reads that text's 32 hexadecimal digits as two numbers.
static inline void read_boot(const char *text, size_t len, uint64_t *boot)
{
    boot[0] = boot[1] = 0;
    for (size_t at = 0, digits = 0; at < len && digits < 32; at++) {
        char letter = text[at];
        bool is_digit = letter >= '0' && letter <= '9', is_letter = letter >= 'a' && letter <= 'f';
        if (!is_digit && !is_letter)
            continue;
        boot[digits / 16] = boot[digits / 16] << 4 | (uint64_t)(is_digit ? letter - '0' : letter - 'a' + 10);
        digits++;
    }
}

// How many bytes the region of a level's ring takes.
static inline size_t ring_room(size_t pages, size_t size, size_t level)
{
    size_t len = tracering_region_size(level ? FILE_LATER_PAGES : pages, size);
    return (len + FILE_HEADER - 1) / FILE_HEADER * FILE_HEADER;
}

// Where the region of this level is among those of its slot; of the level after the last one, how long these are.
static inline size_t ring_offset(size_t pages, size_t size, size_t level)
{
    return level ? ring_room(pages, size, 0) + (level - 1) * ring_room(pages, size, 1) : 0;
}

#endif
