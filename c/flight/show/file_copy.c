// Copies a flight file that a program may be writing: first the rings, then what names their threads, then the sites,
// then the header. So whatever is needed to read a record that was copied is copied, too: the copy of a region ends
// with an order (docs/formats/pages.md, "While it is written"), and all else here is stored with release, and loaded
// with acquire in the order of the words, so that each word that is found brings what was stored before it.
#include "file.h"

#include <stdlib.h>
#include <string.h>

enum { TRIES = 100, WORD = 8 };

static uint64_t load(const uint8_t *mapped, size_t word)
{
    return __atomic_load_n((const uint64_t *)(const void *)mapped + word, __ATOMIC_ACQUIRE);
}

// Copies these bytes, whole words of them, in their order.
static void copy_words(uint8_t *to, const uint8_t *mapped, size_t len)
{
    for (size_t at = 0; at + WORD <= len; at += WORD) {
        uint64_t word = load(mapped + at, 0);
        memcpy(to + at, &word, WORD);
    }
}

// Copies a region. One that can't be a region is copied as it is. (Of one whose loads can't be ordered the copy isn't a
// region, so it is shown as damaged.)
static void copy_region(uint8_t *to, const uint8_t *mapped, size_t len)
{
    struct tracering_region about;
    if (tracering_region_copy(mapped, len, to, len) != TRACERING_DONE
        && tracering_region_about(mapped, len, &about) != TRACERING_DONE)
        copy_words(to, mapped, len);
}

// Copies a slot so that its version was the same before and after. (If it is odd, one lease alone is changing.) If a
// thread changes it all the time, its leases are left out.
static void copy_slot(uint8_t *to, const uint8_t *mapped)
{
    for (int tries = 0; tries < TRIES; tries++) {
        uint64_t version = load(mapped, SLOT_VERSION);
        copy_words(to, mapped, SLOT_BYTES);
        memcpy(to, &version, WORD);
        if (load(mapped, SLOT_VERSION) == version)
            return;
    }
    memset(to + SLOT_COUNT * WORD, 0, WORD);
}

// Copies the header so that the pair of both clocks that was stored last is whole.
static void copy_header(uint8_t *to, const uint8_t *mapped)
{
    for (int tries = 0; tries < TRIES; tries++) {
        uint64_t stamps = load(mapped, FILE_STAMPS);
        copy_words(to, mapped, FILE_HEADER);
        memcpy(to + FILE_STAMPS * WORD, &stamps, WORD);
        if (load(mapped, FILE_STAMPS) == stamps)
            return;
    }
}

void copy_flight_file(const uint8_t *mapped, size_t len, struct text *copy)
{
    struct fault fault;
    struct file_header header;
    struct cursor c = {mapped, 0, len, &fault};
    uint8_t *to = allocate(len, 1);
    *copy = (struct text){(char *)to, len, len};
    if (!read_file_header(&c, &header) || is_summed((struct bytes){mapped, len})) {
        memcpy(to, mapped, len);
        return;
    }
    for (size_t slot = 0; slot < header.ring_slots; slot++)
        for (size_t level = 0; level < header.levels; level++) {
            size_t offset = region_offset(&header, slot, level);
            copy_region(to + offset, mapped + offset, ring_room(header.pages, header.size, level));
        }
    for (size_t slot = 0; slot < header.slot_count; slot++)
        copy_slot(to + header.slots + slot * SLOT_BYTES, mapped + header.slots + slot * SLOT_BYTES);
    // (A site's room and its length are one word. If that has a length, what follows is there.)
    copy_words(to + header.sites, mapped + header.sites, header.sites_len);
    copy_header(to, mapped);
}
