// What a region has to have after its writer was killed, or as a live copy of it was made: the account of the tools
// that kill writers. Records say of themselves who wrote them, the how manieth of that source they are, and the rest of
// their bytes follows from both.
#ifndef REGION_ACCOUNT_H
#define REGION_ACCOUNT_H

#include "tracering_region.h"

#include <stdio.h>
#include <stdlib.h>
#include <string.h>

// The program's own code, and two levels of handlers.
enum { SOURCES = 3, LEAST = 8, LONGEST = 200, MOST_SLOTS = 16 };

struct record_head {
    uint32_t source, id;
};

// How many bytes record `id` of a source has, by a ring's size.
static inline size_t record_len(uint32_t source, uint32_t id, size_t size)
{
    size_t most = size - 16 < LONGEST ? size - 16 : LONGEST;
    uint32_t mixed = (id * 2654435761u ^ source * 40503u) >> 8;
    return LEAST + mixed % (id % 31 ? (most - LEAST) / 2 + 1 : most - LEAST + 1);
}

static inline size_t make_record(uint32_t source, uint32_t id, size_t size, unsigned char *bytes)
{
    struct record_head head = {source, id};
    size_t len = record_len(source, id, size);
    uint64_t state = (id + 1) * 0x9e3779b97f4a7c15u + source;
    memcpy(bytes, &head, sizeof head);
    for (size_t at = sizeof head; at < len; at++) {
        state ^= state << 13;
        state ^= state >> 7;
        state ^= state << 17;
        bytes[at] = (unsigned char)state;
    }
    return len;
}

// A page of a region: which fill it was, and the numbers of its records.
struct found_page {
    uint64_t fill, first, end;
};

struct found {
    struct found_page pages[MOST_SLOTS];
    size_t count;
    uint64_t begun;   // the newest fill that is begun
    uint64_t taken;   // the number after the last record that the reader was given
    uint64_t passed;  // fills below it were given to the reader, or overwritten before: none of them need be there
    uint64_t end;     // the number after the newest record's
    uint64_t records; // how many there are
};

static inline bool fault(const char *what, uint64_t a, uint64_t b)
{
    fprintf(stderr, "region: %s (%llu, %llu)\n", what, (unsigned long long)a, (unsigned long long)b);
    return false;
}

static inline uint64_t account_word(const void *slot, size_t word)
{
    uint64_t value;
    memcpy(&value, (const unsigned char *)slot + 8 * word, sizeof value);
    return value;
}

// How many records are on a page, by its words; -1 if they don't end with it.
static inline long count_records(const unsigned char *data, size_t len)
{
    long count = 0;
    for (size_t at = 0; at < len;) {
        uint32_t word, next;
        memcpy(&word, data + at, 4);
        memcpy(&next, data + at + 4, 4);
        uint32_t type = word & 31;
        count += type < 29;
        at += type >= 29 ? 8 : type ? 4 + 4 * type : 4 + (size_t)next;
        if (at > len)
            return -1;
    }
    return count;
}

static inline int by_fill(const void *a, const void *b)
{
    uint64_t left = ((const struct found_page *)a)->fill, right = ((const struct found_page *)b)->fill;
    return left < right ? -1 : left > right;
}

// The pages of a region that nobody writes, by fill. All go to the collector, too.
static inline bool find_pages(const void *region, size_t len, struct tracering_collector *c, struct found *found)
{
    struct tracering_region about;
    if (tracering_region_about(region, len, &about) != TRACERING_DONE)
        return fault("it is no region", 0, 0);
    *found = (struct found){.taken = about.taken};
    for (size_t slot = 0; slot <= about.pages; slot++) {
        const void *bytes;
        size_t bytes_len;
        const unsigned char *at = (const unsigned char *)region + TRACERING_REGION_HEADER
            + slot * ((tracering_region_size(about.pages, about.size) - TRACERING_REGION_HEADER) / (about.pages + 1));
        uint64_t fill = account_word(at, 1), first = account_word(at, 2);
        found->begun = fill > found->begun ? fill : found->begun;
        int32_t code = tracering_region_slot(region, len, slot, &bytes, &bytes_len);
        if (code == TRACERING_EMPTY)
            continue;
        if (code != TRACERING_DONE || bytes != at)
            return fault("a slot is damaged", slot, (uint64_t)code);
        struct tracering_fault_at where = {0, 0};
        code = tracering_collector_add(c, bytes, bytes_len, &where);
        if (code > TRACERING_DONE)
            return fault("a slot is refused", (uint64_t)code, where.number);
        long count = count_records(at + TRACERING_HEADER, bytes_len - TRACERING_HEADER);
        if (count <= 0)
            return fault("a slot's records can't be counted", slot, fill);
        found->pages[found->count++] = (struct found_page){fill, first, first + (uint64_t)count};
    }
    qsort(found->pages, found->count, sizeof *found->pages, by_fill);
    found->end = found->count ? found->pages[found->count - 1].end : 0;
    return true;
}

// The newest fill that is begun, and the newest that has something, as a thread or process sees that doesn't write.
static inline void look_at_fills(const void *region, size_t len, size_t pages, uint64_t *begun, uint64_t *newest)
{
    size_t stride = (len - TRACERING_REGION_HEADER) / (pages + 1);
    *begun = *newest = 0;
    for (size_t slot = 0; slot <= pages; slot++) {
        const void *words = (const unsigned char *)region + TRACERING_REGION_HEADER + slot * stride;
        const uint64_t *at = (const uint64_t *)words;
        uint64_t fill = __atomic_load_n(at + 1, __ATOMIC_ACQUIRE), commit = __atomic_load_n(at + 5, __ATOMIC_ACQUIRE);
        *begun = fill > *begun ? fill : *begun;
        if (commit && fill > *newest && __atomic_load_n(at + 1, __ATOMIC_ACQUIRE) == fill)
            *newest = fill;
    }
}

// The pages' fills are different, neighbours meet, others don't overlap.
static inline bool are_in_order(const struct found *found)
{
    for (size_t at = 1; at < found->count; at++) {
        const struct found_page *page = &found->pages[at], *before = page - 1;
        if (page->fill == before->fill)
            return fault("two pages have one fill", page->fill, page->first);
        if (page->fill == before->fill + 1 ? page->first != before->end : page->first < before->end)
            return fault("a page begins elsewhere than the one before ends", page->first, before->end);
    }
    return true;
}

static inline bool has_fill(const struct found *found, uint64_t fill)
{
    for (size_t at = 0; at < found->count; at++)
        if (found->pages[at].fill == fill)
            return true;
    return false;
}

// All fills from the oldest one that can't have been overwritten up to the newest one are there, but for those that the
// reader was given: of these a slot is cleared when the reader gives it back for another one.
static inline bool has_fills(const struct found *found, size_t pages, uint64_t begun, uint64_t newest)
{
    uint64_t oldest = begun + 2 > pages ? begun + 2 - pages : 0;
    oldest = oldest > found->passed ? oldest : found->passed;
    for (uint64_t fill = oldest; fill <= newest; fill++)
        if (!has_fill(found, fill))
            return fault("a page that wasn't overwritten is not there", fill, begun);
    return true;
}

// What a kill left of records of which those below `rest` were complete as nothing was begun, and none has the number
// `begun`. (If the frames that are begun have all pages but one, they may have overwritten all that was complete.)
static inline bool has_records(const struct found *found, size_t pages, uint64_t rest, uint64_t begun)
{
    uint64_t newest = found->count ? found->pages[found->count - 1].fill : 0;
    bool is_overwritten = begun > rest && (!found->count || newest + pages < found->begun + 2);
    if ((found->end < rest && found->taken < rest && !is_overwritten) || found->end > begun)
        return fault("the newest record is another one", found->end, rest);
    return !found->count || has_fills(found, pages, found->begun, newest);
}

// What the collector lists: each record's bytes are those of its source and id, moments don't fall, and of each source
// the ids rise by one from number to number; if numbers are left out, they rise.
static inline bool lists_records(struct tracering_collector *c, size_t size, uint64_t *records)
{
    unsigned char bytes[LONGEST + 8], wanted[LONGEST + 8];
    struct tracering_line line = {0, 0, 0, 0};
    uint64_t next[SOURCES] = {0}, number = 0, moment = 0;
    bool is_known[SOURCES] = {false};
    if (tracering_collector_list(c, &(size_t){0}) != TRACERING_DONE)
        return fault("there is no memory", 0, 0);
    for (*records = 0; tracering_collector_next(c, bytes, sizeof bytes, &line) == TRACERING_DONE; ++*records) {
        struct record_head head;
        memcpy(&head, bytes, sizeof head);
        memset(wanted, 0, sizeof wanted);
        if (line.len < sizeof head || head.source >= SOURCES)
            return fault("a record is nobody's", line.number, head.source);
        size_t len = make_record(head.source, head.id, size, wanted);
        if (line.len != ((len + 3) & ~(size_t)3) || memcmp(bytes, wanted, line.len))
            return fault("a record is torn", line.number, head.id);
        if (*records && (line.number <= number || line.moment < moment))
            return fault("a record is at another place", line.number, number);
        if (*records && line.number != number + 1)
            memset(is_known, 0, sizeof is_known);
        if (is_known[head.source] ? head.id != next[head.source] : head.id < next[head.source])
            return fault("a record has another number", head.id, next[head.source]);
        next[head.source] = head.id + 1ull;
        is_known[head.source] = true;
        number = line.number;
        moment = line.moment;
    }
    return true;
}

#endif
