// The regions of a flight file's rings.
#include "../../region/layout.h"
#include "file.h"

#include <stdlib.h>

enum { WORD = 8 };

// A page that its slot states, as far as it isn't damaged.
struct page {
    uint64_t fill, first, end; // end: the number after its last record
    size_t offset;             // in the file
    struct bytes parcel;
};

// Where in a slot what is at fault is.
static size_t offset_of_fault(int32_t code, const struct tracering_fault_at *at)
{
    switch (code) {
    case TRACERING_BAD_IMAGE_SIZE: return SLOT_COMMIT * WORD;
    case TRACERING_MISSED_DIFFERS: return 3 * WORD;
    case TRACERING_NUMBER_OVERFLOW: return SLOT_FIRST * WORD;
    case TRACERING_CUT:
    case TRACERING_BAD_LENGTH:
    case TRACERING_TIME_OVERFLOW: return TRACERING_HEADER + (size_t)at->number;
    default: return 0;
    }
}

static void add_damaged_page(struct dump *dump, struct ring *ring, const char *why, size_t offset)
{
    ring->is_damaged = true;
    add_damage(dump, ring, "a page", why, offset);
}

static int compare_pages(const void *one, const void *other)
{
    const struct page *a = one, *b = other;
    if (a->fill != b->fill)
        return a->fill < b->fill ? -1 : 1;
    return a->offset < b->offset ? -1 : a->offset > b->offset;
}

// The pages of a region that have records, by their fills. How many there are.
static size_t find_pages(struct dump *dump, struct ring *ring, struct bytes region, size_t offset, struct page *pages)
{
    size_t count = 0;
    int32_t code = TRACERING_DONE;
    struct tracering_fault_at nowhere = {0, 0};
    struct tracering_region about;
    if (tracering_region_about(region.at, region.len, &about) != TRACERING_DONE)
        return 0;
    size_t stride = (about.len - TRACERING_REGION_HEADER) / (about.pages + 1);
    for (size_t slot = 0; code != TRACERING_END; slot++) {
        const void *at;
        size_t len, begin = offset + TRACERING_REGION_HEADER + slot * stride;
        code = tracering_region_slot(region.at, region.len, slot, &at, &len);
        if (code == TRACERING_DONE) {
            struct bytes parcel = {at, len};
            pages[count++] = (struct page){number64_at(parcel.at + SLOT_FILL * WORD),
                number64_at(parcel.at + SLOT_FIRST * WORD), 0, begin, parcel};
        } else if (code != TRACERING_END && code != TRACERING_EMPTY) {
            add_damaged_page(dump, ring, tracering_text(code), begin + offset_of_fault(code, &nowhere));
        }
    }
    qsort(pages, count, sizeof *pages, compare_pages);
    return count;
}

// Adds a page that comes after `before`, if there is one, and answers whether it isn't damaged.
static bool add_page(struct dump *dump, struct ring *ring, struct page *page, const struct page *before)
{
    struct tracering_fault_at at = {0, 0};
    if (before && (page->fill == before->fill || page->first < before->end)) {
        size_t word = page->fill == before->fill ? SLOT_FILL : SLOT_FIRST;
        add_damaged_page(dump, ring, "it overlaps the page before it", page->offset + word * WORD);
        return false;
    }
    int32_t code = dump_add_page(dump, ring, page->parcel, &at);
    if (code > TRACERING_DONE) {
        add_damaged_page(dump, ring, tracering_text(code), page->offset + offset_of_fault(code, &at));
        return false;
    }
    return tracering_region_end(page->parcel.at, &page->end);
}

// Adds the pages, by their fills.
static void add_pages(struct dump *dump, struct ring *ring, struct page *pages, size_t count)
{
    struct page *before = NULL;
    for (size_t k = 0; k < count; k++) {
        if (!add_page(dump, ring, &pages[k], before))
            continue;
        before = &pages[k];
        ring->written = before->end;
    }
}

// Where a region's header isn't as the file's says, or -1. (No recorder takes a page.)
static int find_difference(struct bytes region, const struct file_header *header, const struct ring *ring)
{
    const uint64_t wanted[] = {REGION_MAGIC, REGION_VERSION, ring->level ? FILE_LATER_PAGES : header->pages,
        header->size, ring->number % CPUS};
    for (int word = 0; word <= CPU_WORD; word++)
        if (number64_at(region.at + word * WORD) != wanted[word])
            return word * WORD;
    if (number64_at(region.at + TAKEN_WORD * WORD))
        return TAKEN_WORD * WORD;
    return number64_at(region.at + ENDED_WORD * WORD) > 1 ? ENDED_WORD * WORD : -1;
}

void read_region(struct dump *dump, struct ring *ring, const struct file_header *header, struct bytes file)
{
    size_t offset = region_offset(header, ring->slot, ring->level);
    struct bytes region = {file.at + offset, ring_room(header->pages, header->size, ring->level)};
    int difference = find_difference(region, header, ring);
    if (difference >= 0) {
        ring->is_damaged = true;
        add_damage(dump, ring, "its region", "it isn't what the file's header says", offset + (size_t)difference);
        return;
    }
    struct page *pages = allocate(header->pages + FILE_LATER_PAGES + 1, sizeof *pages);
    size_t count = find_pages(dump, ring, region, offset, pages);
    add_pages(dump, ring, pages, count);
    free(pages);
}
