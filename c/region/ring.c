// A ring whose pages are in a region. No copy is kept there: a mirror that each call brings up to date misses a page
// that is closed and taken, by a wish, within one call (660 gaps in 500 kills).
#include "heap.h"
#include "layout.h"
#include "order.h"

#include <string.h>

size_t tracering_region_size(size_t pages, size_t size)
{
    return has_limits(pages, size) ? slot_offset(size, pages + 1) : 0;
}

// What is wrong with what was given, in the order in which it is answered.
static int32_t refusal_of(const struct tracering_held *w, const struct tracering_held *r, uint32_t cpu, size_t needed,
    const void *region, size_t len)
{
    if (w->live || r->live)
        return TRACERING_IN_USE;
    if (cpu >= MAX_CPUS)
        return TRACERING_BAD_CPU;
    if (!needed)
        return TRACERING_BAD_SIZE;
    return len < needed || !is_aligned(region) ? TRACERING_BAD_REGION : TRACERING_DONE;
}

// The region's own words, the first one last: who loads that sees all that is stored here.
static void store_header(uint64_t *header, uint32_t cpu, size_t pages, size_t size, uint64_t stream)
{
    memset(header + 1, 0, TRACERING_REGION_HEADER - sizeof *header);
    header[VERSION_WORD] = REGION_VERSION;
    header[PAGES_WORD] = pages;
    header[SIZE_WORD] = size;
    header[CPU_WORD] = cpu;
    header[STREAM_WORD] = stream;
    header[ORDERED_WORD] = tracering_order_offer();
    for (size_t slot = 0; slot <= pages; slot++)
        *(uint64_t *)((unsigned char *)header + slot_offset(size, slot)) = cpu;
    __atomic_store_n(&header[MAGIC_WORD], REGION_MAGIC, __ATOMIC_RELEASE);
}

// The ring, of which each body has to be a slot.
static int32_t make(struct tracering_held *w, struct tracering_held *r, uint32_t cpu, size_t pages, size_t size,
    struct filling *filling)
{
    int32_t code = tracering_raw_new(w, r, cpu, pages, size);
    if (code != TRACERING_DONE || !filling->left)
        return code;
    // (Only if the library was linked without its calls of memory.)
    uint64_t lost;
    (void)tracering_raw_writer_free(w, &lost);
    (void)tracering_raw_reader_free(r);
    return TRACERING_BAD_REGION;
}

int32_t tracering_raw_new_in(struct tracering_held *w, struct tracering_held *r, uint32_t cpu, size_t pages,
    size_t size, uint64_t stream, void *region, size_t len)
{
    size_t needed = tracering_region_size(pages, size);
    int32_t code = refusal_of(w, r, cpu, needed, region, len);
    if (code != TRACERING_DONE)
        return code;
    struct filling filling = {(unsigned char *)region + TRACERING_REGION_HEADER, stride_of(size),
        TRACERING_HEADER + size, pages + 1, NULL};
    int begun = tracering_heap_begin(&filling, region, needed);
    if (begun <= 0)
        return begun ? TRACERING_BAD_REGION : TRACERING_NO_MEMORY;
    uint64_t *header = region;
    // (Before all that follows: whoever copies the former ring, and orders its loads, sees by it that there is another
    // one.)
    __atomic_store_n(&header[MAGIC_WORD], 0, __ATOMIC_RELEASE);
    __atomic_signal_fence(__ATOMIC_SEQ_CST);
    code = make(w, r, cpu, pages, size, &filling);
    if (code == TRACERING_DONE)
        store_header(header, cpu, pages, size, stream);
    tracering_heap_end(&filling);
    return code;
}
