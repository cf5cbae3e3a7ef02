// A plain ring with the exports of the library, for the tools that try regions: a slot's words are stored in the
// order that docs/formats/pages.md, "Regions", states. It is linked before the library, whose collectors are used.
// Compiled with PLANT_COMMIT_STAYS it leaves the commit of a page that it begins again as it was, and with
// PLANT_COMMIT_EARLY it commits a record before its bytes.
//
// A call holds the ring's lock, so handlers that interrupt it are refused by the handle's mark; `take` tries the lock.
#include "../../c/region/heap.h"
#include "tracering.h"

#include <stdlib.h>
#include <string.h>

enum { CPU, FILL, FIRST, MISSED, TIME, COMMIT, FRAMES = 4 };

// A page's body: the slot's words, and the data.
struct page {
    uint64_t *slot;
    uint64_t fill, first, count;
    size_t len;
};

enum state { BEGUN, RESERVED, ENDED, CLOSE };

struct frame {
    enum state state;
    uint64_t moment;
    size_t len;
    unsigned char *at; // where its slot's payload goes
};

struct ring {
    bool lock, has_wish;
    int ends;
    uint32_t cpu;
    size_t pages, size;
    struct page *page_of;     // page f % pages is that of fill f
    struct page spare;        // the reader's
    uint64_t fill;            // the page that is written
    uint64_t committed;       // the first fill that is written since nothing was begun
    uint64_t head, expected;  // the oldest unread fill, and the number that follows what was taken
    uint64_t last, number, depth;
    struct frame frames[FRAMES];
};

static bool try_lock(struct ring *ring)
{
    return !__atomic_test_and_set(&ring->lock, __ATOMIC_ACQUIRE);
}

static struct ring *lock(struct tracering_held *held)
{
    struct ring *ring = held->at;
    while (!try_lock(ring)) {
    }
    return ring;
}

static int32_t unlock(struct ring *ring, int32_t code)
{
    __atomic_clear(&ring->lock, __ATOMIC_RELEASE);
    return code;
}

static struct page *tail(struct ring *ring)
{
    return &ring->page_of[ring->fill % ring->pages];
}

static unsigned char *data_of(const struct page *page)
{
    return (unsigned char *)page->slot + TRACERING_HEADER;
}

// A store that comes after all stores before it, and before all after it.
static void store(uint64_t *at, uint64_t value)
{
    __atomic_store_n(at, value, __ATOMIC_RELEASE);
    __atomic_signal_fence(__ATOMIC_SEQ_CST);
}

static void begin_fill(struct ring *ring, uint64_t fill)
{
    ring->fill = fill;
    struct page *page = tail(ring);
#ifndef PLANT_COMMIT_STAYS
    store(page->slot + COMMIT, 0);
#endif
    store(page->slot + FILL, fill);
    store(page->slot + FIRST, ring->number);
    page->fill = fill;
    page->first = ring->number;
    page->count = page->len = 0;
}

static bool is_crowded(const struct ring *ring)
{
    return ring->depth && ring->fill + 1 - ring->committed >= ring->pages;
}

static void turn(struct ring *ring)
{
    if (ring->fill + 1 >= ring->head + ring->pages)
        ring->head = ring->fill + 2 - ring->pages;
    begin_fill(ring, ring->fill + 1);
}

// All that was written since nothing was begun.
static void commit(struct ring *ring)
{
    for (; ring->committed < ring->fill; ring->committed++) {
        struct page *page = &ring->page_of[ring->committed % ring->pages];
        store(page->slot + COMMIT, page->len);
    }
    store(tail(ring)->slot + COMMIT, tail(ring)->len);
}

static void at_rest(struct ring *ring)
{
    if (ring->depth)
        return;
    commit(ring);
    if (ring->has_wish && tail(ring)->count) {
        ring->has_wish = false;
        turn(ring);
        ring->committed = ring->fill;
    }
}

static void put_32(unsigned char *at, uint64_t value)
{
    uint32_t word = (uint32_t)value;
    memcpy(at, &word, sizeof word);
}

static size_t slot_len(size_t len)
{
    return len ? (len + 3) & ~(size_t)3 : 4;
}

// Where the payload of a new record goes; null if there is no page for it. Its words and zeros are written.
static unsigned char *reserve(struct ring *ring, uint64_t moment, size_t len)
{
    struct page *page = tail(ring);
    size_t slot = slot_len(len), before = slot > 112 ? 8 : 4;
    moment = moment < ring->last ? ring->last : moment;
    uint64_t delta = page->count ? moment - ring->last : 0;
    size_t extend = delta >> 27 ? 8 : 0;
    if (page->len + extend + before + slot > ring->size) {
        if (is_crowded(ring))
            return NULL;
        turn(ring);
        page = tail(ring);
        delta = extend = 0;
    }
    if (!page->count)
        store(page->slot + TIME, moment);
    unsigned char *at = data_of(page) + page->len;
    if (extend) {
        put_32(at, 30 | (delta & ((1u << 27) - 1)) << 5);
        put_32(at + 4, delta >> 27);
        at += 8;
        delta = 0;
    }
    put_32(at, (before == 4 ? slot / 4 : 0) | delta << 5);
    if (before == 8)
        put_32(at + 4, slot + 4);
    memset(at + before, 0, slot);
    page->len += extend + before + slot;
    page->count++;
    ring->last = moment;
    ring->number++;
#ifdef PLANT_COMMIT_EARLY
    if (!ring->depth)
        commit(ring);
#endif
    return at + before;
}

static bool is_too_long(const struct ring *ring, size_t len)
{
    return len > ring->size - 8 || slot_len(len) + (slot_len(len) > 112 ? 8 : 4) > ring->size;
}

static bool new_page(struct ring *ring, struct page *page)
{
    size_t len = TRACERING_HEADER + ring->size;
    struct given given = tracering_heap_alloc(len, 1);
    if (!given.is_given)
        return false;
    memset(given.at, 0, len);
    *page = (struct page){given.at, 0, 0, 0, 0};
    return true;
}

int32_t tracering_raw_new(struct tracering_held *w, struct tracering_held *r, uint32_t cpu, size_t pages, size_t size)
{
    struct ring *ring = calloc(1, sizeof *ring);
    struct page *page_of = calloc(pages, sizeof *page_of);
    if (!ring || !page_of)
        abort();
    *ring = (struct ring){.ends = 2, .cpu = cpu, .pages = pages, .size = size, .page_of = page_of};
    bool is_made = new_page(ring, &ring->spare);
    for (size_t k = 0; k < pages; k++)
        is_made = new_page(ring, &page_of[k]) && is_made;
    if (!is_made)
        abort();
    begin_fill(ring, 0);
    w->at = r->at = ring;
    w->live = r->live = true;
    return TRACERING_DONE;
}

int32_t tracering_raw_write(struct tracering_held *w, uint64_t moment, struct tracering_payload payload)
{
    struct ring *ring = lock(w);
    if (ring->depth == FRAMES)
        return unlock(ring, TRACERING_TOO_DEEP);
    if (is_too_long(ring, payload.len))
        return unlock(ring, TRACERING_TOO_LONG);
    unsigned char *at = reserve(ring, moment, payload.len);
    if (!at)
        return unlock(ring, TRACERING_CROWDED);
    memcpy(at, payload.bytes, payload.len);
    at_rest(ring);
    return unlock(ring, TRACERING_DONE);
}

int32_t tracering_raw_begin(struct tracering_held *w, uint64_t moment, size_t len)
{
    struct ring *ring = lock(w);
    if (ring->depth == FRAMES)
        return unlock(ring, TRACERING_TOO_DEEP);
    if (is_too_long(ring, len))
        return unlock(ring, TRACERING_TOO_LONG);
    ring->frames[ring->depth++] = (struct frame){BEGUN, moment, len, NULL};
    return unlock(ring, TRACERING_DONE);
}

int32_t tracering_raw_begin_close(struct tracering_held *w)
{
    struct ring *ring = lock(w);
    if (ring->depth == FRAMES)
        return unlock(ring, TRACERING_TOO_DEEP);
    ring->frames[ring->depth++] = (struct frame){.state = CLOSE};
    return unlock(ring, TRACERING_DONE);
}

static int32_t pop(struct ring *ring, int32_t code)
{
    ring->depth--;
    at_rest(ring);
    return code;
}

static int32_t close_tail(struct ring *ring)
{
    if (!tail(ring)->count)
        return TRACERING_NOTHING_CLOSED;
    // (A close that is the only frame finds all committed.)
    if (ring->depth == 1)
        commit(ring);
    else if (is_crowded(ring))
        return TRACERING_CROWDED;
    turn(ring);
    if (ring->depth == 1)
        ring->committed = ring->fill;
    return TRACERING_DONE;
}

int32_t tracering_raw_finish(struct tracering_held *w)
{
    struct ring *ring = lock(w);
    if (!ring->depth)
        return unlock(ring, TRACERING_NO_FRAME);
    struct frame *top = &ring->frames[ring->depth - 1];
    if (top->state == CLOSE)
        return unlock(ring, pop(ring, close_tail(ring)));
    if (top->state == ENDED)
        return unlock(ring, pop(ring, TRACERING_DONE));
    if (top->state == BEGUN && !(top->at = reserve(ring, top->moment, top->len)))
        return unlock(ring, pop(ring, TRACERING_CROWDED));
    top->state = RESERVED;
    return unlock(ring, TRACERING_RESERVED);
}

int32_t tracering_raw_put(struct tracering_held *w, const uint8_t *bytes, size_t len)
{
    struct ring *ring = lock(w);
    if (!ring->depth || ring->frames[ring->depth - 1].state != RESERVED)
        return unlock(ring, ring->depth ? TRACERING_NOT_RESERVED : TRACERING_NO_FRAME);
    struct frame *top = &ring->frames[ring->depth - 1];
    if (len > slot_len(top->len))
        return unlock(ring, TRACERING_TOO_LONG);
    memcpy(top->at, bytes, len);
    return unlock(ring, TRACERING_DONE);
}

int32_t tracering_raw_end(struct tracering_held *w)
{
    struct ring *ring = lock(w);
    if (!ring->depth || ring->frames[ring->depth - 1].state != RESERVED)
        return unlock(ring, ring->depth ? TRACERING_NOT_RESERVED : TRACERING_NO_FRAME);
    ring->frames[ring->depth - 1].state = ENDED;
    if (ring->depth > 1)
        ring->depth--;
    return unlock(ring, TRACERING_DONE);
}

size_t tracering_raw_depth(struct tracering_held *w)
{
    struct ring *ring = lock(w);
    size_t depth = ring->depth;
    unlock(ring, 0);
    return depth;
}

// The parcel of a page, before whose first record `missed` are missing.
static void give(const struct ring *ring, const struct page *page, uint8_t *out, struct tracering_taken *taken)
{
    uint64_t missed = page->first - ring->expected, commit = page->len;
    size_t len = TRACERING_HEADER + page->len;
    memset(out, 0, TRACERING_HEADER + ring->size);
    memcpy(out, page->slot, len);
    if (missed && page->len + 8 <= ring->size) {
        memcpy(out + len, &missed, 8);
        len += 8;
        commit |= 1u << 30;
    }
    commit |= missed ? 1ull << 31 : 0;
    uint64_t cpu = ring->cpu;
    memcpy(out, &cpu, 8);
    memcpy(out + 8 * MISSED, &missed, 8);
    memcpy(out + 8 * COMMIT, &commit, 8);
    *taken = (struct tracering_taken){page->fill, page->first, missed, page->count, len};
}

int32_t tracering_raw_take(struct tracering_held *r, uint8_t *out, size_t room, struct tracering_taken *taken)
{
    struct ring *ring = r->at;
    if (room < TRACERING_HEADER + ring->size)
        return TRACERING_NO_ROOM;
    if (!try_lock(ring))
        return TRACERING_MOVING;
    if (ring->head >= (ring->depth ? ring->committed : ring->fill))
        return unlock(ring, TRACERING_EMPTY);
    struct page *place = &ring->page_of[ring->head % ring->pages], page = *place;
    *place = ring->spare;
    ring->spare = page;
    ring->head++;
    give(ring, &page, out, taken);
    ring->expected = page.first + page.count;
    return unlock(ring, TRACERING_DONE);
}

int32_t tracering_raw_wish(struct tracering_held *r)
{
    struct ring *ring = lock(r);
    ring->has_wish = true;
    return unlock(ring, TRACERING_DONE);
}

static void release(struct ring *ring)
{
    if (__atomic_sub_fetch(&ring->ends, 1, __ATOMIC_ACQ_REL))
        return;
    for (size_t k = 0; k < ring->pages; k++)
        tracering_heap_dealloc(ring->page_of[k].slot, TRACERING_HEADER + ring->size, 1);
    tracering_heap_dealloc(ring->spare.slot, TRACERING_HEADER + ring->size, 1);
    free(ring->page_of);
    free(ring);
}

int32_t tracering_raw_writer_free(struct tracering_held *w, uint64_t *lost)
{
    if (!w->live)
        return TRACERING_ABSENT;
    *lost = 0;
    release(w->at);
    *w = (struct tracering_held){NULL, false};
    return TRACERING_DONE;
}

int32_t tracering_raw_reader_free(struct tracering_held *r)
{
    if (!r->live)
        return TRACERING_ABSENT;
    release(r->at);
    *r = (struct tracering_held){NULL, false};
    return TRACERING_DONE;
}
