// A running ring of this repository's protocol in plain C, as fast as we could write it: one writer of whole records,
// which no other interrupts, and one reader in another thread. It numbers as the library does, and tests a record's
// length and moment.
#include <stdatomic.h>
#include <stdbool.h>
#include <stdint.h>
#include <string.h>

enum { PAGES = 64, SIZE = 4080, MOST_FRAMES = 4 };
enum { NORMAL, HEADER, UPDATE };

struct page {
    uint64_t time, first, count, fill, len;
    uint8_t data[SIZE];
};

struct ring {
    // A link of each place: which page is there, and whether the head is.
    _Atomic uint64_t links[PAGES];
    _Atomic uint64_t closed, wish;
    struct page pages[PAGES + 1];
    // The writer's own.
    struct page *tail;
    uint64_t last, fill, depth;
    // The reader's own.
    uint64_t head, spare;
};

static uint64_t link_to(uint64_t page, uint64_t kind)
{
    return page << 2 | kind;
}

static void start(struct ring *ring)
{
    for (uint64_t place = 0; place < PAGES; place++)
        ring->links[place] = link_to(place, place ? NORMAL : HEADER);
    ring->tail = ring->pages;
    ring->spare = PAGES;
}

// The writer begins the next page. In a full ring the head is moved on first, unless the reader does that itself.
static __attribute__((noinline)) void turn(struct ring *ring)
{
    uint64_t place = (ring->fill + 1) % PAGES, after = (ring->fill + 2) % PAGES;
    uint64_t page = ring->links[place] >> 2, head = link_to(page, HEADER);
    atomic_store(&ring->closed, ring->fill + 1);
    if (atomic_compare_exchange_strong(&ring->links[place], &head, link_to(page, UPDATE))) {
        uint64_t next = link_to(ring->links[after] >> 2, NORMAL);
        atomic_compare_exchange_strong(&ring->links[after], &next, next | HEADER);
        atomic_store(&ring->links[place], link_to(page, NORMAL));
    }
    struct page *tail = &ring->pages[ring->links[place] >> 2];
    tail->first = ring->tail->first + ring->tail->count;
    tail->count = tail->len = tail->time = 0;
    tail->fill = ++ring->fill;
    ring->tail = tail;
}

static __attribute__((noinline)) int write_any(struct ring *ring, uint64_t moment, const uint8_t *payload, size_t len)
{
    if (len > SIZE - 8)
        return 2;
    if (moment >> 59)
        return 3;
    if (ring->depth == MOST_FRAMES)
        return 1;
    struct page *tail = ring->tail;
    size_t slot = len ? (len + 3) & ~(size_t)3 : 4, before = slot <= 112 ? 4 : 8;
    if (moment < ring->last)
        moment = ring->last;
    uint64_t delta = tail->count ? moment - ring->last : 0;
    size_t extend = delta >> 27 ? 8 : 0;
    if (SIZE - tail->len < extend + before + slot) {
        turn(ring);
        tail = ring->tail;
        delta = extend = 0;
    }
    if (!tail->count)
        tail->time = moment;
    uint8_t *at = tail->data + tail->len;
    uint32_t word;
    if (extend) {
        word = 30 | (uint32_t)(delta % (1 << 27)) << 5;
        memcpy(at, &word, 4);
        word = (uint32_t)(delta >> 27);
        memcpy(at + 4, &word, 4);
        at += 8;
        delta = 0;
    }
    word = (before == 4 ? slot / 4 : 0) | (uint32_t)delta << 5;
    memcpy(at, &word, 4);
    if (before == 8) {
        word = slot + 4;
        memcpy(at + 4, &word, 4);
    }
    word = 0;
    memcpy(at + before + slot - 4, &word, 4);
    memcpy(at + before, payload, len);
    tail->len += extend + before + slot;
    tail->count++;
    ring->last = moment;
    if (!ring->depth && atomic_load(&ring->wish) == ring->fill + 1)
        turn(ring);
    return 0;
}

// Most records are short, and fit the page without a time of their own.
static int write_record(struct ring *ring, uint64_t moment, const uint8_t *payload, size_t len)
{
    struct page *tail = ring->tail;
    size_t slot = (len + 3) & ~(size_t)3, end = tail->len + 4 + slot;
    uint64_t delta = moment - ring->last;
    if (len - 1 >= 112 || delta >> 27 || moment >> 59 || end > SIZE || !tail->count || ring->depth)
        return write_any(ring, moment, payload, len);
    uint8_t *at = tail->data + tail->len;
    uint32_t word = 0;
    memcpy(at + slot, &word, 4);
    word = slot / 4 | (uint32_t)delta << 5;
    memcpy(at, &word, 4);
    memcpy(at + 4, payload, len);
    tail->len = end;
    tail->count++;
    ring->last = moment;
    if (atomic_load(&ring->wish) == ring->fill + 1)
        turn(ring);
    return 0;
}

// The reader takes the page at the head, if it is closed: the spare page goes to its place.
static struct page *take(struct ring *ring)
{
    for (uint64_t closed = atomic_load(&ring->closed);;) {
        if (closed > PAGES && ring->head < closed - PAGES)
            ring->head = closed - PAGES;
        if (ring->head >= closed)
            return NULL;
        uint64_t place = ring->head % PAGES, after = (ring->head + 1) % PAGES;
        uint64_t page = ring->links[place] >> 2, head = link_to(page, HEADER);
        if (atomic_compare_exchange_strong(&ring->links[place], &head, link_to(ring->spare, NORMAL))) {
            uint64_t next = link_to(ring->links[after] >> 2, NORMAL);
            atomic_compare_exchange_strong(&ring->links[after], &next, next | HEADER);
            ring->spare = page;
            ring->head++;
            return &ring->pages[page];
        }
        if (++ring->head >= closed)
            closed = atomic_load(&ring->closed);
    }
}
