// Refuses each growth of memory of a collector's calls in turn, and those of a new ring. The call answers NO_MEMORY,
// nothing has changed, and the same call made once more does what it does otherwise. No block is left once all is
// freed; a list that was given room before the refusal keeps it until then. It is linked with
// -Wl,--wrap=malloc -Wl,--wrap=realloc -Wl,--wrap=free.
#include "tracering.h"

#include <stdio.h>
#include <stdlib.h>
#include <string.h>

enum { LEN = TRACERING_HEADER + 8, PARCELS = 40, SIZE = 64, PAGES = 40, LISTED = 10 };

// How many growths are granted before one is refused, and how many blocks there are.
static long granted = -1, blocks;

void *__real_malloc(size_t size);
void *__real_realloc(void *block, size_t size);
void __real_free(void *block);
void *__wrap_malloc(size_t size);
void *__wrap_realloc(void *block, size_t size);
void __wrap_free(void *block);

static bool is_refused(void)
{
    return granted >= 0 && granted-- == 0;
}

void *__wrap_malloc(size_t size)
{
    void *block = is_refused() ? NULL : __real_malloc(size);
    blocks += block != NULL;
    return block;
}

void *__wrap_realloc(void *block, size_t size)
{
    void *grown = is_refused() ? NULL : __real_realloc(block, size);
    blocks += !block && grown;
    return grown;
}

void __wrap_free(void *block)
{
    blocks -= block != NULL;
    __real_free(block);
}

// The parcel of one record of 4 bytes, whose moment is the earlier, the higher its number.
static void make_parcel(uint8_t *out, uint64_t cpu, uint64_t first, uint64_t missed)
{
    uint64_t numbers[6] = {cpu, 0, first, missed, 1000 - first, 8 | (missed ? 1ull << 31 : 0)};
    for (size_t at = 0; at < TRACERING_HEADER; at++)
        out[at] = (uint8_t)(numbers[at / 8] >> at % 8 * 8);
    memcpy(out + TRACERING_HEADER, "\1\0\0\0abcd", 8);
}

// What a collector has: how many runs of numbers CPU 0 misses, and the line of its listing that is next.
struct state {
    size_t runs;
    int32_t code;
    struct tracering_line line;
};

static struct state state_of(struct tracering_collector *c)
{
    struct state state = {0};
    (void)tracering_collector_missing(c, 0, NULL, 0, &state.runs);
    state.code = tracering_collector_next(c, NULL, 0, &state.line);
    return state;
}

static bool is_same(const struct state *left, const struct state *right)
{
    return left->runs == right->runs && left->code == right->code && left->line.moment == right->line.moment
        && left->line.number == right->line.number && left->line.cpu == right->line.cpu;
}

static int32_t call(struct tracering_collector *c, const uint8_t *parcel)
{
    struct tracering_fault_at at;
    size_t count;
    return parcel ? tracering_collector_add(c, parcel, LEN, &at) : tracering_collector_list(c, &count);
}

// Refuses the call's growths in turn, beside a collector that is to stay the same. How many there were.
static long refuse(struct tracering_collector *c, struct tracering_collector *other, const uint8_t *parcel, int *bad)
{
    for (long refused = 0;; refused++) {
        struct state before = state_of(c);
        granted = refused;
        int32_t code = call(c, parcel);
        long left = granted;
        granted = -1;
        if (left >= 0) {
            *bad += code != TRACERING_DONE;
            return refused;
        }
        struct state after = state_of(c);
        *bad += code != TRACERING_NO_MEMORY || !is_same(&before, &after);
        *bad += tracering_collector_same(c, other) != TRACERING_DONE;
    }
}

static long refuse_collectors(int *bad)
{
    struct tracering_collector c = {0}, other = {0};
    struct tracering_fault_at at;
    uint8_t parcel[LEN];
    long growths = 2;
    granted = 0;
    *bad += tracering_collector_new(&c) != TRACERING_NO_MEMORY || c.held.at || c.held.live || blocks;
    granted = -1;
    *bad += tracering_collector_new(&c) != TRACERING_DONE || tracering_collector_new(&other) != TRACERING_DONE;
    for (uint64_t k = 1; k <= PARCELS; k++) {
        make_parcel(parcel, k % 3 == 0, 4 * k, k % 2);
        growths += refuse(&c, &other, parcel, bad);
        *bad += tracering_collector_add(&other, parcel, LEN, &at) != TRACERING_DONE;
        // A listing takes as many blocks of however many records.
        long listed = k % 8 ? 0 : refuse(&c, &other, NULL, bad);
        *bad += listed > LISTED;
        growths += listed;
    }
    *bad += tracering_collector_free(&c) != TRACERING_DONE || tracering_collector_free(&other) != TRACERING_DONE;
    return growths;
}

// One record and a close more, `pages` times: the ring of two keeps the last closed page.
static int write_pages(struct tracering_writer *w, uint64_t pages)
{
    int bad = 0;
    for (uint64_t page = 0; page < pages; page++) {
        bad += tracering_write(w, 1000 - page, "abcd", 4) != TRACERING_DONE;
        bad += tracering_begin_close(w) != TRACERING_DONE || tracering_finish(w) != TRACERING_DONE;
    }
    return bad;
}

// Refuses the growths in turn as the collector takes the next page, which stays with the reader until it is added.
static long refuse_take(struct tracering_collector *c, struct tracering_reader *r, struct tracering_collector *other,
    int *bad)
{
    for (long refused = 0;; refused++) {
        struct tracering_taken taken = {7000, 0, 0, 0, 0};
        struct tracering_fault_at at = {7, 7};
        struct state before = state_of(c);
        granted = refused;
        int32_t code = tracering_collector_take(c, r, &taken, &at);
        long left = granted;
        granted = -1;
        *bad += at.number != 7 || at.cpu != 7;
        if (left >= 0) {
            *bad += code != TRACERING_DONE || taken.count != 1;
            return refused;
        }
        struct state after = state_of(c);
        *bad += code != TRACERING_NO_MEMORY || taken.fill != 7000 || !is_same(&before, &after);
        *bad += tracering_collector_same(c, other) != TRACERING_DONE;
    }
}

// Two rings get the same records: one's pages are taken as memory is refused, the other's as bytes that are added.
static long refuse_takes(int *bad)
{
    struct tracering_collector c = {0}, other = {0};
    struct tracering_writer w = {0}, twin = {0};
    struct tracering_reader r = {0}, twin_r = {0};
    struct tracering_taken taken;
    struct tracering_fault_at at;
    uint8_t out[TRACERING_HEADER + SIZE];
    long growths = 0;
    *bad += tracering_collector_new(&c) != TRACERING_DONE || tracering_collector_new(&other) != TRACERING_DONE;
    *bad += tracering_new(&w, &r, 0, 2, SIZE) != TRACERING_DONE;
    *bad += tracering_new(&twin, &twin_r, 0, 2, SIZE) != TRACERING_DONE;
    for (uint64_t page = 0; page < PAGES; page++) {
        *bad += write_pages(&w, 1 + page % 3) + write_pages(&twin, 1 + page % 3);
        growths += refuse_take(&c, &r, &other, bad);
        *bad += tracering_collector_take(&c, &r, &taken, &at) != TRACERING_EMPTY;
        *bad += tracering_take(&twin_r, out, sizeof out, &taken) != TRACERING_DONE;
        *bad += tracering_collector_add(&other, out, taken.len, &at) != TRACERING_DONE;
        *bad += tracering_collector_same(&c, &other) != TRACERING_DONE;
    }
    *bad += tracering_writer_free(&w, NULL) || tracering_reader_free(&r);
    *bad += tracering_writer_free(&twin, NULL) || tracering_reader_free(&twin_r);
    *bad += tracering_collector_free(&c) != TRACERING_DONE || tracering_collector_free(&other) != TRACERING_DONE;
    return growths;
}

static long refuse_ring(int *bad)
{
    for (long refused = 0;; refused++) {
        struct tracering_writer w = {0};
        struct tracering_reader r = {0};
        granted = refused;
        int32_t code = tracering_new(&w, &r, 0, 4, 64);
        long left = granted;
        granted = -1;
        if (left >= 0) {
            *bad += code != TRACERING_DONE || tracering_writer_free(&w, NULL) || tracering_reader_free(&r);
            return refused;
        }
        *bad += code != TRACERING_NO_MEMORY || w.held.at || w.held.live || r.held.at || r.held.live || blocks;
    }
}

int main(void)
{
    int bad = 0;
    long growths = refuse_ring(&bad) + refuse_collectors(&bad), taken = refuse_takes(&bad);
    growths = taken < 80 ? 0 : growths + taken;
    if (bad || blocks || growths < 100)
        fprintf(stderr, "growths %ld, faults %d, blocks left %ld\n", growths, bad, blocks);
    return bad || blocks || growths < 100;
}
