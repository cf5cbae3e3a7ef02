// Random programs of calls on a ring, its ends and collectors, beside a plain account of what they have to answer.
//
//     random FIRST COUNT      the programs of COUNT seeds from FIRST on
//
// Prints nothing, and ends with status 0 if each answer is as it has to be; else it says which seed and what.
#include "tracering.h"
#include <stdio.h>
#include <stdlib.h>
#include <string.h>

enum { CALLS = 80, RECORDS = CALLS + 1, MOST_SIZE = 200, FRAMES = 4 };

// A record that was reserved: what a reader has to find.
struct record {
    uint64_t moment;
    size_t slot; // bytes, a multiple of 4
    uint8_t bytes[MOST_SIZE];
};

// A frame that is begun.
struct frame {
    bool is_close, is_reserved, is_ended;
    uint64_t number; // if it is reserved
    uint64_t moment;
    size_t len;
};

// What is known of a ring from the answers of its calls.
struct ring {
    struct tracering_writer w;
    struct tracering_reader r;
    uint32_t cpu;
    size_t pages, size;
    struct record records[RECORDS];
    uint64_t reserved, complete; // numbers that were given, and records that are complete
    uint64_t moment;             // of the last record
    struct frame frames[FRAMES];
    int depth;
    uint64_t next;               // the number after the last one that a take gave or counted
    uint64_t fills;              // the fill after the last one that was taken
    struct tracering_refused refused;
};

static uint64_t state, seed;

#define IS(what) ((what) ? (void)0 : (void)(fprintf(stderr, "random.c:%d: seed %llu: %s\n", __LINE__, \
    (unsigned long long)seed, #what), exit(1)))

static uint64_t below(uint64_t limit)
{
    state ^= state << 13;
    state ^= state >> 7;
    state ^= state << 17;
    return (state >> 11) % limit;
}

static size_t rounded(size_t len)
{
    return len ? (len + 3) / 4 * 4 : 4;
}

// ---- the writer

// Whether a record of this length has room on an empty page: its slot, its word, and another one if it is long.
static bool fits(const struct ring *ring, size_t len)
{
    return len <= MOST_SIZE && rounded(len) + (rounded(len) > 112 ? 8 : 4) <= ring->size;
}

// The push of a record, by its answer.
static int32_t pushed(struct ring *ring, uint64_t moment, size_t len)
{
    return ring->depth == FRAMES ? TRACERING_TOO_DEEP
        : !fits(ring, len)       ? TRACERING_TOO_LONG
        : moment >> 59           ? TRACERING_LATE_MOMENT
                                 : TRACERING_DONE;
}

static void count_lost(struct ring *ring, int32_t code)
{
    ring->refused.too_deep += code == TRACERING_TOO_DEEP;
    ring->refused.too_long += code == TRACERING_TOO_LONG;
    ring->refused.late_moment += code == TRACERING_LATE_MOMENT;
    ring->refused.crowded += code == TRACERING_CROWDED;
}

// Gives the next number to a record.
static uint64_t reserve(struct ring *ring, uint64_t moment, size_t len)
{
    struct record *record = &ring->records[ring->reserved];
    ring->moment = moment > ring->moment ? moment : ring->moment;
    *record = (struct record){.moment = ring->moment, .slot = rounded(len)};
    return ring->reserved++;
}

static uint64_t some_moment(const struct ring *ring)
{
    uint64_t late = UINT64_MAX >> below(7), near = ring->moment + below(9), far = ring->moment + below(1u << 29);
    return below(40) == 0 ? late : below(10) ? near : far;
}

static size_t some_len(const struct ring *ring)
{
    return below(8) ? below(24) : below(ring->size + 8);
}

static void fill(uint8_t *bytes, size_t len)
{
    for (size_t k = 0; k < len; k++)
        bytes[k] = (uint8_t)below(256);
}

static void write_whole(struct ring *ring)
{
    uint8_t payload[MOST_SIZE + 8];
    uint64_t moment = some_moment(ring);
    size_t len = some_len(ring);
    fill(payload, len);
    int32_t code = tracering_write(&ring->w, moment, payload, len), wanted = pushed(ring, moment, len);
    IS(code == wanted || (wanted == TRACERING_DONE && code == TRACERING_CROWDED && ring->depth > 0));
    count_lost(ring, code);
    if (code != TRACERING_DONE)
        return;
    uint64_t number = reserve(ring, moment, len);
    memcpy(ring->records[number].bytes, payload, len);
    ring->complete++;
}

static void begin(struct ring *ring)
{
    uint64_t moment = some_moment(ring);
    size_t len = some_len(ring);
    int32_t code = tracering_begin(&ring->w, moment, len);
    IS(code == pushed(ring, moment, len));
    count_lost(ring, code);
    if (code == TRACERING_DONE)
        ring->frames[ring->depth++] = (struct frame){.moment = moment, .len = len};
}

static void begin_close(struct ring *ring)
{
    int32_t code = tracering_begin_close(&ring->w);
    IS(code == (ring->depth == FRAMES ? TRACERING_TOO_DEEP : TRACERING_DONE));
    if (code == TRACERING_DONE)
        ring->frames[ring->depth++] = (struct frame){.is_close = true};
}

static struct frame *top(struct ring *ring)
{
    return ring->depth ? &ring->frames[ring->depth - 1] : NULL;
}

static void finish(struct ring *ring)
{
    struct frame *frame = top(ring);
    int32_t code = tracering_finish(&ring->w);
    if (!frame) {
        IS(code == TRACERING_NO_FRAME);
        return;
    }
    if (code == TRACERING_CROWDED) {
        IS(!frame->is_reserved && ring->depth > 0);
        if (!frame->is_close)
            count_lost(ring, code);
        ring->depth = tracering_depth(&ring->w);
        if (ring->depth && top(ring) == frame)
            *frame = (struct frame){.is_close = frame->is_close, .is_reserved = true, .is_ended = true};
    } else if (frame->is_close || frame->is_ended) {
        IS(code == TRACERING_DONE || (frame->is_close && code == TRACERING_NOTHING_CLOSED));
        ring->depth--;
    } else {
        IS(code == TRACERING_RESERVED);
        if (!frame->is_reserved)
            frame->number = reserve(ring, frame->moment, frame->len);
        frame->is_reserved = true;
    }
    IS(tracering_depth(&ring->w) == ring->depth);
}

static void put(struct ring *ring)
{
    uint8_t payload[MOST_SIZE + 8];
    struct frame *frame = top(ring);
    bool is_there = frame && !frame->is_close && frame->is_reserved && !frame->is_ended;
    size_t len = is_there ? below(ring->records[frame->number].slot + 3) : below(9);
    fill(payload, len);
    int32_t code = tracering_put(&ring->w, payload, len);
    if (!is_there) {
        IS(code == (frame ? TRACERING_NOT_RESERVED : TRACERING_NO_FRAME));
    } else if (len > ring->records[frame->number].slot) {
        IS(code == TRACERING_TOO_LONG);
    } else {
        IS(code == TRACERING_DONE);
        memcpy(ring->records[frame->number].bytes, payload, len);
    }
}

static void end(struct ring *ring)
{
    struct frame *frame = top(ring);
    bool is_there = frame && !frame->is_close && frame->is_reserved && !frame->is_ended;
    int32_t code = tracering_end(&ring->w);
    IS(code == (is_there ? TRACERING_DONE : frame ? TRACERING_NOT_RESERVED : TRACERING_NO_FRAME));
    if (!is_there)
        return;
    ring->complete++;
    frame->is_ended = true;
    ring->depth = tracering_depth(&ring->w);
}

// ---- the reader

static uint64_t number_at(const uint8_t *at, int bytes)
{
    uint64_t number = 0;
    for (int i = bytes; i-- > 0;)
        number = number << 8 | at[i];
    return number;
}

// The parcel has the records of these numbers.
static void look_at(const struct ring *ring, const uint8_t *parcel, const struct tracering_taken *taken)
{
    uint64_t numbers[] = {ring->cpu, taken->fill, taken->first, taken->missed};
    for (int k = 0; k < 4; k++)
        IS(number_at(parcel + 8 * k, 8) == numbers[k]);
    uint64_t moment = number_at(parcel + 32, 8), commit = number_at(parcel + 40, 8);
    uint64_t len = commit & 0x3FFFFFFF, count = 0;
    IS(taken->len == TRACERING_HEADER + len + (commit >> 30 & 1 ? 8 : 0) && len <= ring->size);
    const uint8_t *at = parcel + TRACERING_HEADER, *behind = at + len;
    while (at < behind) {
        uint64_t word = number_at(at, 4), type = word & 31, delta = word >> 5;
        if (type == 30) {
            moment += delta | number_at(at + 4, 4) << 27;
            at += 8;
            continue;
        }
        size_t slot = type ? 4 * type : number_at(at + 4, 4) - 4;
        at += type ? 4 : 8;
        moment += delta;
        const struct record *record = &ring->records[taken->first + count];
        IS(type <= 28 && taken->first + count < ring->reserved);
        IS(moment == record->moment && slot == record->slot && !memcmp(at, record->bytes, slot));
        at += slot;
        count++;
    }
    IS(count == taken->count);
}

// What was taken follows what was taken before.
static void follow(struct ring *ring, const struct tracering_taken *taken)
{
    IS(taken->first == ring->next + taken->missed && taken->fill >= ring->fills && taken->count > 0);
    ring->next = taken->first + taken->count;
    ring->fills = taken->fill + 1;
}

static bool take(struct ring *ring)
{
    uint8_t out[TRACERING_HEADER + MOST_SIZE];
    struct tracering_taken taken;
    int32_t code = tracering_take(&ring->r, out, tracering_reader_room(&ring->r), &taken);
    IS(code == TRACERING_DONE || code == TRACERING_EMPTY);
    if (code != TRACERING_DONE)
        return false;
    follow(ring, &taken);
    look_at(ring, out, &taken);
    return true;
}

// A page goes from the ring to the collector, which has and misses what it had and missed before, and this page's.
static void take_to(struct ring *ring, struct tracering_collector *collector)
{
    struct tracering_taken taken;
    struct tracering_fault_at at;
    int32_t code = tracering_collector_take(collector, &ring->r, &taken, &at);
    IS(code == TRACERING_DONE || code == TRACERING_EMPTY);
    if (code == TRACERING_DONE)
        follow(ring, &taken);
}

static void list(struct ring *ring, struct tracering_collector *collector)
{
    uint8_t out[MOST_SIZE];
    struct tracering_line line;
    size_t count;
    IS(tracering_collector_list(collector, &count) == TRACERING_DONE);
    for (; count; count--) {
        IS(tracering_collector_next(collector, out, sizeof out, &line) == TRACERING_DONE && line.cpu == ring->cpu);
        const struct record *record = &ring->records[line.number];
        IS(line.number < ring->next && line.moment == record->moment && line.len == record->slot);
        IS(!memcmp(out, record->bytes, line.len));
    }
    IS(tracering_collector_next(collector, out, sizeof out, &line) == TRACERING_END);
}

static void peek(struct ring *ring)
{
    uint8_t out[TRACERING_HEADER + MOST_SIZE];
    struct tracering_taken taken;
    int32_t code = tracering_peek(&ring->w, out, tracering_writer_room(&ring->w), &taken);
    if (ring->depth) {
        IS(code == TRACERING_NOT_AT_REST);
        return;
    }
    while (take(ring))
        ;
    IS(code == (ring->next == ring->reserved ? TRACERING_EMPTY : TRACERING_DONE));
    if (code != TRACERING_DONE)
        return;
    IS(taken.first == ring->next && taken.first + taken.count == ring->reserved && !taken.missed);
    look_at(ring, out, &taken);
}

// ---- the ends of a program

// Frees the writer: what it couldn't close it says, and all else is there to be taken.
static void free_writer(struct ring *ring)
{
    uint64_t lost = 77;
    IS(tracering_writer_free(&ring->w, &lost) == TRACERING_DONE);
    while (take(ring))
        ;
    // With frames begun, pages may be overwritten after the last one that is closed: no page counts their records.
    IS(ring->depth ? lost <= ring->reserved - ring->next : !lost && ring->next == ring->reserved);
    IS(tracering_reader_free(&ring->r) == TRACERING_DONE);
}

static void settle(struct ring *ring)
{
    uint8_t out[TRACERING_HEADER + MOST_SIZE];
    struct tracering_taken taken;
    while (take(ring))
        ;
    int32_t code = tracering_settle(&ring->w, &ring->r, out, sizeof out, &taken);
    if (ring->depth) {
        IS(code == TRACERING_NOT_AT_REST);
        free_writer(ring);
        return;
    }
    IS(code == TRACERING_DONE && taken.count == ring->reserved - ring->next);
    if (!taken.len)
        return;
    follow(ring, &taken);
    look_at(ring, out, &taken);
}

static void is_counted(const struct ring *ring)
{
    struct tracering_refused refused;
    uint64_t written;
    IS(tracering_refused(&ring->w, &refused) == TRACERING_DONE && !memcmp(&refused, &ring->refused, sizeof refused));
    IS(tracering_written(&ring->w, &written) == TRACERING_DONE && written == ring->complete);
}

static void one_call(struct ring *ring, struct tracering_collector *collector)
{
    switch (below(16)) {
    case 0: begin(ring); break;
    case 1: begin_close(ring); break;
    case 2: case 3: case 4: finish(ring); break;
    case 5: put(ring); break;
    case 6: case 7: end(ring); break;
    case 8: (void)take(ring); break;
    case 9: take_to(ring, collector); break;
    case 10: peek(ring); break;
    case 11: IS(tracering_wish(&ring->r) == TRACERING_DONE); break;
    case 12: list(ring, collector); break;
    default: write_whole(ring);
    }
}

static void one_program(void)
{
    static struct ring ring;
    struct tracering_collector collector = TRACERING_COLLECTOR_INIT;
    memset(&ring, 0, sizeof ring);
    ring.cpu = (uint32_t)below(256);
    ring.pages = 2 + below(4);
    ring.size = 32 + 4 * below((MOST_SIZE - 32) / 4 + 1);
    IS(tracering_new(&ring.w, &ring.r, ring.cpu, ring.pages, ring.size) == TRACERING_DONE);
    IS(tracering_collector_new(&collector) == TRACERING_DONE);
    for (int k = 0; k < CALLS; k++)
        one_call(&ring, &collector);
    is_counted(&ring);
    list(&ring, &collector);
    IS(tracering_collector_free(&collector) == TRACERING_DONE);
    (below(2) ? settle : free_writer)(&ring);
}

int main(int argc, char **argv)
{
    if (argc != 3)
        return 2;
    uint64_t first = strtoull(argv[1], NULL, 10), count = strtoull(argv[2], NULL, 10);
    for (seed = first; seed < first + count; seed++) {
        state = (seed + 1) * 0x9E3779B97F4A7C15;
        one_program();
    }
    return 0;
}
