// A fleet's life: rings of two incarnations of a machine are packed as pieces, which come in any order, again and
// again; bytes that are changed or cut are refused; fleets are merged, compared, forgotten, and listed while they grow;
// and each growth of memory is refused in turn. It is linked with -Wl,--wrap=malloc -Wl,--wrap=realloc -Wl,--wrap=free.
//
//     fleet
//
// Prints nothing, and ends with status 0 if all is so.
#include "tracering.h"

#include <stdio.h>
#include <stdlib.h>
#include <string.h>

enum { STREAMS = 2, CPUS = 2, PAGES = 12, PIECES = STREAMS * CPUS * (PAGES + 1) };
enum { SIZE = 64, PARCEL = TRACERING_HEADER + SIZE, RECORDS = 5, ALL = PAGES * RECORDS };

// A packed piece, and what it says.
struct piece {
    uint8_t bytes[TRACERING_PIECE(PARCEL)];
    size_t len;
    uint64_t stream, first, count;
    uint32_t cpu;
    bool is_end;
};

static struct piece pieces[PIECES];
static int bad;

// Says where something isn't so.
#define IS(what) ((what) ? (void)0 : (void)(bad++, fprintf(stderr, "fleet.c:%d: %s\n", __LINE__, #what)))

// How many growths are granted before one is refused, and how many blocks there are.
static long granted = -1, blocks;

void *__real_malloc(size_t size);
void *__real_realloc(void *block, size_t size);
void __real_free(void *block);
void *__wrap_malloc(size_t size);
void *__wrap_realloc(void *block, size_t size);
void __wrap_free(void *block);

static bool is_refused(void)
{
    return granted >= 0 && granted-- == 0;
}

void *__wrap_malloc(size_t size)
{
    void *block = is_refused() ? NULL : __real_malloc(size);
    blocks += block != NULL;
    return block;
}

void *__wrap_realloc(void *block, size_t size)
{
    void *grown = is_refused() ? NULL : __real_realloc(block, size);
    blocks += !block && grown;
    return grown;
}

void __wrap_free(void *block)
{
    blocks -= block != NULL;
    __real_free(block);
}

static uint64_t id_of(uint64_t stream)
{
    return stream * 0x100000001 + 7;
}

static uint64_t moment_of(uint64_t stream, uint32_t cpu, uint64_t number)
{
    return 10 * number + 2 * cpu + stream;
}

// The pieces of one CPU: a page each, and the end.
static struct piece *pack_cpu(struct piece *to, uint64_t stream, uint32_t cpu)
{
    struct tracering_writer w = TRACERING_WRITER_INIT;
    struct tracering_reader r = TRACERING_READER_INIT;
    struct tracering_taken taken;
    uint8_t parcel[PARCEL];
    IS(tracering_new(&w, &r, cpu, 2, SIZE) == TRACERING_DONE);
    uint64_t number = 0;
    for (int page = 0; page < PAGES; page++, to++) {
        for (int k = 0; k < RECORDS; k++, number++) {
            char payload[4] = {(char)('a' + number % 26), (char)('A' + stream), (char)('0' + cpu), 0};
            IS(tracering_write(&w, moment_of(stream, cpu, number), payload, 3) == TRACERING_DONE);
        }
        IS(tracering_begin_close(&w) == TRACERING_DONE && tracering_finish(&w) == TRACERING_DONE);
        IS(tracering_take(&r, parcel, sizeof parcel, &taken) == TRACERING_DONE);
        *to = (struct piece){.stream = id_of(stream), .cpu = cpu, .first = taken.first, .count = taken.count};
        IS(tracering_pack(to->stream, parcel, taken.len, to->bytes, sizeof to->bytes, &to->len) == TRACERING_DONE);
        IS(to->len == TRACERING_PIECE(taken.len));
    }
    *to = (struct piece){.stream = id_of(stream), .cpu = cpu, .count = number, .is_end = true};
    IS(tracering_pack_end(to->stream, cpu, number, to->bytes, TRACERING_MARK, &to->len) == TRACERING_DONE);
    IS(to->len <= TRACERING_MARK);
    IS(tracering_writer_free(&w, NULL) == TRACERING_DONE && tracering_reader_free(&r) == TRACERING_DONE);
    return to + 1;
}

static void pack_all(void)
{
    struct piece *to = pieces;
    for (uint64_t stream = 0; stream < STREAMS; stream++)
        for (uint32_t cpu = 0; cpu < CPUS; cpu++)
            to = pack_cpu(to, stream, cpu);
}

static int32_t add(struct tracering_fleet *f, const struct piece *piece)
{
    struct tracering_stream_fault at;
    size_t used = 0;
    int32_t code = tracering_fleet_add(f, piece->bytes, piece->len, &used, &at);
    IS(code > 0 || used == piece->len);
    return code;
}

// Packs the parcel of one piece as one of the other's stream.
static int32_t pack_again(struct piece *piece, const struct piece *twin)
{
    const uint8_t *parcel = twin->bytes + 32;
    return tracering_pack(piece->stream, parcel, twin->len - 40, piece->bytes, sizeof piece->bytes, &piece->len);
}

// The pieces in an order that this number gives.
static const struct piece *shuffled(unsigned order, unsigned k)
{
    // (Odd steps that 13 doesn't divide meet each of the 52.)
    static const unsigned steps[] = {1, 3, 5, 7, 9, 11, 15, 17, 51};
    return &pieces[(order + k * steps[order % (sizeof steps / sizeof *steps)]) % PIECES];
}

// Makes a handle that has nothing a fleet of some of the pieces.
static void fill(struct tracering_fleet *f, unsigned order, unsigned from, unsigned end)
{
    IS(tracering_fleet_new(f) == TRACERING_DONE);
    for (unsigned k = from; k < end; k++)
        IS(add(f, shuffled(order, k)) == TRACERING_DONE);
}

static void is_same(struct tracering_fleet *f, struct tracering_fleet *other, bool same)
{
    IS(tracering_fleet_same(f, other) == (same ? TRACERING_DONE : TRACERING_DIFFERENT));
    IS(tracering_fleet_same(other, f) == (same ? TRACERING_DONE : TRACERING_DIFFERENT));
}

static void free_fleet(struct tracering_fleet *f)
{
    IS(tracering_fleet_free(f) == TRACERING_DONE && !f->held.at && !f->held.live && !f->in_call);
    IS(tracering_fleet_free(f) == TRACERING_ABSENT);
}

// What a whole fleet answers of its streams, CPUs, runs and lines.
static void is_whole(struct tracering_fleet *f)
{
    uint64_t stream = 0;
    for (uint64_t k = 0; k < STREAMS; k++, stream++) {
        IS(tracering_fleet_next_stream(f, stream, &stream) == TRACERING_DONE && stream == id_of(k));
        uint32_t cpu = 0;
        for (uint32_t c = 0; c < CPUS; c++, cpu++) {
            struct tracering_cpu_state state;
            size_t runs[3] = {9, 9, 9};
            IS(tracering_fleet_next_cpu(f, stream, cpu, &cpu) == TRACERING_DONE && cpu == c);
            IS(tracering_fleet_state(f, stream, cpu, &state) == TRACERING_DONE);
            IS(state.bound == 0 && state.watermark == ALL && state.has_end && state.end == ALL);
            IS(tracering_fleet_missing(f, stream, cpu, NULL, 0, &runs[0]) == TRACERING_DONE);
            IS(tracering_fleet_unknown(f, stream, cpu, NULL, 0, &runs[1]) == TRACERING_DONE);
            IS(tracering_fleet_undelivered(f, stream, cpu, NULL, 0, &runs[2]) == TRACERING_DONE);
            IS(runs[0] + runs[1] + runs[2] == 0);
        }
        IS(tracering_fleet_next_cpu(f, stream, cpu, &cpu) == TRACERING_END && cpu == CPUS);
    }
    IS(tracering_fleet_next_stream(f, stream, &stream) == TRACERING_END);
    size_t count = 0;
    struct tracering_fleet_line line, last = {0, 0, 0, 0, 0};
    uint8_t bytes[4];
    IS(tracering_fleet_list(f, &count) == TRACERING_DONE && count == STREAMS * CPUS * ALL);
    for (size_t k = 0; k < count; k++, last = line) {
        IS(tracering_fleet_next(f, NULL, 0, &line) == TRACERING_NO_ROOM && line.len == 4);
        IS(tracering_fleet_next(f, bytes, sizeof bytes, &line) == TRACERING_DONE);
        uint64_t s = (line.stream - 7) / 0x100000001;
        IS(line.moment == moment_of(s, line.cpu, line.number) && line.moment >= last.moment);
        IS(bytes[0] == 'a' + line.number % 26 && bytes[1] == 'A' + s && bytes[2] == '0' + line.cpu && !bytes[3]);
    }
    IS(tracering_fleet_next(f, bytes, sizeof bytes, &line) == TRACERING_END);
}

// In any order, and each piece twice.
static void orders(void)
{
    struct tracering_fleet first = TRACERING_FLEET_INIT;
    fill(&first, 0, 0, PIECES);
    is_whole(&first);
    for (unsigned order = 1; order < 30; order++) {
        struct tracering_fleet f = TRACERING_FLEET_INIT;
        fill(&f, order, 0, PIECES - 1);
        is_same(&f, &first, false);
        for (unsigned k = 0; k < PIECES - 1; k++)
            IS(add(&f, shuffled(order + 1, k)) != TRACERING_CLASH);
        IS(add(&f, shuffled(order, PIECES - 1)) <= 0);
        is_same(&f, &first, true);
        for (unsigned k = 0; k < PIECES; k++)
            IS(add(&f, &pieces[k]) == TRACERING_KNOWN);
        is_whole(&f);
        free_fleet(&f);
    }
    free_fleet(&first);
}

// Each changed byte of a piece and each part of one is refused, and changes nothing.
static void changed(void)
{
    struct tracering_fleet f = TRACERING_FLEET_INIT;
    struct tracering_stream_fault at = {1, 2, 3};
    uint64_t stream = 5;
    size_t used = 99;
    IS(tracering_fleet_new(&f) == TRACERING_DONE);
    for (unsigned k = 0; k < PIECES; k += PAGES / 2) {
        uint8_t bytes[sizeof pieces[k].bytes];
        for (size_t byte = 0; byte < pieces[k].len; byte++)
            for (int bit = 0; bit < 8; bit++) {
                memcpy(bytes, pieces[k].bytes, pieces[k].len);
                bytes[byte] ^= (uint8_t)(1 << bit);
                int32_t code = tracering_fleet_add(&f, bytes, pieces[k].len, &used, &at);
                IS(code >= TRACERING_NOT_PACKED && code <= TRACERING_BAD_SUM);
                IS(byte < 16 || byte >= 24 ? code != TRACERING_PIECE_CUT : code != TRACERING_BAD_VERSION);
            }
        for (size_t len = 0; len < pieces[k].len; len++)
            IS(tracering_fleet_add(&f, pieces[k].bytes, len, &used, &at) == TRACERING_PIECE_CUT);
    }
    IS(tracering_fleet_add(&f, NULL, 0, &used, &at) == TRACERING_PIECE_CUT);
    IS(used == 99 && at.stream == 1 && at.number == 2 && at.cpu == 3);
    IS(tracering_fleet_next_stream(&f, 0, &stream) == TRACERING_END && stream == 5);
    free_fleet(&f);
}

// Two incarnations under one id, ends that don't fit, and a tail that is lost.
static void odds(void)
{
    struct tracering_fleet f = TRACERING_FLEET_INIT;
    struct tracering_stream_fault at = {0, 0, 0};
    struct tracering_run run = {0, 0};
    struct tracering_cpu_state state;
    uint8_t mark[TRACERING_MARK];
    size_t used = 0, len = 0, count = 0;
    IS(tracering_fleet_new(&f) == TRACERING_DONE);
    struct piece other = pieces[PAGES + 1];
    // (The same parcel of CPU 1 of another stream, under this stream's id.)
    const struct piece *twin = &pieces[2 * (PAGES + 1) + PAGES + 1];
    IS(add(&f, &other) == TRACERING_DONE);
    IS(pack_again(&other, twin) == TRACERING_DONE);
    IS(tracering_fleet_add(&f, other.bytes, other.len, &used, &at) == TRACERING_CLASH && used == other.len);
    IS(at.stream == other.stream && at.cpu == 1 && at.number == 0);
    // An end below what is known, a second end, and one that fits.
    IS(tracering_pack_end(other.stream, 1, 3, mark, sizeof mark, &len) == TRACERING_DONE);
    IS(tracering_fleet_add(&f, mark, len, &used, &at) == TRACERING_BEYOND_END && at.number == RECORDS - 1);
    IS(tracering_pack_end(other.stream, 1, RECORDS + 1, mark, sizeof mark, &len) == TRACERING_DONE);
    IS(tracering_fleet_add(&f, mark, len, &used, &at) == TRACERING_DONE && used == len);
    IS(tracering_fleet_add(&f, mark, len, &used, &at) == TRACERING_KNOWN);
    IS(tracering_pack_end(other.stream, 1, ALL, mark, sizeof mark, &len) == TRACERING_DONE);
    IS(tracering_fleet_add(&f, mark, len, &used, &at) == TRACERING_OTHER_END && at.number == RECORDS + 1);
    IS(tracering_fleet_add(&f, pieces[PAGES + 2].bytes, pieces[PAGES + 2].len, &used, &at) == TRACERING_BEYOND_END);
    IS(at.number == RECORDS + 1 && at.cpu == 1 && at.stream == other.stream);
    // The tail that is lost is unknown, until it is given up.
    IS(tracering_fleet_unknown(&f, other.stream, 1, &run, 1, &count) == TRACERING_DONE && count == 1);
    IS(run.first == RECORDS && run.last == RECORDS);
    IS(tracering_fleet_unknown(&f, other.stream, 1, NULL, 0, &count) == TRACERING_NO_ROOM && count == 1);
    IS(tracering_fleet_forget(&f, other.stream, 1, RECORDS + 1, &at) == TRACERING_NOT_FINAL && at.number == RECORDS);
    IS(tracering_fleet_give_up(&f, other.stream, 1, RECORDS + 2, &at) == TRACERING_BEYOND_END);
    IS(at.number == RECORDS + 1);
    IS(tracering_fleet_forget(&f, other.stream, 256, 1, &at) == TRACERING_BAD_CPU);
    IS(tracering_fleet_give_up(&f, other.stream, 256, 1, &at) == TRACERING_BAD_CPU);
    IS(tracering_fleet_forget(&f, other.stream, 1, 2, &at) == TRACERING_DONE);
    IS(tracering_fleet_forget(&f, other.stream, 1, 2, &at) == TRACERING_KNOWN);
    IS(tracering_fleet_give_up(&f, other.stream, 1, RECORDS + 1, &at) == TRACERING_DONE);
    IS(tracering_fleet_undelivered(&f, other.stream, 1, &run, 1, &count) == TRACERING_DONE && count == 1);
    IS(run.first == RECORDS && run.last == RECORDS);
    IS(add(&f, &pieces[PAGES + 1]) == TRACERING_FORGOTTEN);
    IS(tracering_fleet_state(&f, other.stream, 1, &state) == TRACERING_DONE);
    IS(state.bound == RECORDS + 1 && state.watermark == RECORDS + 1 && state.end == RECORDS + 1);
    // Nothing is known of what isn't there.
    IS(tracering_fleet_state(&f, 1, 255, &state) == TRACERING_DONE);
    IS(!state.bound && !state.watermark && !state.end && !state.has_end);
    IS(tracering_fleet_missing(&f, 1, UINT32_MAX, NULL, 0, &count) == TRACERING_DONE && count == 0);
    free_fleet(&f);
}

// Packing wants as much room as it says, and takes parcels alone.
static void rooms(void)
{
    uint8_t out[TRACERING_PIECE(PARCEL)], parcel[PARCEL] = {0};
    size_t len = 0;
    struct piece *piece = &pieces[3];
    size_t parcel_len = piece->len - 40;
    memset(out, 7, sizeof out);
    IS(tracering_pack(1, piece->bytes + 32, parcel_len, out, piece->len - 1, &len) == TRACERING_NO_ROOM);
    IS(len == piece->len && out[0] == 7);
    IS(tracering_pack(1, piece->bytes + 32, parcel_len, NULL, 0, &len) == TRACERING_NO_ROOM);
    IS(tracering_pack(piece->stream, piece->bytes + 32, parcel_len, out, len, &len) == TRACERING_DONE);
    IS(len == piece->len && !memcmp(out, piece->bytes, len) && out[len] == 7);
    len = 5;
    IS(tracering_pack(1, parcel, 47, out, sizeof out, &len) == TRACERING_TOO_SHORT && len == 5);
    IS(tracering_pack(1, NULL, 0, out, sizeof out, &len) == TRACERING_TOO_SHORT && len == 5);
    IS(tracering_pack_end(1, 256, 1, out, sizeof out, &len) == TRACERING_BAD_CPU && len == 5);
    IS(tracering_pack_end(1, 1, 1, out, 1, &len) == TRACERING_NO_ROOM && len <= TRACERING_MARK);
}

// Pointers that are null, handles that have nothing or are in a call.
static void refused_handles(void)
{
    struct tracering_fleet none = TRACERING_FLEET_INIT, f = TRACERING_FLEET_INIT, busy = {.in_call = 1};
    struct tracering_stream_fault at;
    struct tracering_cpu_state state;
    struct tracering_fleet_line line;
    uint64_t id = 0;
    uint32_t cpu = 0;
    size_t len = 0;
    IS(tracering_fleet_new(NULL) == TRACERING_NULL && tracering_fleet_new(&busy) == TRACERING_BUSY);
    IS(tracering_fleet_new(&f) == TRACERING_DONE && tracering_fleet_new(&f) == TRACERING_IN_USE);
    IS(tracering_fleet_add(&f, NULL, 1, &len, &at) == TRACERING_NULL);
    IS(tracering_fleet_add(&busy, "", 0, &len, &at) == TRACERING_BUSY);
    IS(tracering_fleet_add(&none, "", 0, &len, &at) == TRACERING_ABSENT);
    IS(tracering_fleet_same(&f, &f) == TRACERING_BUSY && tracering_fleet_same(&f, &none) == TRACERING_ABSENT);
    IS(tracering_fleet_merge(&f, &f, &at) == TRACERING_BUSY);
    IS(tracering_fleet_merge(&none, &f, &at) == TRACERING_ABSENT);
    IS(tracering_fleet_merge(&f, &none, &at) == TRACERING_ABSENT);
    IS(tracering_fleet_next_stream(&none, 0, &id) == TRACERING_ABSENT);
    IS(tracering_fleet_next_cpu(&none, 0, 0, &cpu) == TRACERING_ABSENT);
    IS(tracering_fleet_state(&none, 0, 0, &state) == TRACERING_ABSENT);
    IS(tracering_fleet_missing(&none, 0, 0, NULL, 0, &len) == TRACERING_ABSENT);
    IS(tracering_fleet_unknown(&none, 0, 0, NULL, 0, &len) == TRACERING_ABSENT);
    IS(tracering_fleet_undelivered(&none, 0, 0, NULL, 0, &len) == TRACERING_ABSENT);
    IS(tracering_fleet_forget(&none, 0, 0, 0, &at) == TRACERING_ABSENT);
    IS(tracering_fleet_give_up(&none, 0, 0, 0, &at) == TRACERING_ABSENT);
    IS(tracering_fleet_list(&none, &len) == TRACERING_ABSENT);
    IS(tracering_fleet_next(&none, NULL, 0, &line) == TRACERING_ABSENT);
    IS(tracering_fleet_frontier(&none, &id) == TRACERING_ABSENT);
    IS(tracering_fleet_list_before(&none, 0, &len) == TRACERING_ABSENT);
    IS(tracering_fleet_forget_before(&none, 0) == TRACERING_ABSENT);
    IS(tracering_fleet_pack(&none, 0, NULL, 0, &len) == TRACERING_ABSENT);
    IS(tracering_fleet_next(&f, NULL, 0, &line) == TRACERING_END);
    IS(tracering_fleet_frontier(&f, &id) == TRACERING_END);
    IS(tracering_fleet_pack(&f, 0, NULL, 0, &len) == TRACERING_DONE && len == 0);
    free_fleet(&f);
}

// Shares that are merged, in either order, are the whole.
static void merged(void)
{
    struct tracering_fleet whole = TRACERING_FLEET_INIT;
    fill(&whole, 0, 0, PIECES);
    for (unsigned order = 0; order < 9; order++) {
        unsigned cut = 5 * order + 3;
        struct tracering_fleet left = TRACERING_FLEET_INIT, right = TRACERING_FLEET_INIT;
        struct tracering_fleet twin = TRACERING_FLEET_INIT;
        struct tracering_stream_fault at = {1, 2, 3};
        fill(&left, order, 0, cut + 2), fill(&right, order, cut, PIECES), fill(&twin, order, cut, PIECES);
        is_same(&right, &twin, true);
        IS(tracering_fleet_merge(&left, &right, &at) == TRACERING_DONE);
        is_same(&left, &whole, true);
        is_same(&right, &twin, true);
        IS(tracering_fleet_merge(&right, &left, &at) == TRACERING_DONE);
        IS(tracering_fleet_merge(&right, &left, &at) == TRACERING_DONE);
        is_same(&right, &whole, true);
        IS(at.stream == 1 && at.number == 2 && at.cpu == 3);
        free_fleet(&left), free_fleet(&right), free_fleet(&twin);
    }
    // One of another incarnation under the same id.
    struct tracering_fleet other = TRACERING_FLEET_INIT;
    struct tracering_stream_fault at = {1, 2, 3};
    struct piece clash = pieces[0];
    const struct piece *twin = &pieces[2 * (PAGES + 1)];
    IS(pack_again(&clash, twin) == TRACERING_DONE);
    IS(tracering_fleet_new(&other) == TRACERING_DONE && add(&other, &clash) == TRACERING_DONE);
    IS(tracering_fleet_merge(&whole, &other, &at) == TRACERING_CLASH);
    IS(at.stream == clash.stream && at.number == 0 && at.cpu == 0);
    is_whole(&whole);
    free_fleet(&whole), free_fleet(&other);
}

// A stream's snapshot makes the same of a new fleet.
static void snapshots(void)
{
    struct tracering_fleet whole = TRACERING_FLEET_INIT, copy = TRACERING_FLEET_INIT;
    struct tracering_stream_fault at;
    fill(&whole, 0, 0, PIECES);
    IS(tracering_fleet_forget(&whole, id_of(1), 1, 2 * RECORDS + 1, &at) == TRACERING_DONE);
    IS(tracering_fleet_new(&copy) == TRACERING_DONE);
    for (uint64_t k = 0; k < STREAMS; k++) {
        size_t len = 0, used = 0, again = 0;
        IS(tracering_fleet_pack(&whole, id_of(k), NULL, 0, &len) == TRACERING_NO_ROOM);
        uint8_t *bytes = malloc(len);
        IS(tracering_fleet_pack(&whole, id_of(k), bytes, len - 1, &again) == TRACERING_NO_ROOM && again == len);
        IS(tracering_fleet_pack(&whole, id_of(k), bytes, len, &again) == TRACERING_DONE && again == len);
        for (size_t from = 0; from < len; from += used)
            IS(tracering_fleet_add(&copy, bytes + from, len - from, &used, &at) <= 0);
        free(bytes);
    }
    is_same(&whole, &copy, true);
    free_fleet(&whole), free_fleet(&copy);
}

// A listing that goes out while it grows has the lines of the whole, in their order, each once.
static void growing(void)
{
    for (unsigned order = 0; order < 9; order++) {
        struct tracering_fleet f = TRACERING_FLEET_INIT, whole = TRACERING_FLEET_INIT;
        struct tracering_fleet_line line, wanted;
        uint8_t bytes[4], other[4];
        size_t count = 0, all = 0, given = 0;
        uint64_t moment = 0;
        fill(&whole, 0, 0, PIECES);
        IS(tracering_fleet_new(&f) == TRACERING_DONE && tracering_fleet_list(&whole, &all) == TRACERING_DONE);
        for (unsigned k = 0; k < PIECES; k++) {
            // (Within a few pages the order is another one; all streams come at once.)
            unsigned page = k / (STREAMS * CPUS), ring = (k + order) % (STREAMS * CPUS);
            IS(add(&f, &pieces[ring * (PAGES + 1) + page]) == TRACERING_DONE);
            if (page == 0)
                continue;
            bool done = tracering_fleet_frontier(&f, &moment) == TRACERING_END;
            IS(done == (k == PIECES - 1));
            IS((done ? tracering_fleet_list(&f, &count) : tracering_fleet_list_before(&f, moment, &count)) == 0);
            for (; count; count--, given++) {
                IS(tracering_fleet_next(&f, bytes, sizeof bytes, &line) == TRACERING_DONE);
                IS(tracering_fleet_next(&whole, other, sizeof other, &wanted) == TRACERING_DONE);
                IS(line.moment == wanted.moment && line.stream == wanted.stream && line.number == wanted.number);
                IS(line.cpu == wanted.cpu && line.len == wanted.len && !memcmp(bytes, other, 4));
            }
            IS(done || tracering_fleet_forget_before(&f, moment) == TRACERING_DONE);
        }
        IS(given == all);
        free_fleet(&f), free_fleet(&whole);
    }
}

enum { ADDS, ENDS, MERGES, LISTS, FORGETS, GIVES_UP, PACKS, LISTS_BEFORE, FORGETS_BEFORE, CALLS };

static int32_t call(int which, struct tracering_fleet *f, struct tracering_fleet *other, uint8_t *out, size_t room)
{
    struct tracering_stream_fault at;
    size_t len;
    switch (which) {
    case ADDS: return tracering_fleet_add(f, pieces[7].bytes, pieces[7].len, &len, &at);
    case ENDS: return tracering_fleet_add(f, pieces[PAGES].bytes, pieces[PAGES].len, &len, &at);
    case MERGES: return tracering_fleet_merge(f, other, &at);
    case LISTS: return tracering_fleet_list(f, &len);
    case FORGETS: return tracering_fleet_forget(f, id_of(0), 0, 3, &at);
    case GIVES_UP: return tracering_fleet_give_up(f, id_of(0), 0, ALL, &at);
    case PACKS: return tracering_fleet_pack(f, id_of(0), out, room, &len);
    case LISTS_BEFORE: return tracering_fleet_list_before(f, 40, &len);
    default: return tracering_fleet_forget_before(f, 40);
    }
}

// Refuses the growths of each call in turn: nothing has changed, and the call made once more does what it does.
static long refuse(void)
{
    static uint8_t out[PIECES * sizeof pieces[0].bytes];
    long growths = 0;
    for (int which = 0; which < CALLS; which++) {
        struct tracering_fleet other = TRACERING_FLEET_INIT, twin = TRACERING_FLEET_INIT, f = TRACERING_FLEET_INIT;
        fill(&other, 0, 5, PIECES), fill(&twin, 0, 0, 5), fill(&f, 0, 0, 5);
        for (long refused = 0;; refused++) {
            granted = refused;
            int32_t code = call(which, &f, &other, out, sizeof out);
            long left = granted;
            granted = -1;
            if (left >= 0) {
                IS(code == TRACERING_DONE);
                break;
            }
            growths++;
            IS(code == TRACERING_NO_MEMORY);
            is_same(&f, &twin, true);
        }
        free_fleet(&f), free_fleet(&other), free_fleet(&twin);
    }
    return growths;
}

static long refuse_packing(void)
{
    uint8_t out[TRACERING_PIECE(PARCEL)];
    long growths = 0;
    for (long refused = 0;; refused++) {
        size_t len = 5, mark = 5;
        granted = refused;
        int32_t code = tracering_pack(1, pieces[0].bytes + 32, pieces[0].len - 40, out, sizeof out, &len);
        int32_t end = code ? code : tracering_pack_end(1, 1, 1, out, sizeof out, &mark);
        long left = granted;
        granted = -1;
        if (left >= 0) {
            IS(code == TRACERING_DONE && end == TRACERING_DONE);
            return growths;
        }
        growths++;
        IS(end == TRACERING_NO_MEMORY && mark == 5);
    }
}

static void new_is_refused(void)
{
    struct tracering_fleet f = TRACERING_FLEET_INIT;
    granted = 0;
    IS(tracering_fleet_new(&f) == TRACERING_NO_MEMORY && !f.held.at && !f.held.live);
    granted = -1;
    IS(tracering_fleet_new(&f) == TRACERING_DONE);
    free_fleet(&f);
}

int main(void)
{
    pack_all();
    rooms();
    refused_handles();
    orders();
    changed();
    odds();
    merged();
    snapshots();
    growing();
    new_is_refused();
    IS(refuse() > 20 && refuse_packing() > 3);
    IS(blocks == 0);
    return bad != 0;
}
