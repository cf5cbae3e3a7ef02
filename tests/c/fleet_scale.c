// How a fleet grows: `fleet_scale PARCELS STREAMS ORDER [forget]` adds PARCELS parcels of STREAMS streams, each
// stream's in their order (`rising`) or all shuffled (`shuffled`), and prints what that took, a number a line with its
// name. With `forget` the bounds are raised to the watermarks meanwhile.
//
// A parcel has RECORDS records with payloads of 24 bytes, and every eighth one a number that is missing before them.
#define _GNU_SOURCE
#include "tracering.h"

#include <malloc.h>
#include <stdio.h>
#include <stdlib.h>
#include <string.h>
#include <time.h>

enum { RECORDS = 10, PAYLOAD = 24, PARCEL = TRACERING_HEADER + RECORDS * (4 + PAYLOAD) };
enum { BATCH = 1000, LISTED = 2000000 };

static uint8_t batch[BATCH][TRACERING_PIECE(PARCEL)];
static size_t lens[BATCH];
static uint64_t streams;

static double seconds(void)
{
    struct timespec now;
    (void)clock_gettime(CLOCK_PROCESS_CPUTIME_ID, &now);
    return (double)now.tv_sec + (double)now.tv_nsec / 1e9;
}

static double memory(void)
{
    struct mallinfo2 info = mallinfo2();
    return (double)info.uordblks + (double)info.hblkhd;
}

static void must(int32_t code, const char *call)
{
    if (code > TRACERING_DONE) {
        fprintf(stderr, "%s: %s\n", call, tracering_text(code));
        exit(1);
    }
}

static uint64_t mixed(uint64_t number)
{
    number += UINT64_C(0x9e3779b97f4a7c15);
    number = (number ^ number >> 30) * UINT64_C(0xbf58476d1ce4e5b9);
    number = (number ^ number >> 27) * UINT64_C(0x94d049bb133111eb);
    return number ^ number >> 31;
}

static void put(uint8_t *at, uint64_t number, size_t len)
{
    memcpy(at, &number, len);
}

// The number of fill F's first record: one is missing before each eighth fill.
static uint64_t first_of(uint64_t fill)
{
    return fill * RECORDS + fill / 8 + (fill % 8 == 7);
}

// Packs page `index` of all: fill `index / streams` of a stream.
static void make(uint64_t index, uint8_t *piece, size_t *len)
{
    uint8_t parcel[PARCEL] = {0}, *at = parcel + TRACERING_HEADER;
    uint64_t stream = index % streams, fill = index / streams, missed = fill % 8 == 7;
    put(parcel + 8, fill, 8);
    put(parcel + 16, first_of(fill), 8);
    put(parcel + 24, missed, 8);
    put(parcel + 32, 1000 * (fill * streams + stream), 8);
    put(parcel + 40, (PARCEL - TRACERING_HEADER) | missed << 31, 8);
    for (int k = 0; k < RECORDS; k++, at += 4 + PAYLOAD) {
        put(at, PAYLOAD / 4 | (k ? 64 << 5 : 0), 4);
        for (size_t word = 0; word < PAYLOAD; word += 8)
            put(at + 4 + word, mixed(index * RECORDS + (uint64_t)k), 8);
    }
    must(tracering_pack(mixed(stream), parcel, sizeof parcel, piece, TRACERING_PIECE(PARCEL), len), "pack");
}

// Forgets what is below the watermarks, as examples/fleet/log.h does.
static void forget(struct tracering_fleet *fleet)
{
    static double from;
    if (seconds() < from)
        return;
    must(tracering_fleet_forget_before(fleet, UINT64_MAX), "forget_before");
    double begun = seconds();
    must(tracering_fleet_forget_before(fleet, UINT64_MAX), "forget_before");
    from = seconds() + 10 * (seconds() - begun);
}

// Adds all, and answers the seconds that this took.
static double add_all(struct tracering_fleet *fleet, const uint32_t *order, uint64_t parcels, bool is_forgetting)
{
    struct tracering_stream_fault at;
    double took = 0;
    size_t used;
    for (uint64_t done = 0, count; done < parcels; done += count) {
        count = parcels - done < BATCH ? parcels - done : BATCH;
        for (uint64_t k = 0; k < count; k++)
            make(order[done + k], batch[k], &lens[k]);
        double begun = seconds();
        for (uint64_t k = 0; k < count; k++)
            must(tracering_fleet_add(fleet, batch[k], lens[k], &used, &at), "add");
        if (is_forgetting)
            forget(fleet);
        took += seconds() - begun;
    }
    if (is_forgetting)
        must(tracering_fleet_forget_before(fleet, UINT64_MAX), "forget_before");
    return took;
}

static void list(struct tracering_fleet *fleet, uint64_t parcels)
{
    static uint8_t payload[PAYLOAD];
    struct tracering_fleet_line line;
    uint64_t moment, last = 0, given = 0;
    size_t count;
    double begun = seconds(), before = memory();
    if (tracering_fleet_frontier(fleet, &moment) > TRACERING_END)
        exit(1);
    printf("frontier %.0f\n", (seconds() - begun) * 1e9);
    if (parcels * RECORDS > LISTED)
        return;
    begun = seconds();
    must(tracering_fleet_list(fleet, &count), "list");
    printf("list %.1f\n", (seconds() - begun) * 1e9 / (double)count);
    printf("list_memory %.1f\n", (memory() - before) / (double)count);
    for (; tracering_fleet_next(fleet, payload, sizeof payload, &line) == TRACERING_DONE; last = line.moment, given++)
        if (line.moment < last)
            exit(1);
    if (given != count || count != parcels * RECORDS)
        exit(1);
}

int main(int argc, char **argv)
{
    if (argc < 4)
        return 2;
    uint64_t parcels = strtoull(argv[1], NULL, 10);
    bool is_forgetting = argc > 4;
    struct tracering_fleet fleet = TRACERING_FLEET_INIT;
    streams = strtoull(argv[2], NULL, 10);
    uint32_t *order = malloc(parcels * sizeof *order);
    if (!order)
        return 1;
    for (uint64_t k = 0; k < parcels; k++)
        order[k] = (uint32_t)k;
    for (uint64_t k = parcels - 1; k && !strcmp(argv[3], "shuffled"); k--) {
        uint64_t other = mixed(k) % (k + 1);
        uint32_t held = order[k];
        order[k] = order[other];
        order[other] = held;
    }
    must(tracering_fleet_new(&fleet), "new");
    double before = memory();
    printf("add %.0f\n", add_all(&fleet, order, parcels, is_forgetting) * 1e9 / (double)parcels);
    printf("memory %.0f\n", (memory() - before) / (double)parcels);
    printf("parcel %d\n", PARCEL);
    printf("again %.0f\n", add_all(&fleet, order, parcels, false) * 1e9 / (double)parcels);
    if (!is_forgetting)
        list(&fleet, parcels);
    must(tracering_fleet_free(&fleet), "free");
    free(order);
}
