// Records of 8 to 112 bytes, for `bench/run embed`: by the library for C (`library`), in a region of its own in memory
// (`region`) or in the file of that name (`file`), by a ring of the same protocol in plain C (`plain`), or only copied.
// `main WAY PAGES SIZE ROUNDS RUNS` prints how many nanoseconds the fastest run of ROUNDS rounds took, how many records
// a reader then finds, and whether the region is in huge pages. The plain ring has its own number of pages and size.
#include "ring.h"
#include "tracering_region.h"

#include <stdio.h>
#include <stdlib.h>
#include <time.h>
#include <unistd.h>

enum { ROUND = 8400, POOL = 256 };

static struct ring ring;
static struct tracering_writer writer;
static struct tracering_reader reader;
static uint8_t pool[POOL], lens[ROUND], copies[SIZE], parcel[TRACERING_HEADER + 65520];
static void *region;
static size_t region_len;
static bool is_huge;
static uint64_t moment, refused;

static __attribute__((noinline)) void round_of_library(void)
{
    for (size_t i = 0; i < ROUND; i++)
        refused += tracering_write(&writer, ++moment, pool + i % 128, lens[i]) != TRACERING_DONE;
}

static __attribute__((noinline)) int write_plainly(uint64_t at, const uint8_t *payload, size_t len)
{
    return write_record(&ring, at, payload, len);
}

static __attribute__((noinline)) void round_of_plain(void)
{
    for (size_t i = 0; i < ROUND; i++)
        refused += write_plainly(++moment, pool + i % 128, lens[i]) != 0;
}

static __attribute__((noinline)) void round_of_copy(void)
{
    size_t end = 0;
    for (size_t i = 0; i < ROUND; i++) {
        if (SIZE - end < lens[i])
            end = 0;
        memcpy(copies + end, pool + i % 128, lens[i]);
        end += lens[i];
    }
}

static uint64_t now(void)
{
    struct timespec time;
    clock_gettime(CLOCK_MONOTONIC, &time);
    return time.tv_sec * 1000000000ull + time.tv_nsec;
}

// How many records a reader finds: of the library and of the plain ring they have to be the same.
static uint64_t records_left(bool is_library)
{
    uint64_t found = 0;
    if (is_library) {
        struct tracering_taken taken;
        while (tracering_take(&reader, parcel, sizeof parcel, &taken) == TRACERING_DONE)
            found += taken.count;
    } else {
        for (struct page *page; (page = take(&ring));)
            found += page->count;
    }
    return found;
}

// The library's ring, in a region or not.
static int32_t make(const char *way, size_t pages, size_t size)
{
    bool is_file = !strcmp(way, "file");
    if (!is_file && strcmp(way, "region"))
        return tracering_new(&writer, &reader, 0, pages, size);
    region_len = tracering_region_size(pages, size);
    region = is_file ? tracering_region_file("embed.region", region_len) : tracering_region_huge(region_len, &is_huge);
    if (is_file)
        unlink("embed.region");
    return tracering_new_in(&writer, &reader, 0, pages, size, 1, region, region_len);
}

int main(int argc, char **argv)
{
    if (argc != 6)
        return 2;
    bool is_plain = !strcmp(argv[1], "plain"), is_library = !is_plain && strcmp(argv[1], "copy");
    void (*round)(void) = is_library ? round_of_library : is_plain ? round_of_plain : round_of_copy;
    uint32_t random = 1;
    for (size_t i = 0; i < ROUND; i++) {
        random = random * 1103515245 + 12345;
        lens[i] = 8 + (random >> 16) % 105;
    }
    memset(pool, 0x5a, sizeof pool);
    start(&ring);
    if (make(argv[1], strtoull(argv[2], NULL, 10), strtoull(argv[3], NULL, 10)) != TRACERING_DONE)
        return 3;
    uint64_t least = UINT64_MAX;
    for (long run = 0; run < atol(argv[5]); run++) {
        uint64_t begun = now();
        for (long i = 0; i < atol(argv[4]); i++)
            round();
        uint64_t took = now() - begun;
        least = took < least ? took : least;
    }
    printf("%llu %llu %s\n", (unsigned long long)least, (unsigned long long)records_left(is_library),
        is_huge ? "huge" : "ordinary");
    tracering_writer_free(&writer, NULL);
    tracering_reader_free(&reader);
    if (region)
        tracering_region_unmap(region, region_len);
    return refused != 0;
}
