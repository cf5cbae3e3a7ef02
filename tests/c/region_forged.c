// Looks at random and mutated regions, as whoever recovers one does: region_forged REGIONS SEED
//
// Each begins as what a ring left, or as a region's header with nothing after it; some of its words get random values,
// its length may be cut, and it may be at any byte. The calls that look at regions read nothing outside of it
// (AddressSanitizer sees that), whatever it says, and a collector takes or refuses what they give. What they answer of
// a slot is what its numbers say, and what a collector knows that was given this slot alone.
#define _GNU_SOURCE
#include "region_account.h"

static uint64_t seed;

static uint64_t next_random(void)
{
    seed ^= seed << 13;
    seed ^= seed >> 7;
    seed ^= seed << 17;
    return seed;
}

// Numbers near those that matter.
static uint64_t odd_number(size_t size)
{
    static const uint64_t near[] = {0, 1, 2, 31, 32, 33, 255, 256, 1023, 1024, 1025, 65519, 65520, 65521, 1u << 30,
        1u << 31, 1ull << 32, 1ull << 63, UINT64_MAX};
    uint64_t choice = next_random() % 8;
    if (choice < 4)
        return near[next_random() % (sizeof near / sizeof *near)];
    return choice < 6 ? size + next_random() % 9 - 4 : choice == 6 ? next_random() % 4096 : next_random();
}

// A region that a ring wrote, in memory that begins at a multiple of 64.
static void *written(size_t pages, size_t size, size_t *len)
{
    struct tracering_writer writer = TRACERING_WRITER_INIT;
    struct tracering_reader reader = TRACERING_READER_INIT;
    unsigned char bytes[LONGEST], out[TRACERING_HEADER + 512];
    struct tracering_taken taken;
    *len = tracering_region_size(pages, size);
    void *region = aligned_alloc(TRACERING_REGION_ALIGN, *len);
    if (!region || tracering_new_in(&writer, &reader, 5, pages, size, 1, region, *len) != TRACERING_DONE)
        abort();
    uint32_t records = (uint32_t)(next_random() % 60);
    for (uint32_t id = 0; id < records; id++) {
        (void)tracering_write(&writer, id, bytes, make_record(0, id, size, bytes));
        if (id % 9 == 8)
            (void)tracering_take(&reader, out, sizeof out, &taken);
    }
    if (next_random() % 4)
        (void)tracering_begin(&writer, 1, 1);
    (void)tracering_writer_free(&writer, NULL);
    (void)tracering_reader_free(&reader);
    return region;
}

static void mutate(unsigned char *region, size_t len, size_t size)
{
    for (uint64_t changes = next_random() % 8; changes > 0; changes--) {
        size_t stride = (TRACERING_HEADER + size + 63) & ~(size_t)63, slots = (len - TRACERING_REGION_HEADER) / stride;
        uint64_t value = odd_number(size), choice = next_random() % 4;
        size_t at = choice ? TRACERING_REGION_HEADER + next_random() % slots * stride : 0;
        at += choice < 3 ? 8 * (next_random() % (choice ? 6 : 8)) : TRACERING_HEADER + next_random() % (size / 4) * 4;
        memcpy(region + at, &value, choice < 3 ? 8 : 4);
    }
}

struct sums {
    uint64_t regions, slots, left_out, added, refused;
};

// Whether a slot is a page that ends below this number, by the records that a collector lists of it.
static bool ends_below(const unsigned char *slot, uint64_t number)
{
    struct tracering_collector c = TRACERING_COLLECTOR_INIT;
    struct tracering_fault_at at;
    size_t count = 0;
    if (tracering_collector_new(&c) != TRACERING_DONE)
        abort();
    bool is_page = tracering_collector_add(&c, slot, TRACERING_HEADER + account_word(slot, 5), &at) <= TRACERING_DONE;
    if (is_page && tracering_collector_list(&c, &count) != TRACERING_DONE)
        abort();
    (void)tracering_collector_free(&c);
    return is_page && account_word(slot, 2) + count < number;
}

// What a slot has to answer.
static int32_t wanted(const unsigned char *slot, const struct tracering_region *about)
{
    uint64_t commit = account_word(slot, 5);
    if (!commit)
        return TRACERING_EMPTY;
    if (account_word(slot, 0) != about->cpu)
        return TRACERING_BAD_CPU;
    if (commit > about->size)
        return TRACERING_BAD_IMAGE_SIZE;
    if (account_word(slot, 3))
        return TRACERING_MISSED_DIFFERS;
    return ends_below(slot, about->taken) ? TRACERING_EMPTY : TRACERING_DONE;
}

static void look_at(const void *region, size_t len, struct sums *sums)
{
    struct tracering_collector c = TRACERING_COLLECTOR_INIT;
    struct tracering_region about;
    if (tracering_region_about(region, len, &about) != TRACERING_DONE)
        return;
    sums->regions++;
    (void)tracering_collector_new(&c);
    size_t stride = (about.len - TRACERING_REGION_HEADER) / (about.pages + 1);
    const unsigned char *found = (const unsigned char *)region + TRACERING_REGION_HEADER;
    for (size_t slot = 0; slot <= about.pages; slot++, found += stride) {
        const void *bytes;
        size_t bytes_len;
        struct tracering_fault_at at;
        int32_t code = tracering_region_slot(region, len, slot, &bytes, &bytes_len);
        if (code != wanted(found, &about))
            abort();
        sums->left_out += code == TRACERING_EMPTY && account_word(found, 5);
        if (code != TRACERING_DONE)
            continue;
        if (bytes != found || bytes_len != TRACERING_HEADER + account_word(found, 5))
            abort();
        sums->slots++;
        int32_t answer = tracering_collector_add(&c, bytes, bytes_len, &at);
        *(answer > TRACERING_DONE ? &sums->refused : &sums->added) += 1;
    }
    const void *none;
    size_t count;
    if (tracering_region_slot(region, len, about.pages + 1, &none, &count) != TRACERING_END)
        abort();
    (void)tracering_collector_list(&c, &count);
    (void)tracering_collector_free(&c);
}

// The bytes at any place, and none beside them.
static void look_at_moved(const unsigned char *region, size_t len, struct sums *sums)
{
    size_t shift = next_random() % 2 ? next_random() % 16 : 0;
    unsigned char *moved = malloc(len + shift + 1);
    memcpy(moved + shift + 1, region, len);
    look_at(moved + shift + 1, len, sums);
    free(moved);
}

// A copy of it as another thread or process makes one: it is a region if that is, and has nothing beyond it.
static void look_at_copy(const void *region, size_t len, struct sums *sums)
{
    struct tracering_region about;
    bool is_region = tracering_region_about(region, len, &about) == TRACERING_DONE;
    size_t copy_len = is_region ? about.len : len;
    void *copy = malloc(copy_len ? copy_len : 1);
    int32_t code = tracering_region_copy(region, len, copy, copy_len);
    if (is_region != (code == TRACERING_DONE))
        abort();
    if (is_region)
        look_at(copy, copy_len, sums);
    free(copy);
}

int main(int argc, char **argv)
{
    static const size_t sizes[] = {32, 64, 100, 128, 512};
    struct sums sums = {0, 0, 0, 0, 0};
    if (argc != 3)
        return 2;
    seed = strtoull(argv[2], NULL, 10) * 0x9e3779b97f4a7c15u + 1;
    for (uint64_t left = strtoull(argv[1], NULL, 10); left > 0; left--) {
        size_t len, size = sizes[next_random() % 5];
        unsigned char *region = written(2 + next_random() % 4, size, &len);
        mutate(region, len, size);
        size_t cut = next_random() % 8 ? len : next_random() % (len + 1);
        void *exact;
        if (posix_memalign(&exact, TRACERING_REGION_ALIGN, cut))
            abort();
        memcpy(exact, region, cut);
        look_at_moved(region, cut, &sums);
        look_at_copy(exact, cut, &sums);
        free(exact);
        free(region);
    }
    printf("%llu regions, %llu slots: %llu added, %llu refused, and %llu left out\n", (unsigned long long)sums.regions,
        (unsigned long long)sums.slots, (unsigned long long)sums.added, (unsigned long long)sums.refused,
        (unsigned long long)sums.left_out);
    return 0;
}
