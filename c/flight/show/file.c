#include "file.h"

#include "../checksum.h"

#include <stdio.h>
#include <stdlib.h>
#include <string.h>
#include <time.h>
#if defined(__x86_64__)
#include <x86intrin.h>
#endif

enum { WORD = 8, SECOND = 1000000000, SITE_NUMBERS = 24 };

static uint64_t word_of(struct bytes file, size_t word)
{
    return number64_at(file.at + word * WORD);
}

bool is_flight_file(struct bytes file)
{
    return file.len >= WORD && word_of(file, FILE_MAGIC) == FILE_MAGIC_NUMBER;
}

// ---- The header.

static bool check_number(struct cursor *c, size_t word, uint64_t least, uint64_t most, const char *what)
{
    uint64_t found = number64_at(c->file + word * WORD);
    if (found >= least && found <= most)
        return true;
    return refuse(c, word * WORD, "%llu to %llu are expected (%s), and not %llu", (unsigned long long)least,
        (unsigned long long)most, what, (unsigned long long)found);
}

// Checks an area that the header states at this word and the next one: it begins at `least` or later, and at a multiple
// of `align`.
static bool check_area(struct cursor *c, size_t word, size_t least, size_t align, const char *what)
{
    uint64_t at = number64_at(c->file + word * WORD), len = number64_at(c->file + (word + 1) * WORD);
    if (at < least || at % align)
        return refuse(c, word * WORD, "the %s can't begin at byte %llu", what, (unsigned long long)at);
    if (at > c->end || len > c->end - at)
        return refuse(c, (word + 1) * WORD, "%llu bytes are stated from byte %llu on (%s), and the file has %zu",
            (unsigned long long)len, (unsigned long long)at, what, c->end);
    return true;
}

static bool check_limits(struct cursor *c)
{
    if (!check_number(c, FILE_SLOT_COUNT, 1, FILE_MOST_RINGS, "slots"))
        return false;
    size_t slots = number64_at(c->file + FILE_SLOT_COUNT * WORD), most = FILE_MOST_RINGS / slots;
    return check_number(c, FILE_LEVELS, 1, most < FILE_MOST_LEVELS ? most : FILE_MOST_LEVELS, "levels")
        && check_number(c, FILE_PAGES, 2, 1024, "pages") && check_number(c, FILE_SIZE, 32, 65520, "bytes of a page")
        && check_number(c, FILE_CLOCK, 0, CLOCK_KINDS - 1, "clock")
        && check_number(c, FILE_PROCESS, 0, UINT32_MAX, "process") && check_number(c, FILE_ENDED, 0, 1, "end")
        && check_number(c, FILE_RING_SLOTS, 0, slots, "slots with rings");
}

// Checks where the checksums of the blocks are, if it has any: behind the rings, whose areas begin and end with blocks.
static bool check_sums(struct cursor *c, size_t end)
{
    uint64_t at = number64_at(c->file + FILE_SUMS * WORD);
    if (!check_number(c, FILE_SUMMED, 0, at ? 1 : 0, "checksums"))
        return false;
    if (at && (at != end || at % FILE_BLOCK))
        return refuse(c, FILE_SUMS * WORD, "the checksums can't begin at byte %llu", (unsigned long long)at);
    if (at && sums_len(end) > c->end - end)
        return refuse(c, FILE_SUMS * WORD, "%zu bytes of checksums are expected from byte %zu on, and the file has %zu",
            sums_len(end), end, c->end);
    return true;
}

static bool check_areas(struct cursor *c, const struct file_header *header)
{
    size_t slots = header->slot_count * SLOT_BYTES;
    size_t rings = header->ring_slots * ring_offset(header->pages, header->size, header->levels);
    return check_area(c, FILE_SLOTS, FILE_HEADER, WORD, "slots")
        && check_number(c, FILE_SLOTS_LEN, slots, slots, "bytes of slots")
        && check_area(c, FILE_SITES, header->slots + slots, WORD, "sites")
        && check_area(c, FILE_RINGS, header->sites + header->sites_len, FILE_HEADER, "rings")
        && check_number(c, FILE_RINGS_LEN, rings, rings, "bytes of rings")
        && check_sums(c, header->rings + rings);
}

bool read_file_header(struct cursor *c, struct file_header *header)
{
    const uint8_t *at = take(c, FILE_HEADER, "the file's header");
    if (!at)
        return false;
    struct bytes file = {at, FILE_HEADER};
    if (!is_flight_file(file))
        return refuse(c, 0, "not a flight file");
    if (word_of(file, FILE_VERSION) != FILE_VERSION_NUMBER)
        return refuse(c, FILE_VERSION * WORD, "version %d is expected, and not %llu", FILE_VERSION_NUMBER,
            (unsigned long long)word_of(file, FILE_VERSION));
    if (!check_limits(c))
        return false;
    if (word_of(file, FILE_SIZE) % 4)
        return refuse(c, FILE_SIZE * WORD, "a multiple of 4 is expected (bytes of a page)");
    size_t count = word_of(file, FILE_SLOT_COUNT), with_rings = word_of(file, FILE_RING_SLOTS);
    *header = (struct file_header){count, with_rings ? with_rings : count, word_of(file, FILE_LEVELS),
        word_of(file, FILE_PAGES), word_of(file, FILE_SIZE), word_of(file, FILE_SLOTS), word_of(file, FILE_SITES),
        word_of(file, FILE_SITES_LEN), word_of(file, FILE_RINGS)};
    return check_areas(c, header);
}

// ---- The process, and its clocks.

// Whether the file is of this boot of this machine, so that its clocks are those that are read here.
static bool is_of_this_boot(struct bytes file)
{
    char text[64];
    uint64_t boot[2];
    FILE *from = fopen(FILE_BOOT_ID, "rb");
    size_t len = from ? fread(text, 1, sizeof text, from) : 0;
    if (from)
        fclose(from);
    read_boot(text, len, boot);
    return (boot[0] || boot[1]) && boot[0] == word_of(file, FILE_BOOT) && boot[1] == word_of(file, FILE_BOOT + 1);
}

// Reads the processor's counter, if it is one that recorders read.
static bool read_counter(uint64_t *count)
{
#if defined(__x86_64__)
    *count = __rdtsc();
    return true;
#elif defined(__aarch64__)
    __asm__ volatile("mrs %0, cntvct_el0" : "=r"(*count));
    return true;
#else
    (void)count;
    return false;
#endif
}

// The processor's counter needs two moments that are far apart: if those of the file aren't, the second one is now.
static void find_rate(struct process *process, struct bytes file)
{
    uint64_t count;
    struct timespec now;
    bool is_far = process->dump_time > process->start_time && process->dump_time - process->start_time >= SECOND;
    if (process->clock != CLOCK_OF_TSC || is_far)
        return;
    process->is_inexact = !is_of_this_boot(file) || !read_counter(&count) || clock_gettime(CLOCK_REALTIME, &now);
    if (process->is_inexact)
        return;
    process->dump_moment = count;
    process->dump_time = (uint64_t)now.tv_sec * SECOND + (uint64_t)now.tv_nsec;
}

static struct bytes name_at(const uint8_t *at, size_t most)
{
    size_t len = 0;
    while (len < most && at[len])
        len++;
    return (struct bytes){at, len};
}

static uint64_t count_without_ring(struct bytes file)
{
    uint64_t all = 0;
    for (size_t count = 0; count < FILE_COUNTS; count++)
        all += word_of(file, FILE_WITHOUT_RING + count * FILE_COUNT_WORDS);
    return all;
}

static void read_process(struct process *process, struct bytes file)
{
    uint64_t stamps = word_of(file, FILE_STAMPS);
    size_t pair = stamps / 2 ? stamp_word(stamps) : FILE_STARTED;
    *process = (struct process){.pid = (uint32_t)word_of(file, FILE_PROCESS),
        .clock = (uint32_t)word_of(file, FILE_CLOCK), .start_moment = word_of(file, FILE_STARTED),
        .start_time = word_of(file, FILE_STARTED_REAL),
        .dump_moment = word_of(file, pair), .dump_time = word_of(file, pair + 1),
        .no_ring = count_without_ring(file), .name = name_at(file.at + FILE_NAME * WORD, FILE_NAME_SIZE),
        .is_file = true, .has_ended = word_of(file, FILE_ENDED) == 1 || is_summed(file)};
    find_rate(process, file);
}

// ---- Slots.

static const uint8_t *lease_at(const uint8_t *slot, uint64_t place)
{
    return slot + (SLOT_LEASES + place * SLOT_LEASE_WORDS) * WORD;
}

// Reads the leases of a slot, as they are on the ring of this level. While one was changed, that one has no record yet,
// or those that it had are the oldest ones: it is left out. False: they are damaged; `offset` is where.
static bool read_leases(struct ring *ring, const uint8_t *slot, const uint8_t *file, size_t *offset)
{
    uint64_t version = number64_at(slot + SLOT_VERSION * WORD), count = number64_at(slot + SLOT_COUNT * WORD);
    uint64_t first = count > SLOT_MOST_LEASES ? count - SLOT_MOST_LEASES : 0;
    ring->leases = allocate(SLOT_MOST_LEASES, sizeof *ring->leases);
    for (uint64_t index = first; index < count; index++) {
        uint64_t place = index % SLOT_MOST_LEASES;
        const uint8_t *at = lease_at(slot, place);
        if ((version & 1) && place == place_of_change(version))
            continue;
        uint64_t begin = number64_at(at + ring->level * WORD), thread = number64_at(at + FILE_MOST_LEVELS * WORD);
        bool falls = ring->lease_count && begin < ring->leases[ring->lease_count - 1].first;
        if (falls || thread > UINT32_MAX) {
            *offset = (size_t)(at - file) + (falls ? ring->level : FILE_MOST_LEVELS) * WORD;
            return false;
        }
        struct bytes name = name_at(at + (FILE_MOST_LEVELS + 1) * WORD, FILE_NAME_SIZE);
        ring->leases[ring->lease_count++] = (struct lease){begin, (uint32_t)thread, name};
    }
    return true;
}

static bool has_refused(const struct ring *ring)
{
    for (size_t reason = 0; reason < REASONS; reason++)
        if (ring->refused[reason])
            return true;
    return false;
}

// Reads a ring and its region. One that nobody had is left out.
static void read_ring(struct dump *dump, const struct file_header *header, struct bytes file, size_t slot, size_t level)
{
    const uint8_t *at = file.at + header->slots + slot * SLOT_BYTES;
    size_t offset, damages = dump->damage_count;
    struct ring *ring = &dump->rings[dump->ring_count];
    *ring = (struct ring){.number = (uint32_t)(slot * header->levels + level), .slot = (uint32_t)slot,
        .level = (uint32_t)level};
    for (size_t reason = 0; reason < REASONS; reason++)
        ring->refused[reason] = number64_at(at + (SLOT_REFUSED + level * REASONS + reason) * WORD);
    if (!read_leases(ring, at, file.at, &offset)) {
        ring->lease_count = 0;
        add_damage(dump, ring, "what names its threads", "no recorder writes this", offset);
    }
    read_region(dump, ring, header, file);
    if (!ring->lease_count && !ring->written && !has_refused(ring) && dump->damage_count == damages) {
        free(ring->leases);
        return;
    }
    (void)dump_add_ring(dump, ring);
}

// Reads what names the threads that had a slot without rings.
static void read_names(struct dump *dump, const struct file_header *header, struct bytes file, size_t slot)
{
    struct ring none = {0};
    size_t offset;
    if (read_leases(&none, file.at + header->slots + slot * SLOT_BYTES, file.at, &offset))
        for (size_t k = 0; k < none.lease_count; k++)
            dump_add_name(dump, &none.leases[k]);
    else
        add_damage(dump, NULL, "what names threads", "no recorder writes this", offset);
    free(none.leases);
}

// ---- Sites.

// Reads a site that is there, from its length on. What is wrong with it costs only itself.
static void read_one_site(struct dump *dump, struct bytes file, size_t offset, size_t len, size_t *room)
{
    struct fault fault = {0, ""};
    struct cursor c = {file.at, offset + SITE_HEAD, offset + SITE_HEAD + len, &fault};
    struct site site;
    bool is_read = read_site(&c, &site);
    if (is_read && c.at != c.end)
        is_read = refuse(&c, c.at, "the site's end is expected, and it has %zu bytes more", c.end - c.at);
    if (is_read)
        *add_site(dump, room) = site;
    else
        add_damage(dump, NULL, "a site", fault.text, fault.offset);
}

static void read_sites(struct dump *dump, const struct file_header *header, struct bytes file)
{
    size_t room = 0, end = header->sites + header->sites_len;
    for (size_t at = header->sites; end - at >= SITE_HEAD && number32_at(file.at + at);) {
        size_t taken = number32_at(file.at + at), len = number32_at(file.at + at + 4);
        if (taken % WORD || taken < SITE_HEAD + SITE_NUMBERS || taken > end - at) {
            add_damage(dump, NULL, "what follows in the list of sites", "no site has this length", at);
            return;
        }
        if (len > taken - SITE_HEAD)
            add_damage(dump, NULL, "a site", "it is longer than its room", at + 4);
        else if (len)
            read_one_site(dump, file, at, len, &room);
        at += taken;
    }
}

// Of sites with one id none is known to be right.
static void drop_doubles(struct dump *dump)
{
    size_t kept = 0;
    sort_sites(dump);
    for (size_t k = 0, next; k < dump->site_count; k = next) {
        struct site site = dump->sites[k];
        for (next = k + 1; next < dump->site_count && dump->sites[next].id == site.id; next++)
            add_damage(dump, NULL, "a site", "its id is there twice", dump->sites[next].offset);
        if (next == k + 1)
            dump->sites[kept++] = site;
    }
    dump->site_count = kept;
}

bool is_summed(struct bytes file)
{
    return word_of(file, FILE_SUMMED) == 1;
}

// The checksum of a block. That of the header is of what it says once the recorder has stopped.
static uint32_t sum_of(const struct checksum_table *table, const uint8_t *block, bool is_header)
{
    uint8_t bytes[FILE_BLOCK];
    memcpy(bytes, block, sizeof bytes);
    if (is_header) {
        memset(bytes + FILE_ENDED * WORD, 0, WORD);
        bytes[FILE_ENDED * WORD] = 1;
    }
    return ~checksum_add(table, CHECKSUM_BEGIN, bytes, sizeof bytes);
}

// Finds the blocks of a file that was stopped which aren't as they were then.
static void check_blocks(struct dump *dump, struct bytes file)
{
    static struct checksum_table table;
    size_t end = word_of(file, FILE_SUMS);
    if (!is_summed(file)) {
        if (end && word_of(file, FILE_ENDED) == 1)
            add_damage(dump, NULL, "its end", "no checksums were stored", FILE_SUMMED * WORD);
        return;
    }
    checksum_make(&table);
    for (size_t at = 0; at < end; at += FILE_BLOCK) {
        uint32_t sum = sum_of(&table, file.at + at, at == 0);
        if (sum != number32_at(file.at + end + at / FILE_BLOCK * sizeof sum))
            add_damage(dump, NULL, "a block of the file", "its checksum is another one", at);
    }
}

bool read_flight_file(struct dump *dump, struct bytes file, struct fault *fault)
{
    struct cursor c = {file.at, 0, file.len, fault};
    struct file_header header;
    dump_begin(dump);
    if (!read_file_header(&c, &header))
        return false;
    check_blocks(dump, file);
    read_process(&dump->process, file);
    for (size_t slot = 0; slot < header.ring_slots; slot++)
        for (size_t level = 0; level < header.levels; level++)
            read_ring(dump, &header, file, slot, level);
    for (size_t slot = header.ring_slots; slot < header.slot_count; slot++)
        read_names(dump, &header, file, slot);
    sort_names(dump);
    read_sites(dump, &header, file);
    drop_doubles(dump);
    return true;
}
