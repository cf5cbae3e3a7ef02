// The flight recorder: dumps (docs/formats/files.md, "Flight dump").
#define _GNU_SOURCE
#include "checksum.h"
#include "recorder.h"
#include "../region/layout.h"
#include "../region/order.h"

static struct checksum_table table;
static uint32_t sum;      // of the section that is put
static uint32_t sections; // how many were put
uint32_t flight_crash_dumps;

void flight_prepare_dumps(void)
{
    checksum_make(&table);
}

uint32_t flight_checksum(const void *bytes, size_t len)
{
    return ~checksum_add(&table, CHECKSUM_BEGIN, bytes, len);
}

// ---- Sections. Each ends with the checksum of what it has.

static void put_bytes(const void *bytes, size_t len)
{
    sum = checksum_add(&table, sum, bytes, len);
    flight_put_bytes(bytes, len);
}

static void put_32(uint32_t number)
{
    put_bytes(&number, sizeof number);
}

static void put_64(uint64_t number)
{
    put_bytes(&number, sizeof number);
}

static void put_text(const char *text, size_t len)
{
    put_32((uint32_t)len);
    put_bytes(text, len);
}

static void begin_section(const char *kind, uint64_t len)
{
    sum = CHECKSUM_BEGIN;
    put_bytes(kind, 4);
    put_32(0);
    put_64(len);
}

static void end_section(void)
{
    put_64(~sum);
    sections++;
}

static void put_process(int signal)
{
    size_t len = strnlen(flight_recorder.program, sizeof flight_recorder.program);
    begin_section("PROC", 4 * 4 + 5 * 8 + 4 + len);
    put_32((uint32_t)getpid());
    put_32(this_thread());
    put_32((uint32_t)signal);
    put_32(flight_recorder.config.clock);
    put_64(flight_recorder.started);
    put_64(flight_recorder.started_real);
    put_64(flight_moment());
    put_64(nanoseconds(CLOCK_REALTIME));
    put_64(flight_without_ring());
    put_text(flight_recorder.program, len);
    end_section();
}

// ---- Rings.

// A ring whose region was copied.
struct copied {
    uint32_t number, level;
    uint64_t written; // how many records it has completed
    size_t pages;     // that have one, by their fills: flight_recorder.pages
};

static size_t name_len(const struct lease *lease)
{
    return strnlen((const char *)lease->name, NAME_SIZE);
}

// Which of the leases that are kept has this number, from 0 on: null after the last one that began by then. (One that
// began later has no record here.)
static const struct lease *lease_at(const struct leases *leases, const struct copied *ring, uint64_t number)
{
    uint64_t at = number + (leases->count > LEASES ? leases->count - LEASES : 0);
    const struct lease *lease = &leases->of[at % LEASES];
    return at < leases->count && lease->first[ring->level] <= ring->written ? lease : NULL;
}

static uint32_t count_leases(const struct leases *leases, const struct copied *ring, uint64_t *len)
{
    uint32_t count = 0;
    for (const struct lease *lease; (lease = lease_at(leases, ring, count)); count++)
        *len += 8 + 4 + 4 + name_len(lease);
    return count;
}

static uint64_t fill_of(const uint8_t *page)
{
    uint64_t fill;
    memcpy(&fill, page + SLOT_FILL * sizeof fill, sizeof fill);
    return fill;
}

// Puts a page among those before it, by its fill. (They come in that order, but for where the ring begins anew.)
static void add_page(const uint8_t **pages, size_t count, const uint8_t *page)
{
    for (; count && fill_of(pages[count - 1]) > fill_of(page); count--)
        pages[count] = pages[count - 1];
    pages[count] = page;
}

// The slot of the page with the lowest fill.
static size_t oldest_slot(const uint8_t *region, size_t len, size_t slots)
{
    const void *page;
    size_t page_len, oldest = 0;
    uint64_t least = UINT64_MAX;
    for (size_t slot = 0; slot < slots; slot++)
        if (tracering_region_slot(region, len, slot, &page, &page_len) == TRACERING_DONE && fill_of(page) < least) {
            least = fill_of(page);
            oldest = slot;
        }
    return oldest;
}

// Finds the pages of a copy, and which number comes after their last record.
static void find_pages(struct copied *ring, const uint8_t *region, size_t len)
{
    struct tracering_region about = {0};
    (void)tracering_region_about(region, len, &about);
    size_t slots = about.pages + 1, oldest = oldest_slot(region, len, slots), page_len;
    const void *page;
    uint64_t end;
    for (size_t slot = 0; slot < slots; slot++)
        if (tracering_region_slot(region, len, (oldest + slot) % slots, &page, &page_len) == TRACERING_DONE)
            add_page(flight_recorder.pages, ring->pages++, page);
    if (ring->pages && tracering_region_end(flight_recorder.pages[ring->pages - 1], &end) && end > ring->written)
        ring->written = end;
}

// What is in a page's parcel, with what is before its data.
static size_t parcel_len(const uint8_t *page)
{
    uint64_t commit;
    memcpy(&commit, page + SLOT_COMMIT * sizeof commit, sizeof commit);
    return TRACERING_HEADER + (size_t)commit;
}

static void put_leases(const struct leases *leases, const struct copied *ring, uint32_t count)
{
    put_32(count);
    for (uint32_t at = 0; at < count; at++) {
        const struct lease *lease = lease_at(leases, ring, at);
        put_64(lease->first[ring->level]);
        put_32((uint32_t)lease->thread);
        put_text((const char *)lease->name, name_len(lease));
    }
}

static void put_ring(const struct slot *slot, const struct copied *ring, const struct leases *leases)
{
    uint64_t len = 4 * 4 + 8 + SLOT_REASONS * 8 + 4;
    uint32_t count = count_leases(leases, ring, &len);
    begin_section("RING", len);
    put_32(ring->number);
    put_32((uint32_t)(slot - flight_recorder.slots));
    put_32(ring->level);
    put_32((uint32_t)ring->pages);
    put_64(ring->written);
    for (size_t reason = 0; reason < SLOT_REASONS; reason++)
        put_64(__atomic_load_n(&slot->noted->refused[ring->level][reason], __ATOMIC_RELAXED));
    put_leases(leases, ring, count);
    end_section();
    for (size_t at = 0; at < ring->pages; at++) {
        const uint8_t *page = flight_recorder.pages[at];
        begin_section("PAGE", parcel_len(page));
        put_bytes(page, parcel_len(page));
        end_section();
    }
}

static uint8_t *copy_of(uint32_t level)
{
    return flight_recorder.copies + ring_offset(flight_recorder.config.pages, flight_recorder.config.size, level);
}

// Copies the region of a ring, and answers at least how many records it had completed before: they may all have been
// overwritten meanwhile. (Another process may have cut the recorder's file, or zeroed it.)
static bool copy_ring(const struct slot *slot, uint32_t level, uint64_t *written)
{
    size_t len;
    const void *region = flight_region_of((uint32_t)(slot - flight_recorder.slots), level, &len);
    *written = records_of(&slot->rings[level]);
    return flight_is_readable(region, len)
        && tracering_region_copy(region, len, copy_of(level), len) == TRACERING_DONE;
}

// Puts the rings of a slot, if a thread has had it. What names their threads is copied after them: so whoever wrote a
// record that was copied is named.
static void put_slot(const struct slot *slot)
{
    uint32_t levels = flight_recorder.config.levels;
    uint64_t written[MOST_LEVELS];
    struct leases leases;
    if (!flight_is_readable(slot->noted, sizeof *slot->noted)) {
        flight_fail_output(EIO);
        return;
    }
    if (!flight_recorder.cpus && !__atomic_load_n(&slot->noted->leases.count, __ATOMIC_SEQ_CST))
        return;
    for (uint32_t level = 0; level < levels; level++)
        if (!copy_ring(slot, level, &written[level])) {
            flight_fail_output(EIO);
            return;
        }
    flight_copy_leases(&leases, slot);
    for (uint32_t level = 0; level < levels; level++) {
        struct copied ring = {(uint32_t)(slot - flight_recorder.slots) * levels + level, level, written[level], 0};
        find_pages(&ring, copy_of(level), ring_room(flight_recorder.config.pages, flight_recorder.config.size, level));
        put_ring(slot, &ring, &leases);
    }
}

// Puts what names the threads that had a slot without rings, if there was one.
static void put_names(const struct slot *slot)
{
    static const struct copied none = {.written = UINT64_MAX};
    struct leases leases;
    uint64_t len = 4;
    if (!flight_is_readable(slot->noted, sizeof *slot->noted)) {
        flight_fail_output(EIO);
        return;
    }
    flight_copy_leases(&leases, slot);
    uint32_t count = count_leases(&leases, &none, &len);
    if (!count)
        return;
    begin_section("NAME", len);
    put_leases(&leases, &none, count);
    end_section();
}

// ---- The whole.

static void put_sites(void)
{
    for (const uint32_t *known = flight_next_site(NULL); known; known = flight_next_site(known)) {
        uint32_t len = __atomic_load_n(known + 1, __ATOMIC_ACQUIRE);
        if (!len)
            continue;
        begin_section("SITE", len);
        put_bytes(known + 2, len);
        end_section();
    }
}

// (What other threads have stored so far is seen from here on: that a slot is used, too.)
static void put_all(int signal)
{
    sections = 0;
    (void)tracering_order(true);
    const uint64_t *header = flight_recorder.image;
    if (!flight_is_readable(header, FILE_HEADER) || header[FILE_MAGIC] != FILE_MAGIC_NUMBER) {
        flight_fail_output(EIO);
        return;
    }
    put_bytes("TRFLIGHT", 8);
    put_32(2);
    put_32(0);
    put_process(signal);
    for (uint32_t at = 0; at < flight_recorder.slot_count && !flight_has_output_fault(); at++)
        (at < flight_recorder.ring_slots ? put_slot : put_names)(&flight_recorder.slots[at]);
    put_sites();
    uint32_t before = sections;
    begin_section("ENDS", 8);
    put_32(before);
    put_32(0);
    end_section();
}

// (That somebody else does is no fault of its own, since open, rename and others may answer EBUSY.)
bool flight_try_dump(const char *path, int signal, bool is_last, int *fault)
{
    sigset_t signals;
    int before = errno;
    block_signals(&signals);
    flight_hide();
    bool is_alone = exchange_if(&flight_is_dumping, 0, 1);
    if (is_alone) {
        *fault = load(&flight_running) ? flight_write_path(path, put_all, signal) : ENODEV;
        if (!*fault && signal && !is_last)
            (void)__atomic_add_fetch(&flight_crash_dumps, 1, __ATOMIC_SEQ_CST);
        if (!is_last)
            change(&flight_is_dumping, 0);
    }
    flight_show();
    unblock_signals(&signals);
    errno = before;
    return is_alone;
}

int flight_dump(const char *path)
{
    int fault;
    if (!path)
        return EINVAL;
    return flight_try_dump(path, 0, false, &fault) ? fault : EBUSY;
}
