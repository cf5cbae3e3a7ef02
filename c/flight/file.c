// The flight recorder's image: its rings, and all that their records need to be read, in the form of a flight file
// (docs/formats/files.md, "Flight file"). It is a file, or memory of the process, which has no room for sites, since a
// dump has them from sites.c. Whatever is stored here is stored so that the process may be killed after any
// instruction.
#define _GNU_SOURCE
#include "../region/heap.h"
#include "recorder.h"

#include <fcntl.h>
#include <stdlib.h>
#include <sys/mman.h>

static uint64_t *word(size_t at)
{
    return flight_recorder.image + at;
}

static uint64_t number(size_t at)
{
    return __atomic_load_n(word(at), __ATOMIC_ACQUIRE);
}

static void store(size_t at, uint64_t value)
{
    __atomic_store_n(word(at), value, __ATOMIC_RELEASE);
}

// ---- Making it.

// The boot of this machine: whoever reads the clocks later knows by it whether these are the same ones. Zeros: unknown.
static void store_boot(void)
{
    char text[64];
    uint64_t boot[2];
    int file = open(FILE_BOOT_ID, O_RDONLY | O_CLOEXEC);
    ssize_t len = file < 0 ? 0 : read(file, text, sizeof text);
    if (file >= 0)
        (void)close(file);
    read_boot(text, len > 0 ? (size_t)len : 0, boot);
    store(FILE_BOOT, boot[0]);
    store(FILE_BOOT + 1, boot[1]);
}

// Where the three areas are, and how long; how long the image is, too. (A file has its checksums behind them.)
static size_t lay_out(uint64_t *areas, bool has_file)
{
    const struct recorder *it = &flight_recorder;
    size_t slots = (it->slot_count * (size_t)SLOT_BYTES + FILE_HEADER - 1) / FILE_HEADER * FILE_HEADER;
    areas[0] = FILE_HEADER;
    areas[1] = it->slot_count * (size_t)SLOT_BYTES;
    areas[2] = FILE_HEADER + slots;
    areas[3] = has_file ? FILE_SITES_ROOM : 0;
    areas[4] = areas[2] + areas[3];
    areas[5] = it->ring_slots * ring_offset(it->config.pages, it->config.size, it->config.levels);
    return areas[4] + areas[5] + (has_file ? sums_len(areas[4] + areas[5]) : 0);
}

// Memory of this process alone, or null.
static void *map_memory(size_t len)
{
    void *made = mmap(NULL, len, PROT_READ | PROT_WRITE, MAP_PRIVATE | MAP_ANONYMOUS, -1, 0);
    return made == MAP_FAILED ? NULL : made;
}

// Maps it. To the heap all rings in it are in one region.
static int map_image(const char *path, size_t len)
{
    struct recorder *it = &flight_recorder;
    void *made = path ? tracering_region_file(path, len) : map_memory(len);
    if (!made)
        return errno;
    it->image = made;
    it->image_len = len;
    it->has_file = path != NULL;
    if (!tracering_heap_hold(made, len))
        return ENOMEM;
    return path && stat(path, &it->file_found) ? errno : 0;
}

int flight_make_image(const char *path)
{
    struct recorder *it = &flight_recorder;
    uint64_t areas[6];
    int fault = map_image(path, lay_out(areas, path != NULL));
    if (fault)
        return fault;
    for (size_t at = 0; at < 6; at++)
        store(FILE_SLOTS + at, areas[at]);
    if (path)
        store(FILE_SUMS, areas[4] + areas[5]);
    for (uint32_t slot = 0; slot < it->slot_count; slot++)
        it->slots[slot].noted = (struct noted *)((uint8_t *)it->image + areas[0]) + slot;
    return 0;
}

void *flight_region_of(uint32_t slot, uint32_t level, size_t *len)
{
    const struct flight_config *config = &flight_recorder.config;
    size_t offset = slot * ring_offset(config->pages, config->size, config->levels);
    offset += ring_offset(config->pages, config->size, level);
    *len = ring_room(config->pages, config->size, level);
    return (uint8_t *)flight_recorder.image + number(FILE_RINGS) + offset;
}

void flight_begin_image(void)
{
    const struct recorder *it = &flight_recorder;
    store(FILE_VERSION, FILE_VERSION_NUMBER);
    store(FILE_SLOT_COUNT, it->slot_count);
    store(FILE_RING_SLOTS, it->cpus ? it->ring_slots : 0);
    store(FILE_LEVELS, it->config.levels);
    store(FILE_PAGES, it->config.pages);
    store(FILE_SIZE, it->config.size);
    store(FILE_CLOCK, it->config.clock);
    store(FILE_PROCESS, (uint64_t)getpid());
    store_boot();
    store(FILE_STARTED, it->started);
    store(FILE_STARTED_REAL, it->started_real);
    memcpy(word(FILE_NAME), it->program, FILE_NAME_SIZE);
    flight_stamp();
    // Those of a recorder that ran before keep their ids.
    for (const uint32_t *known = flight_next_site(NULL); known; known = flight_next_site(known))
        flight_put_site(known);
    store(FILE_MAGIC, FILE_MAGIC_NUMBER);
}

// ---- Letting go of it. (If an end of a ring couldn't be freed, the memory stays.)

static void unmap(void)
{
    struct recorder *it = &flight_recorder;
    if (it->image) {
        tracering_heap_let_go(it->image, it->image_len);
        (void)tracering_region_unmap(it->image, it->image_len);
    }
    it->image = NULL;
}

// Stores the checksum of each block of a file that nothing is stored in any more: before that, each would cost each
// event. (That of the header has the words that say that it ended, and that they are there.)
static void put_sums(void)
{
    uint64_t header[FILE_HEADER / sizeof(uint64_t)];
    const uint8_t *image = (const uint8_t *)flight_recorder.image;
    size_t end = number(FILE_SUMS);
    uint32_t *sums = (uint32_t *)(void *)((uint8_t *)flight_recorder.image + end);
    if (!flight_is_readable(image, flight_recorder.image_len))
        return;
    memcpy(header, image, sizeof header);
    header[FILE_ENDED] = header[FILE_SUMMED] = 1;
    sums[0] = flight_checksum(header, sizeof header);
    for (size_t block = 1; block < end / FILE_BLOCK; block++)
        sums[block] = flight_checksum(image + block * FILE_BLOCK, FILE_BLOCK);
    store(FILE_SUMMED, 1);
}

void flight_end_image(void)
{
    flight_stamp();
    // (What has checksums has ended: so there is no moment at which one of both is missing.)
    if (flight_recorder.has_file)
        put_sums();
    store(FILE_ENDED, 1);
    unmap();
}

void flight_drop_image(const char *path)
{
    if (flight_recorder.image && path)
        (void)unlink(path);
    unmap();
}

// Puts memory of this process alone in the file's place.
static bool replace_file(int protection)
{
    int flags = MAP_PRIVATE | MAP_ANONYMOUS | MAP_FIXED | MAP_NORESERVE;
    return mmap(flight_recorder.image, flight_recorder.image_len, protection, flags, -1, 0) != MAP_FAILED;
}

// (A TRACE that the fork interrupted goes on in the child, as well: its stores are the child's alone. If there is no
// memory for them, they end the child, and whatever happens, they don't go to its parent's file.)
void flight_leave_file(void)
{
    bool has_file = flight_recorder.image && flight_recorder.has_file;
    if (has_file && !replace_file(PROT_READ | PROT_WRITE) && !replace_file(PROT_NONE))
        _exit(EXIT_FAILURE);
    flight_recorder.image = NULL;
}

// Asks the kernel about a word: it reads the word before it finds that the call asks for nothing known. (A load would
// end the process, if the page is no more in the file.)
static bool has_word(const uint8_t *at)
{
    return !syscall(SYS_rt_sigprocmask, -1, at, NULL, sizeof(uint64_t)) || errno != EFAULT;
}

bool flight_is_readable(const void *bytes, size_t len)
{
    const uint8_t *at = bytes;
    if (!flight_recorder.has_file)
        return true;
    for (size_t offset = 0; offset < len; offset += FILE_HEADER)
        if (!has_word(at + offset))
            return false;
    return has_word(at + len - sizeof(uint64_t));
}

// ---- What is stored while it runs.

// There are two pairs, of which one is whole at any time. If another thread is storing one, that is as good.
void flight_stamp(void)
{
    if (!flight_recorder.has_file || !flight_recorder.image)
        return;
    uint64_t stamps = number(FILE_STAMPS);
    if (stamps & 1
        || !__atomic_compare_exchange_n(word(FILE_STAMPS), &stamps, stamps + 1, false, __ATOMIC_SEQ_CST,
            __ATOMIC_SEQ_CST))
        return;
    size_t pair = stamp_word(stamps + 2);
    store(pair, flight_moment());
    store(pair + 1, nanoseconds(CLOCK_REALTIME));
    store(FILE_STAMPS, stamps + 2);
}

// ---- Sites.

// Gets this much room after the sites that are there, or null. A room is stated by the exchange that gets it: whoever
// finds one stated goes on after it, whether it has a site yet or never will.
static uint32_t *get_room(size_t room)
{
    uint8_t *sites = (uint8_t *)flight_recorder.image + number(FILE_SITES);
    for (;;) {
        uint64_t used = number(FILE_SITES_USED);
        if (room > number(FILE_SITES_LEN) - used)
            return NULL;
        uint32_t *head = (uint32_t *)(sites + used), found = 0;
        bool is_got = __atomic_compare_exchange_n(head, &found, (uint32_t)room, false, __ATOMIC_SEQ_CST,
            __ATOMIC_SEQ_CST);
        (void)__atomic_compare_exchange_n(word(FILE_SITES_USED), &used, used + (is_got ? room : found), false,
            __ATOMIC_SEQ_CST, __ATOMIC_SEQ_CST);
        if (is_got)
            return head;
    }
}

void flight_put_site(const uint32_t *known)
{
    uint32_t room = known[0], len = __atomic_load_n(known + 1, __ATOMIC_ACQUIRE);
    uint32_t *head = len && flight_recorder.has_file ? get_room(room) : NULL;
    if (!head)
        return;
    memcpy(head + 2, known + 2, len);
    __atomic_store_n(head + 1, len, __ATOMIC_RELEASE);
}
