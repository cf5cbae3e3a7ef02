// Regions of rings that are dead, or that others write meanwhile.
#include "layout.h"
#include "order.h"

#include <string.h>

// How often a copy is tried of which nothing is left.
enum { MOST_TRIES = 1000 };

// A word of a region that nobody writes. (It may be anywhere.)
static uint64_t word_at(const void *at, size_t word)
{
    uint64_t found;
    memcpy(&found, (const unsigned char *)at + word * sizeof found, sizeof found);
    return found;
}

static void put_word(void *at, size_t word, uint64_t value)
{
    memcpy((unsigned char *)at + word * sizeof value, &value, sizeof value);
}

// A load that the compiler leaves where it is. (What orders it with others is `order`, below. That it acquires is for
// what is stored with release: the letters of a region, last of its header, and `ended`.)
static uint64_t load(const uint64_t *at)
{
    return __atomic_load_n(at, __ATOMIC_ACQUIRE);
}

// Reads the words of a region's header. (Where a ring can write, they are loaded.)
static void read_header(const void *region, uint64_t *header)
{
    for (size_t word = 0; word < HEADER_WORDS; word++)
        header[word] = is_aligned(region) ? load((const uint64_t *)region + word) : word_at(region, word);
}

// Whether the words of a header are a region's that has at most `len` bytes.
static bool is_header(const uint64_t *header, size_t len)
{
    return header[MAGIC_WORD] == REGION_MAGIC && header[VERSION_WORD] == REGION_VERSION
        && has_limits(header[PAGES_WORD], header[SIZE_WORD]) && header[CPU_WORD] < MAX_CPUS
        && header[ENDED_WORD] <= 1 && len >= slot_offset(header[SIZE_WORD], header[PAGES_WORD] + 1);
}

static void describe(const uint64_t *header, struct tracering_region *about)
{
    about->pages = header[PAGES_WORD];
    about->size = header[SIZE_WORD];
    about->cpu = (uint32_t)header[CPU_WORD];
    about->has_ended = header[ENDED_WORD] == 1;
    about->stream = header[STREAM_WORD];
    about->taken = header[TAKEN_WORD];
    about->len = slot_offset(about->size, about->pages + 1);
}

int32_t tracering_region_about(const void *region, size_t len, struct tracering_region *about)
{
    if (!(region && about))
        return TRACERING_NULL;
    uint64_t header[HEADER_WORDS];
    if (len < TRACERING_REGION_HEADER)
        return TRACERING_BAD_REGION;
    read_header(region, header);
    if (!is_header(header, len))
        return TRACERING_BAD_REGION;
    describe(header, about);
    return TRACERING_DONE;
}

// ---- Copies of what is written.

// The slots of a live region, and of its copy.
struct slots {
    const unsigned char *from;
    unsigned char *to;
    size_t count, size;
    bool is_offered, is_ordered; // `order`, by the writer's process; whether each one so far was done
};

// Where loads are ordered: each of these is before all loads that come after it here. docs/formats/pages.md, "While it
// is written", says what each one is for.
enum place {
    AFTER_HEADER,
    AFTER_NOTED,
    AFTER_FILLS,
    AFTER_COMMITS,
    AFTER_WORDS,
    AFTER_LOOK,
    AFTER_TAKEN
};

// What was stored before anything that was loaded so far is seen from here on. (tests/c/survive plants here and below.)
static void order(struct slots *slots, enum place place)
{
#ifdef PLANT_UNORDERED
    if (place == PLANT_UNORDERED)
        return;
#endif
    (void)place;
    slots->is_ordered = slots->is_ordered && tracering_order(slots->is_offered);
}

static const uint64_t *slot_of(const struct slots *slots, size_t slot)
{
    return (const uint64_t *)(const void *)(slots->from + slot_offset(slots->size, slot));
}

static unsigned char *copy_of(const struct slots *slots, size_t slot)
{
    return slots->to + slot_offset(slots->size, slot);
}

// Whether what the copy of a slot says was there is there still.
static bool is_same(const uint64_t *slot, const unsigned char *copy)
{
#ifdef PLANT_NOT_LOOKED_AGAIN
    (void)slot, (void)copy;
    return true;
#else
    return load(slot + SLOT_FILL) == word_at(copy, SLOT_FILL)
        && load(slot + SLOT_COMMIT) >= word_at(copy, SLOT_COMMIT);
#endif
}

// The fill of each slot.
static void copy_fills(const struct slots *slots)
{
    for (size_t slot = 0; slot < slots->count; slot++)
        put_word(copy_of(slots, slot), SLOT_FILL, load(slot_of(slots, slot) + SLOT_FILL));
}

// The newest of these fills that has something, or had when a newer one began. Those before it are whole from here on:
// pages are committed in their order.
static inline uint64_t newest_fill(const struct slots *slots)
{
    uint64_t newest = 0;
    for (size_t slot = 0; slot < slots->count; slot++) {
        uint64_t fill = word_at(copy_of(slots, slot), SLOT_FILL);
        if (load(slot_of(slots, slot) + SLOT_COMMIT) && fill > newest)
            newest = fill;
    }
    return newest;
}

// How much each slot has of its fill, and nothing of fills newer than this one.
static void copy_commits(const struct slots *slots, uint64_t newest)
{
    for (size_t slot = 0; slot < slots->count; slot++) {
        unsigned char *copy = copy_of(slots, slot);
        bool is_known = word_at(copy, SLOT_FILL) <= newest;
        put_word(copy, SLOT_COMMIT, is_known ? load(slot_of(slots, slot) + SLOT_COMMIT) : 0);
    }
}

// The other words of each slot, as far as it has something.
static void copy_words(const struct slots *slots)
{
    for (size_t slot = 0; slot < slots->count; slot++) {
        unsigned char *copy = copy_of(slots, slot);
        uint64_t commit = word_at(copy, SLOT_COMMIT);
        size_t words = SLOT_WORDS + ((commit < slots->size ? (size_t)commit : slots->size) + 7) / 8;
        for (size_t word = 0; word < words; word++)
            if (word != SLOT_FILL && word != SLOT_COMMIT)
                put_word(copy, word, load(slot_of(slots, slot) + word));
    }
}

// Empties the copies of slots that were begun again since; whether there was one.
static bool drop_overwritten(const struct slots *slots)
{
    bool dropped = false;
    for (size_t slot = 0; slot < slots->count; slot++) {
        unsigned char *copy = copy_of(slots, slot);
        if (!word_at(copy, SLOT_COMMIT) || is_same(slot_of(slots, slot), copy))
            continue;
        put_word(copy, SLOT_COMMIT, 0);
        dropped = true;
    }
    return dropped;
}

// Copies each slot as it was at one moment, or leaves its copy empty. The writer zeroes commit before it stores a new
// fill, and overwrites data after that: if fill is the same before and after, and commit no less, then nothing that
// was committed before has changed. (Fill is loaded first: else commit may be of the fill before.)
// Pages newer than the newest one before are left out: in the copy that one may lack its last records. (The fills are
// loaded again, since a page before that one may have been begun behind the loads that found it.) All pages that stay
// were there at one moment, when all that are left out had been overwritten: so the copy shows what was lost as a
// region does that nobody writes.
static void copy_once(struct slots *slots)
{
    copy_fills(slots);
    order(slots, AFTER_NOTED);
    uint64_t newest = newest_fill(slots);
#ifdef PLANT_NEWER_PAGES_STAY
    newest = UINT64_MAX;
#endif
    copy_fills(slots);
    order(slots, AFTER_FILLS);
    copy_commits(slots, newest);
    order(slots, AFTER_COMMITS);
    copy_words(slots);
    order(slots, AFTER_WORDS);
    while (drop_overwritten(slots))
        order(slots, AFTER_LOOK);
}

// Whether a page of the copy has something.
static bool has_page(const struct slots *slots)
{
    for (size_t slot = 0; slot < slots->count; slot++)
        if (word_at(copy_of(slots, slot), SLOT_COMMIT))
            return true;
    return false;
}

// Whether a slot has something.
static bool has_commit(const struct slots *slots)
{
    for (size_t slot = 0; slot < slots->count; slot++)
        if (load(slot_of(slots, slot) + SLOT_COMMIT))
            return true;
    return false;
}

// If all pages were overwritten meanwhile, it is tried again: whoever copies may have been halted.
static void copy_slots(struct slots *slots)
{
    int tries = 0;
    do
        copy_once(slots);
    while (!has_page(slots) && has_commit(slots) && ++tries < MOST_TRIES);
}

// Whether the ring is still the one of this header: another one that is made in the region takes the magic away before
// it stores anything else, and has another stream.
static bool is_same_ring(const uint64_t *region, const uint64_t *header)
{
#ifdef PLANT_RING_NOT_LOOKED_AGAIN
    (void)region, (void)header;
#else
    for (size_t word = 0; word < TAKEN_WORD; word++)
        if (load(region + word) != header[word])
            return false;
#endif
    return true;
}

int32_t tracering_region_copy(const void *region, size_t len, void *copy, size_t copy_len)
{
    if (!(region && copy))
        return TRACERING_NULL;
    if (!is_aligned(region) || len < TRACERING_REGION_HEADER)
        return TRACERING_BAD_REGION;
    const uint64_t *from = region;
    uint64_t header[HEADER_WORDS];
    read_header(region, header);
    if (!is_header(header, len))
        return TRACERING_BAD_REGION;
    struct slots slots = {region, copy, header[PAGES_WORD] + 1, header[SIZE_WORD], header[ORDERED_WORD] == 1, true};
    if (copy_len < slot_offset(slots.size, slots.count))
        return TRACERING_NO_ROOM;
    memset(copy, 0, TRACERING_REGION_HEADER);
    order(&slots, AFTER_HEADER);
    copy_slots(&slots);
    // (`ended` was loaded before all slots, and `taken` after it was found which were begun again: neither says of a
    // record that has no slot here that it never was, or was never taken.)
    header[TAKEN_WORD] = load(from + TAKEN_WORD);
    order(&slots, AFTER_TAKEN);
    if (!slots.is_ordered || !is_same_ring(from, header))
        return TRACERING_BAD_REGION;
    memcpy(copy, header, sizeof header);
    return TRACERING_DONE;
}

// What is wrong with a slot that has something, in the order of a parcel's faults.
static int32_t fault_of(const unsigned char *slot, const struct tracering_region *about)
{
    if (word_at(slot, SLOT_CPU) != about->cpu)
        return TRACERING_BAD_CPU;
    if (word_at(slot, SLOT_COMMIT) > about->size)
        return TRACERING_BAD_IMAGE_SIZE;
    return word_at(slot, SLOT_MISSED) ? TRACERING_MISSED_DIFFERS : TRACERING_DONE;
}

// The data of a slot, of which some words are read: what is left, and the time and the number after these words.
struct words {
    const unsigned char *data;
    size_t left;
    uint64_t time, end;
};

enum { PADDING_TYPE = 29, EXTEND_TYPE, STAMP_TYPE };

// How many bytes a word takes, by its first four bytes and the four that may follow them; 0: none is so long.
static uint64_t word_len(uint32_t first, uint32_t second)
{
    uint32_t type = first & 31;
    if (type > PADDING_TYPE)
        return 8;
    if (type != 0 && type != PADDING_TYPE)
        return 4 + 4 * type;
    return second >= 4 && second % 4 == 0 ? 4 + (uint64_t)second : 0;
}

// Reads the next word; whether it is whole, and the time and the number after it fit 64 bits.
static bool read_word(struct words *words)
{
    uint32_t two[2] = {0, 0};
    memcpy(two, words->data, words->left < sizeof two ? words->left : sizeof two);
    uint32_t type = two[0] & 31, delta = two[0] >> 5;
    uint64_t len = word_len(two[0], two[1]), time = delta + ((uint64_t)two[1] << 27), added = 0;
    if (words->left < 4 || !len || len > words->left)
        return false;
    words->data += len;
    words->left -= len;
    if (type == STAMP_TYPE)
        words->time = time;
    else if (type != PADDING_TYPE)
        added = type == EXTEND_TYPE ? time : delta;
    return !__builtin_add_overflow(words->time, added, &words->time)
        && !__builtin_add_overflow(words->end, type < PADDING_TYPE, &words->end);
}

// Whether a padding without a delta is next, which ends the page whatever follows.
static bool is_end(const struct words *words)
{
    static const unsigned char padding[] = {PADDING_TYPE, 0, 0, 0};
    return !words->left || (words->left >= sizeof padding && !memcmp(words->data, padding, sizeof padding));
}

bool tracering_region_end(const void *slot, uint64_t *end)
{
    const unsigned char *at = slot;
    struct words words = {at + TRACERING_HEADER, word_at(at, SLOT_COMMIT), word_at(at, SLOT_TIME),
        word_at(at, SLOT_FIRST)};
    while (!is_end(&words))
        if (!read_word(&words))
            return false;
    *end = words.end;
    return true;
}

// Whether a slot is a page, and the number after its last record is below this one.
static bool ends_below(const unsigned char *slot, uint64_t number)
{
    uint64_t end;
    return number && tracering_region_end(slot, &end) && end < number;
}

int32_t tracering_region_slot(const void *region, size_t len, size_t slot, const void **bytes, size_t *bytes_len)
{
    if (!(region && bytes && bytes_len))
        return TRACERING_NULL;
    struct tracering_region about;
    int32_t code = tracering_region_about(region, len, &about);
    if (code != TRACERING_DONE)
        return code;
    if (slot > about.pages)
        return TRACERING_END;
    const unsigned char *at = (const unsigned char *)region + slot_offset(about.size, slot);
    if (!word_at(at, SLOT_COMMIT))
        return TRACERING_EMPTY;
    code = fault_of(at, &about);
    // (A page that ends below `taken` was taken before the last page that was, or is overwritten: it stays as it was
    // until its slot is used again.)
    if (code == TRACERING_DONE && ends_below(at, about.taken))
        return TRACERING_EMPTY;
    if (code == TRACERING_DONE) {
        *bytes = at;
        *bytes_len = TRACERING_HEADER + word_at(at, SLOT_COMMIT);
    }
    return code;
}
