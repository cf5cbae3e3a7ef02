// Copies regions, and at each load of a copy in turn the ring goes on: records are written or a page is taken; or it is
// freed, and another one is made in its memory. A copy has the one ring or the other, as it was at some moment, with
// all that was there before and isn't overwritten or taken; or, if it is of two rings, it is refused, and is no region.
//
//     region_amid
//
// The loads of a copy are those of c/region/look.c, which are counted here. All is tried again where stores pass each
// other: until the copy's next order each word that the act has stored is seen, or not yet.
#define _GNU_SOURCE
#include "region_account.h"
#include "../../c/region/order.h"

static uint64_t load_amid(const uint64_t *at);
static bool order_amid(void);

#define __atomic_load_n(at, order) load_amid(at)
#define tracering_order(is_offered) ((void)(is_offered), order_amid())
#include "../../c/region/look.c"
#undef __atomic_load_n
#undef tracering_order

enum { PAGES = 4, SIZE = 64, CPU = 7, FORMER = 1, LATER = 2, MOST_TAKEN = 64, MOST_BEFORE = 36, WORDS = 256 };
// How often all is tried where stores pass each other.
enum { WEAK_TRIES = 3 };

// What is done during a copy: another ring is made, this many pages are taken, this many records are written. Before it
// so many are nested in one that is begun: if there is one, that is ended first.
struct act {
    bool remakes;
    int takes, records, nested;
};

struct run {
    struct tracering_writer writer;
    struct tracering_reader reader;
    uint64_t stream;           // of the ring that is there: its records' source, too
    uint32_t ids;              // how many records it has
    uint64_t fills, taken_end; // the fill and the number after the last page taken
    uint64_t former_end;       // that number of the former ring, once there is another one
    struct tracering_taken taken[MOST_TAKEN];
    size_t taken_count;
    struct act act;
    uint64_t loads, act_at; // the act comes before this load, by its number from 1 on
};

static struct run run;
static _Alignas(TRACERING_REGION_ALIGN) unsigned char region[8 * WORDS], copy[8 * WORDS];
static size_t len;

// Where stores pass each other: what each word was before the act, and which words are seen as they are since.
static struct {
    bool is_tried, is_acted, is_seen[WORDS];
    uint64_t was[WORDS], random;
} weak;

static bool make(uint64_t stream)
{
    run.stream = stream;
    run.ids = 0;
    run.fills = run.taken_end = run.taken_count = 0;
    int32_t code = tracering_new_in(&run.writer, &run.reader, CPU, PAGES, SIZE, stream, region, len);
    return code == TRACERING_DONE || fault("no ring is made", stream, (uint64_t)code);
}

static void release(void)
{
    (void)tracering_writer_free(&run.writer, NULL);
    (void)tracering_reader_free(&run.reader);
}

static void write_records(int count)
{
    unsigned char bytes[LONGEST];
    for (; count > 0; count--, run.ids++) {
        size_t record_len = make_record((uint32_t)run.stream, run.ids, SIZE, bytes);
        if (tracering_write(&run.writer, 1000 * run.stream + run.ids, bytes, record_len) != TRACERING_DONE)
            abort();
    }
}

static void take_pages(int count)
{
    unsigned char out[TRACERING_HEADER + SIZE];
    struct tracering_taken taken;
    for (; count > 0 && run.taken_count < MOST_TAKEN; count--) {
        if (tracering_take(&run.reader, out, sizeof out, &taken) != TRACERING_DONE)
            return;
        run.taken[run.taken_count++] = taken;
        run.fills = taken.fill + 1;
        run.taken_end = taken.first + taken.count;
    }
}

// Reserves a record and writes others that are nested in it: pages are begun before those before them are committed.
static void begin_record(int nested)
{
    unsigned char bytes[LONGEST];
    size_t record_len = make_record((uint32_t)run.stream, run.ids, SIZE, bytes);
    if (tracering_begin(&run.writer, 1000 * run.stream + run.ids, record_len) != TRACERING_DONE
        || tracering_finish(&run.writer) != TRACERING_RESERVED
        || tracering_put(&run.writer, bytes, record_len) != TRACERING_DONE)
        abort();
    run.ids++;
    write_records(nested);
}

static void end_record(void)
{
    if (tracering_end(&run.writer) != TRACERING_DONE || tracering_finish(&run.writer) != TRACERING_DONE)
        abort();
}

static void act(void)
{
    if (run.act.nested)
        end_record();
    if (run.act.remakes) {
        run.former_end = run.taken_end;
        release();
        if (!make(LATER))
            abort();
    }
    take_pages(run.act.takes);
    write_records(run.act.records);
}

// What this word is seen as. From when its new value was seen on it is no more seen as it was.
static uint64_t seen(const uint64_t *at)
{
    size_t word = (size_t)(at - (const uint64_t *)(const void *)region);
    weak.random ^= weak.random << 13;
    weak.random ^= weak.random >> 7;
    weak.random ^= weak.random << 17;
    weak.is_seen[word] |= weak.random >> 20 & 1;
    return weak.is_seen[word] ? *at : weak.was[word];
}

static uint64_t load_amid(const uint64_t *at)
{
    if (++run.loads == run.act_at) {
        memcpy(weak.was, region, sizeof weak.was);
        memset(weak.is_seen, 0, sizeof weak.is_seen);
        weak.is_acted = weak.is_tried;
        act();
    }
    return weak.is_acted ? seen(at) : __atomic_load_n(at, __ATOMIC_ACQUIRE);
}

static bool order_amid(void)
{
    weak.is_acted = false;
    return true;
}

// All records of the copy are of the ring whose stream it says.
static bool are_of(struct tracering_collector *c, uint64_t stream)
{
    unsigned char bytes[LONGEST];
    struct tracering_line line;
    if (tracering_collector_list(c, &(size_t){0}) != TRACERING_DONE)
        return fault("there is no memory", 0, 0);
    while (tracering_collector_next(c, bytes, sizeof bytes, &line) == TRACERING_DONE) {
        struct record_head head;
        memcpy(&head, bytes, sizeof head);
        if (head.source != stream)
            return fault("a record is of the other ring", head.source, line.number);
    }
    return true;
}

// None of the numbers from this one up to the other was taken.
static bool are_lost(uint64_t first, uint64_t end)
{
    for (size_t k = 0; k < run.taken_count; k++)
        if (run.taken[k].first < end && first < run.taken[k].first + run.taken[k].count)
            return fault("what is said to be lost was taken", first, end);
    return true;
}

// If no page was taken, all that are there were there at one moment: the ring has them one after another.
static bool are_together(const struct found *found)
{
    for (size_t k = 1; k < found->count && !run.taken_count; k++)
        if (found->pages[k].fill != found->pages[k - 1].fill + 1)
            return fault("a page is left out before one that was there earlier", found->pages[k].fill, k);
    return true;
}

static bool tells_losses(const struct found *found)
{
    bool is_so = !found->count || found->taken >= found->pages[0].first
        || are_lost(found->taken, found->pages[0].first);
    for (size_t k = 1; k < found->count; k++)
        is_so = is_so && are_lost(found->pages[k - 1].end, found->pages[k].first);
    return is_so;
}

// A copy that wasn't refused is of the ring that is there; or of the former one, if the other one isn't seen yet.
static bool is_of_one(const struct tracering_region *about)
{
    if (about->stream == run.stream)
        return true;
    bool is_former = weak.is_tried && run.act.remakes && about->taken == run.former_end;
    return is_former || fault("a copy is of two rings", about->stream, about->taken);
}

// A copy of the former ring that wasn't refused, before which there were `rest` records, in fills up to the newest.
static bool copy_holds(uint64_t rest, uint64_t newest)
{
    struct tracering_collector c = TRACERING_COLLECTOR_INIT;
    struct tracering_region about;
    struct found found;
    uint64_t begun, later;
    (void)tracering_collector_new(&c);
    look_at_fills(region, len, PAGES, &begun, &later);
    bool is_so = find_pages(copy, len, &c, &found) && are_in_order(&found)
        && lists_records(&c, SIZE, &found.records) && tracering_region_about(copy, len, &about) == TRACERING_DONE
        && are_of(&c, about.stream) && is_of_one(&about) && tells_losses(&found) && are_together(&found);
    found.passed = run.fills;
    if (is_so && rest && !run.act.remakes && begun + 2 <= newest + PAGES)
        is_so = (found.end >= rest || found.taken >= rest || fault("the newest record isn't there", found.end, rest))
            && has_fills(&found, PAGES, begun, newest);
    (void)tracering_collector_free(&c);
    return is_so;
}

// One copy, with the act before this load of it. `is_done` says whether there were that many.
static bool try_copy(const struct act *what, int before, uint64_t at, bool *is_done)
{
    uint64_t begun, newest;
    run = (struct run){.writer = TRACERING_WRITER_INIT, .reader = TRACERING_READER_INIT};
    if (!make(FORMER))
        return false;
    write_records(before);
    take_pages(before % 3);
    if (what->nested)
        begin_record(what->nested);
    look_at_fills(region, len, PAGES, &begun, &newest);
    run.act = *what;
    run.loads = 0;
    run.act_at = at;
    int32_t code = tracering_region_copy(region, len, copy, len);
    *is_done = run.loads >= at;
    weak.is_acted = false;
    if (what->nested && !*is_done)
        end_record();
    // (What looks at the copy has no loads that are counted.)
    run.act_at = 0;
    struct tracering_region about;
    bool is_refused = code == TRACERING_BAD_REGION && run.stream == LATER;
    bool is_so = is_refused ? tracering_region_about(copy, len, &about) == TRACERING_BAD_REGION
                                || fault("a copy that is refused is a region", at, 0)
                            : code == TRACERING_DONE ? copy_holds((uint64_t)before, newest)
                                                     : fault("no copy is made", at, (uint64_t)code);
    release();
    return is_so;
}

// Tries each act before each load of a copy, after each number of records.
static bool try_acts(uint64_t *copies)
{
    static const struct act acts[] = {{false, 0, 1, 0}, {false, 0, 4, 0}, {false, 0, 9, 0}, {false, 0, 40, 0},
        {false, 1, 0, 0}, {false, 1, 5, 0}, {false, 2, 9, 0}, {false, 3, 20, 0}, {true, 0, 0, 0}, {true, 0, 5, 0},
        {true, 0, 20, 0}, {true, 0, 21, 0}, {false, 0, 0, 1}, {false, 0, 1, 2}, {false, 0, 9, 2}};
    for (size_t k = 0; k < sizeof acts / sizeof *acts; k++)
        for (int before = 0; before < MOST_BEFORE; before++) {
            bool is_done = true;
            for (uint64_t at = 1; is_done; at++, ++*copies)
                if (!try_copy(&acts[k], before, at, &is_done)) {
                    fprintf(stderr, "region: act %zu after %d records, before load %llu%s\n", k, before,
                        (unsigned long long)at, weak.is_tried ? ", where stores pass each other" : "");
                    return false;
                }
        }
    return true;
}

int main(void)
{
    uint64_t copies = 0, weak_copies = 0;
    len = tracering_region_size(PAGES, SIZE);
    if (len > sizeof region || !try_acts(&copies))
        return 1;
    weak.is_tried = true;
    weak.random = 1;
    for (int tries = 0; tries < WEAK_TRIES; tries++)
        if (!try_acts(&weak_copies))
            return 1;
    printf("%llu copies, and %llu where stores pass each other\n", (unsigned long long)copies,
        (unsigned long long)weak_copies);
    return 0;
}
