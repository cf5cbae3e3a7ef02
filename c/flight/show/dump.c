#include "../checksum.h"
#include "cursor.h"
#include "text.h"

#include <stdlib.h>
#include <string.h>

enum { HEAD = 16, SECTION_HEAD = 16, SUM = 8, VERSION = 2, LEAST_LEASE = 16, MOST_DAMAGES = 1000 };

struct section {
    const uint8_t *kind;
    size_t offset; // of its head
};

// What was read before: which sections may come now.
struct progress {
    uint32_t sections;
    uint32_t pages; // how many pages of the last ring are to come
    bool process, names, sites, ends;
    struct checksum_table table;
};

// ---- What is made of a file.

void dump_begin(struct dump *dump)
{
    memset(dump, 0, sizeof *dump);
    dump->rings = allocate(RINGS, sizeof *dump->rings);
    dump->of_number = allocate(RINGS, sizeof *dump->of_number);
}

struct ring *dump_add_ring(struct dump *dump, const struct ring *ring)
{
    struct ring *kept = &dump->rings[dump->ring_count++];
    *kept = *ring;
    dump->of_number[ring->number] = kept;
    return kept;
}

int32_t dump_add_page(struct dump *dump, const struct ring *ring, struct bytes page, struct tracering_fault_at *at)
{
    struct tracering_collector *records = &dump->records[ring->number / CPUS];
    int32_t code = tracering_collector_new(records);
    if (code == TRACERING_DONE || code == TRACERING_IN_USE)
        code = tracering_collector_add(records, page.at, page.len, at);
    if (code == TRACERING_NO_MEMORY)
        end_without_memory();
    return code;
}

void add_damage(struct dump *dump, const struct ring *ring, const char *what, const char *why, size_t offset)
{
    if (dump->damage_count == MOST_DAMAGES) {
        dump->more_damages++;
        return;
    }
    if (!dump->damages)
        dump->damages = allocate(MOST_DAMAGES, sizeof *dump->damages);
    size_t len = strlen(why) + 1;
    char *kept = allocate(len, 1);
    memcpy(kept, why, len);
    dump->damages[dump->damage_count++] = (struct damage){what, ring, kept, offset};
}

// ---- The sections of a dump.

static bool read_process(struct cursor *c, struct process *process)
{
    size_t begin = c->at;
    const uint8_t *at = take(c, 56, "process");
    if (!at)
        return false;
    *process = (struct process){.pid = number32_at(at), .tid = number32_at(at + 4), .signal = number32_at(at + 8),
        .clock = number32_at(at + 12), .start_moment = number64_at(at + 16), .start_time = number64_at(at + 24),
        .dump_moment = number64_at(at + 32), .dump_time = number64_at(at + 40), .no_ring = number64_at(at + 48)};
    if (process->clock >= CLOCK_KINDS)
        return refuse(c, begin + 12, "there is no clock %u", process->clock);
    return take_text(c, "the program's name", &process->name);
}

static bool read_lease(struct cursor *c, const struct lease *before, struct lease *lease)
{
    const uint8_t *at = take(c, 12, "lease");
    if (!at)
        return false;
    lease->first = number64_at(at);
    lease->tid = number32_at(at + 8);
    if (before && lease->first < before->first)
        return refuse(c, c->at - 12, "a lease begins before the one that is stated first");
    return take_text(c, "a thread's name", &lease->name);
}

// (The ring's leases are to be freed in any case.)
static bool read_leases(struct cursor *c, struct ring *ring)
{
    const uint8_t *at = take(c, 4, "number of leases");
    if (!at)
        return false;
    size_t count = number32_at(at);
    if (count > (c->end - c->at) / LEAST_LEASE)
        return refuse(c, c->at - 4, "%zu leases are stated, and %zu bytes are left", count, c->end - c->at);
    ring->leases = allocate(count, sizeof *ring->leases);
    ring->lease_count = count;
    for (size_t k = 0; k < count; k++)
        if (!read_lease(c, k ? &ring->leases[k - 1] : NULL, &ring->leases[k]))
            return false;
    return true;
}

static bool read_ring(struct cursor *c, struct dump *dump, struct progress *progress)
{
    size_t begin = c->at;
    const uint8_t *at = take(c, 72, "ring");
    if (!at)
        return false;
    struct ring ring = {.number = number32_at(at), .slot = number32_at(at + 4), .level = number32_at(at + 8),
        .written = number64_at(at + 16)};
    progress->pages = number32_at(at + 12);
    for (size_t k = 0; k < REASONS; k++)
        ring.refused[k] = number64_at(at + 24 + 8 * k);
    if (ring.number >= RINGS)
        return refuse(c, begin, "there is no ring %u", ring.number);
    if (dump->of_number[ring.number])
        return refuse(c, begin, "ring %u is there twice", ring.number);
    return read_leases(c, dump_add_ring(dump, &ring));
}

static bool read_names(struct cursor *c, struct dump *dump)
{
    struct ring none = {0};
    bool are_read = read_leases(c, &none);
    for (size_t k = 0; are_read && k < none.lease_count; k++)
        dump_add_name(dump, &none.leases[k]);
    free(none.leases);
    return are_read;
}

static bool refuse_page(struct cursor *c, size_t begin, int32_t code, const struct ring *ring,
    const struct tracering_fault_at *at)
{
    const char *text = tracering_text(code);
    if (code == TRACERING_CLASH || code == TRACERING_TAKEN_AND_MISSING)
        return refuse(c, begin, "page: %s: ring %u, number %llu", text, ring->number, (unsigned long long)at->number);
    bool within = code == TRACERING_CUT || code == TRACERING_BAD_LENGTH || code == TRACERING_TIME_OVERFLOW;
    return refuse(c, begin + (within ? TRACERING_HEADER + (size_t)at->number : 0), "page: %s", text);
}

static bool read_page(struct cursor *c, struct dump *dump)
{
    size_t begin = c->at, len = c->end - c->at;
    const struct ring *ring = &dump->rings[dump->ring_count - 1];
    const uint8_t *bytes = take(c, len, "page");
    if (len >= 8 && number64_at(bytes) != ring->number % CPUS)
        return refuse(c, begin, "page: it isn't of ring %u", ring->number);
    struct tracering_fault_at at = {0, 0};
    int32_t code = dump_add_page(dump, ring, (struct bytes){bytes, len}, &at);
    return code > TRACERING_DONE ? refuse_page(c, begin, code, ring, &at) : true;
}

static bool check_sites(struct cursor *c, struct dump *dump)
{
    sort_sites(dump);
    for (size_t k = 1; k < dump->site_count; k++)
        if (dump->sites[k].id == dump->sites[k - 1].id)
            return refuse(c, dump->sites[k].offset, "site %u is there twice", dump->sites[k].id);
    return true;
}

static bool read_end(struct cursor *c, uint32_t sections)
{
    const uint8_t *at = take(c, 8, "end");
    if (!at)
        return false;
    if (number32_at(at) != sections)
        return refuse(c, c->at - 8, "%u sections are stated, and %u are there", number32_at(at), sections);
    return number32_at(at + 4) ? refuse(c, c->at - 4, "0 is expected") : true;
}

static bool is_kind(const struct section *section, const char *kind)
{
    return !memcmp(section->kind, kind, 4);
}

// Whether a section of this kind may come now.
static bool may_come(const struct section *section, const struct progress *progress)
{
    if (!progress->process || progress->pages)
        return is_kind(section, progress->process ? "PAGE" : "PROC");
    return (is_kind(section, "RING") && !progress->names && !progress->sites)
        || (is_kind(section, "NAME") && !progress->sites) || is_kind(section, "SITE") || is_kind(section, "ENDS");
}

static bool refuse_section(struct cursor *c, const struct section *section, const struct progress *progress)
{
    const char *wanted = !progress->process ? "PROC" : progress->pages ? "PAGE"
        : "RING, NAME, SITE or ENDS, in this order,";
    return refuse(c, section->offset, "a section %s is expected", wanted);
}

// Notes that a section of this kind came, before it is read.
static void count_section(const struct section *section, struct progress *progress)
{
    progress->process = true;
    progress->pages -= is_kind(section, "PAGE");
    progress->names |= is_kind(section, "NAME");
    progress->sites |= is_kind(section, "SITE");
    progress->ends |= is_kind(section, "ENDS");
}

// Reads what a section has.
static bool read_section(struct cursor *c, struct dump *dump, const struct section *section, struct progress *progress,
    size_t *room)
{
    if (is_kind(section, "PROC"))
        return read_process(c, &dump->process);
    if (is_kind(section, "RING"))
        return read_ring(c, dump, progress);
    if (is_kind(section, "PAGE"))
        return read_page(c, dump);
    if (is_kind(section, "NAME"))
        return read_names(c, dump);
    return is_kind(section, "SITE") ? read_site(c, add_site(dump, room)) : read_end(c, progress->sections);
}

// Whether what follows a section is one, too.
static bool is_followed(const struct cursor *c, size_t end)
{
    static const char kinds[] = "RINGPAGENAMESITEENDS";
    for (size_t kind = 0; c->end - end >= SECTION_HEAD && kind < sizeof kinds - 1; kind += 4)
        if (!memcmp(c->file + end, kinds + kind, 4))
            return true;
    return false;
}

// Passes over a section whose checksum is another one: a page or a site, which costs only itself.
static bool pass_over(struct cursor *c, struct dump *dump, const struct section *section, size_t end)
{
    static const char why[] = "its checksum is another one";
    bool is_page = is_kind(section, "PAGE");
    if (!(is_page || is_kind(section, "SITE")) || !is_followed(c, end))
        return refuse(c, section->offset, "a section's checksum is another one");
    struct ring *ring = is_page ? &dump->rings[dump->ring_count - 1] : NULL;
    if (ring)
        ring->is_damaged = true;
    add_damage(dump, ring, is_page ? "a page" : "a site", why, section->offset);
    return true;
}

// Reads a section's head, and then what it has.
static bool read_next(struct cursor *c, struct dump *dump, struct progress *progress, size_t *room)
{
    struct section section = {NULL, c->at};
    section.kind = take(c, SECTION_HEAD, "a section's head");
    if (!section.kind)
        return false;
    uint64_t len = number64_at(section.kind + 8);
    if (c->end - c->at < SUM || len > c->end - c->at - SUM)
        return refuse(c, section.offset + 8, "a section of %llu bytes and its checksum are stated, and %zu are left",
            (unsigned long long)len, c->end - c->at);
    struct cursor within = {c->file, c->at, c->at + (size_t)len, c->fault};
    uint32_t sum = ~checksum_add(&progress->table, CHECKSUM_BEGIN, section.kind, SECTION_HEAD + (size_t)len);
    size_t end = within.end + SUM;
    bool is_whole = number64_at(c->file + within.end) == sum;
    if (!may_come(&section, progress))
        return refuse_section(c, &section, progress);
    if (number32_at(section.kind + 4))
        return refuse(c, section.offset + 4, "0 is expected");
    count_section(&section, progress);
    if (!(is_whole ? read_section(&within, dump, &section, progress, room) : pass_over(c, dump, &section, end)))
        return false;
    if (is_whole && within.at != within.end)
        return refuse(c, within.at, "the section's end is expected, and it has %zu bytes more", within.end - within.at);
    c->at = end;
    progress->sections++;
    return true;
}

static bool read_head(struct cursor *c)
{
    static const char magic[] = "TRFLIGHT";
    size_t there = c->end < 8 ? c->end : 8;
    if (!there || memcmp(c->file, magic, there))
        return refuse(c, 0, "not a flight dump");
    const uint8_t *at = take(c, HEAD, "the file's head");
    if (!at)
        return false;
    if (number32_at(at + 8) != VERSION)
        return refuse(c, 8, "version %d is expected, and not %u", VERSION, number32_at(at + 8));
    return number32_at(at + 12) ? refuse(c, 12, "0 is expected") : true;
}

bool dump_read(struct dump *dump, struct bytes file, struct fault *fault)
{
    struct cursor c = {file.at, 0, file.len, fault};
    static struct progress progress;
    size_t room = 0;
    dump_begin(dump);
    memset(&progress, 0, sizeof progress);
    checksum_make(&progress.table);
    if (!read_head(&c))
        return false;
    while (!progress.ends)
        if (!read_next(&c, dump, &progress, &room))
            return false;
    if (c.at != c.end)
        return refuse(&c, c.at, "the file's end is expected, and it has %zu bytes more", c.end - c.at);
    sort_names(dump);
    return check_sites(&c, dump);
}

void dump_free(struct dump *dump)
{
    for (size_t k = 0; k < dump->ring_count; k++)
        free(dump->rings[k].leases);
    free(dump->rings);
    free(dump->of_number);
    free(dump->names);
    free(dump->sites);
    for (size_t k = 0; k < dump->damage_count; k++)
        free(dump->damages[k].why);
    free(dump->damages);
    for (size_t k = 0; k < COLLECTORS; k++)
        (void)tracering_collector_free(&dump->records[k]);
}

const struct site *dump_site(const struct dump *dump, uint32_t id)
{
    size_t low = 0, high = dump->site_count;
    while (low < high) {
        size_t middle = low + (high - low) / 2;
        if (dump->sites[middle].id < id)
            low = middle + 1;
        else
            high = middle;
    }
    return low < dump->site_count && dump->sites[low].id == id ? &dump->sites[low] : NULL;
}

void dump_add_name(struct dump *dump, const struct lease *name)
{
    if (dump->name_count == dump->name_room) {
        dump->name_room = 2 * dump->name_room + 16;
        struct lease *grown = allocate(dump->name_room, sizeof *grown);
        if (dump->name_count)
            memcpy(grown, dump->names, dump->name_count * sizeof *grown);
        free(dump->names);
        dump->names = grown;
    }
    dump->names[dump->name_count++] = *name;
}

static int compare_numbers(uint64_t one, uint64_t other)
{
    return one < other ? -1 : one > other;
}

static int compare_names(const void *one, const void *other)
{
    const struct lease *a = one, *b = other;
    int order = compare_numbers(a->tid, b->tid);
    return order ? order : compare_numbers(a->first, b->first);
}

void sort_names(struct dump *dump)
{
    if (dump->name_count)
        qsort(dump->names, dump->name_count, sizeof *dump->names, compare_names);
}

// (A moment before the first name may be read a little late, on another processor, so it has that name, too.)
const struct lease *dump_name(const struct dump *dump, uint32_t thread, uint64_t moment)
{
    const struct lease wanted = {moment, thread, {NULL, 0}};
    size_t low = 0, high = dump->name_count;
    while (low < high) {
        size_t middle = low + (high - low) / 2;
        if (compare_names(&dump->names[middle], &wanted) <= 0)
            low = middle + 1;
        else
            high = middle;
    }
    if (low && dump->names[low - 1].tid == thread)
        return &dump->names[low - 1];
    return low < dump->name_count && dump->names[low].tid == thread ? &dump->names[low] : NULL;
}

const struct lease *ring_lease(const struct ring *ring, uint64_t number)
{
    size_t low = 0, high = ring->lease_count;
    while (low < high) {
        size_t middle = low + (high - low) / 2;
        if (ring->leases[middle].first <= number)
            low = middle + 1;
        else
            high = middle;
    }
    return low ? &ring->leases[low - 1] : NULL;
}
