// Regions of other processes (tracering_region.h), in files of their own or in a recorder's (`file` of flight_config):
// each page is sent once it is closed, and the one that is written now and then, with the records that it has. So what
// a process wrote is sent also after it was killed. A new run of it, in a new file of that name, is another stream.
//
// Numbers that were overwritten before they were seen are stated as missing; those that the process took itself, or an
// earlier publisher may have sent, aren't: if nobody sent them, collectors find them unknown.
#ifndef REGION_SOURCE_H
#define REGION_SOURCE_H

#include "page_words.h"
#include "source.h"
#include "state.h"

#include "tracering_region.h"

#define REGION_WORDS \
    NUMBER_WORD("every", "200", 1, A_BILLION, "--region: milliseconds after which an open page is sent"), \
    FLAG_WORD("once", "--region: sends what is there now, and ends")

enum { LOOK_EVERY = 20 }; // milliseconds
enum { MOST_SLOTS = 1025 };
// Where a recorder's file says where its regions begin, each at a multiple of 4,096 (docs/formats/files.md).
enum { RECORDER_RINGS = 96, RECORDER_ALIGN = 4096 };
#define RECORDER_LETTERS "TRLIVING"

// A page in the copy of a region.
struct region_page {
    uint64_t fill, first, end;
    const uint8_t *bytes;
    size_t len;
};

struct region {
    const uint8_t *at; // in its file's map
    size_t len;
    uint8_t *copy;
    struct tracering_region about;
    struct state_entry *sent;
    uint64_t hint, fill, end; // the last look's, and those of the newest page that was sent in this run
    struct region_page pages[MOST_SLOTS];
    size_t count, next;
    double next_look, sent_at;
    bool has_sent, is_damaged, is_ended, had_last_look;
};

struct watched_file {
    const char *path;
    const uint8_t *map;
    size_t len, count;
    struct stat is;
    struct region **regions;
    bool is_left; // the path has another file now
    double next_try;
};

static struct {
    struct watched_file **files; // of all `--region`, and those that were left and have something to be sent
    size_t count, file, region;
    uint8_t parcel[PARCEL];
} watch;

// ---- Files.

static inline void add_region(struct watched_file *f, size_t at)
{
    struct region *r = allocated(1, sizeof *r);
    (void)tracering_region_about(f->map + at, f->len - at, &r->about);
    r->at = f->map + at;
    r->len = r->about.len;
    r->copy = aligned_alloc(TRACERING_REGION_ALIGN, (r->len + 63) / 64 * 64);
    f->regions = realloc(f->regions, (f->count + 1) * sizeof *f->regions);
    if (!r->copy || !f->regions)
        die("the regions", strerror(errno));
    r->sent = state_of(r->about.stream, r->about.cpu);
    f->regions[f->count++] = r;
}

// Finds the regions of a file: one at its beginning, or those of a recorder, one after the other.
static inline void find_regions(struct watched_file *f)
{
    struct tracering_region about;
    bool is_recorders = f->len >= RECORDER_ALIGN && !memcmp(f->map, RECORDER_LETTERS, 8);
    size_t at = is_recorders ? number_at(f->map, RECORDER_RINGS) : 0;
    while (at < f->len && tracering_region_about(f->map + at, f->len - at, &about) == TRACERING_DONE) {
        add_region(f, at);
        if (!is_recorders)
            break;
        at += (about.len + RECORDER_ALIGN - 1) / RECORDER_ALIGN * RECORDER_ALIGN;
    }
}

static inline void close_file(struct watched_file *f)
{
    for (size_t k = 0; k < f->count; k++) {
        free(f->regions[k]->copy);
        free(f->regions[k]);
    }
    if (f->map)
        (void)tracering_region_unmap(f->map, f->len);
    free(f->regions);
    *f = (struct watched_file){.path = f->path, .next_try = f->next_try};
}

static inline bool open_file(struct watched_file *f)
{
    if (seconds_now() < f->next_try)
        return false;
    f->next_try = seconds_now() + 1;
    if (stat(f->path, &f->is) || !(f->map = tracering_region_open(f->path, &f->len))) {
        report(f->path, strerror(errno));
        return false;
    }
    find_regions(f);
    if (f->count)
        return true;
    report(f->path, "it is no region and no recorder's file, or not yet");
    close_file(f);
    return false;
}

static inline void watch_path(const char *path)
{
    watch.files = realloc(watch.files, (watch.count + 1) * sizeof *watch.files);
    if (!watch.files)
        die("realloc", strerror(errno));
    watch.files[watch.count] = allocated(1, sizeof **watch.files);
    watch.files[watch.count++]->path = path;
}

// All of a file that was left is sent.
static inline void forget_file(size_t at)
{
    close_file(watch.files[at]);
    free(watch.files[at]);
    watch.files[at] = watch.files[--watch.count];
}

// If the path has another file now, this one is left once all of it is sent, and the other one is watched too.
static inline void look_at_path(struct watched_file *f)
{
    struct stat is;
    if (f->is_left || seconds_now() < f->next_try)
        return;
    f->next_try = seconds_now() + 0.5;
    if (stat(f->path, &is) || (is.st_ino == f->is.st_ino && is.st_dev == f->is.st_dev))
        return;
    f->is_left = true;
    watch_path(f->path);
}

// ---- Looks.

static inline int by_fill(const void *one, const void *two)
{
    const struct region_page *a = one, *b = two;
    return (a->fill > b->fill) - (a->fill < b->fill);
}

// A sum of what its slots say of themselves: as long as it is the same, nothing was written.
static inline uint64_t hint_of(const struct region *r)
{
    enum { SLOT_FILL = 8, SLOT_COMMIT = 40 };
    size_t stride = (TRACERING_HEADER + r->about.size + TRACERING_REGION_ALIGN - 1) / TRACERING_REGION_ALIGN
        * TRACERING_REGION_ALIGN;
    uint64_t sum = number_at(r->at, 48) * 31 + number_at(r->at, 56);
    for (size_t slot = 0; slot <= r->about.pages; slot++) {
        const volatile uint64_t *words = (const volatile void *)(r->at + TRACERING_REGION_HEADER + slot * stride);
        sum = (sum * 31 + words[SLOT_FILL / 8]) * 31 + words[SLOT_COMMIT / 8];
    }
    return sum;
}

static inline void add_page(struct region *r, const uint8_t *bytes, size_t len)
{
    uint64_t first = number_at(bytes, 16);
    size_t size = number_at(bytes, 40) & 0x3fffffff;
    uint64_t records = span_of(number_at(bytes, 32), bytes + TRACERING_HEADER, size).count;
    r->pages[r->count++] = (struct region_page){number_at(bytes, 8), first, first + records, bytes, len};
}

// Copies the region as it is now, and puts its pages into their order.
static inline void look_at_region(struct region *r)
{
    const void *bytes;
    size_t len;
    r->count = r->next = 0;
    r->is_damaged = false;
    int32_t code = tracering_region_copy(r->at, r->len, r->copy, r->len);
    if (code == TRACERING_DONE)
        code = tracering_region_about(r->copy, r->len, &r->about);
    if (code != TRACERING_DONE) {
        report("a region", tracering_text(code));
        return;
    }
    for (size_t slot = 0; slot <= r->about.pages; slot++) {
        code = tracering_region_slot(r->copy, r->len, slot, &bytes, &len);
        if (code == TRACERING_DONE)
            add_page(r, bytes, len);
        else if (code != TRACERING_EMPTY) {
            report("a slot of a region is damaged", tracering_text(code));
            r->is_damaged = true;
        }
    }
    qsort(r->pages, r->count, sizeof *r->pages, by_fill);
}

// Looks at a region if it is time, and there is something new.
static inline void look_if_due(struct region *r, bool is_last)
{
    double now = seconds_now();
    if (r->next < r->count || r->had_last_look || (!is_last && now < r->next_look))
        return;
    r->next_look = now + LOOK_EVERY / 1e3;
    r->had_last_look = is_last;
    uint64_t hint = hint_of(r);
    const struct region_page *newest = r->count ? &r->pages[r->count - 1] : NULL;
    bool is_sent = !newest || (r->has_sent && newest->fill == r->fill && newest->end <= r->end);
    if (hint == r->hint && !is_last && is_sent)
        return;
    r->hint = hint;
    look_at_region(r);
}

// ---- Pieces.

// Whether a page has something that wasn't sent in this run, and is to be sent now. The newest one is open.
static inline bool is_to_be_sent(const struct region *r, const struct region_page *page, bool is_last)
{
    bool is_newest = page == &r->pages[r->count - 1];
    if (r->has_sent && (page->fill < r->fill || (page->fill == r->fill && page->end <= r->end)))
        return false;
    return !is_newest || is_last || r->about.has_ended
        || seconds_now() > r->sent_at + (double)number_of("every") / 1e3;
}

// How many numbers directly before this page were overwritten before anybody could send them.
static inline uint64_t missing_before(const struct region *r, const struct region_page *page)
{
    uint64_t known = r->sent->next > r->about.taken ? r->sent->next : r->about.taken;
    bool is_known = !r->is_damaged && (r->has_sent || state.is_kept);
    return is_known && page->first > known ? page->first - known : 0;
}

static inline bool pack_region_page(struct region *r, const struct region_page *page, struct piece *piece)
{
    uint64_t missed = missing_before(r, page);
    memcpy(watch.parcel, page->bytes, page->len);
    put_number(watch.parcel, 24, missed);
    put_number(watch.parcel, 40, number_at(page->bytes, 40) | (missed ? UINT64_C(1) << 31 : 0));
    int32_t code = tracering_pack(r->about.stream, watch.parcel, page->len, piece->bytes, sizeof piece->bytes,
        &piece->len);
    if (code == TRACERING_NO_MEMORY)
        die("pack", tracering_text(code));
    r->has_sent = true;
    r->fill = page->fill;
    r->end = page->end;
    r->sent_at = seconds_now();
    if (code > TRACERING_DONE) {
        report("a page of a region is damaged", tracering_text(code));
        count(DAMAGED_PAGES, 1);
        return false;
    }
    count(MISSING, missed);
    note_sent(r->sent, page->end);
    return true;
}

// All of a region that ended is sent: the mark of its end is the last piece.
static inline bool pack_region_end(struct region *r, struct piece *piece)
{
    if (!r->about.has_ended || r->is_damaged || r->is_ended)
        return false;
    uint64_t end = r->about.taken, newest = r->count ? r->pages[r->count - 1].end : 0;
    end = newest > end ? newest : end;
    end = r->has_sent && r->end > end ? r->end : end;
    r->is_ended = true;
    note_sent(r->sent, end);
    pack_end(piece, r->about.stream, r->about.cpu, end);
    return true;
}

static inline bool next_of_region(struct region *r, bool is_last, struct piece *piece)
{
    look_if_due(r, is_last);
    piece->stream = r->about.stream;
    piece->cpu = r->about.cpu;
    while (r->next < r->count) {
        const struct region_page *page = &r->pages[r->next++];
        if (is_to_be_sent(r, page, is_last) && pack_region_page(r, page, piece))
            return true;
    }
    return pack_region_end(r, piece);
}

static inline bool is_last_look(const struct watched_file *f)
{
    return is_stopped || is_given("once") || f->is_left;
}

// The next piece of a file's regions, each of which has its turn.
static inline bool next_of_file(struct watched_file *f, struct piece *piece)
{
    bool is_last = is_last_look(f);
    if (!f->map && !open_file(f))
        return false;
    look_at_path(f);
    for (size_t tried = 0; tried < f->count; tried++)
        if (next_of_region(f->regions[watch.region++ % f->count], is_last, piece))
            return true;
    return false;
}

static inline bool next_of_regions(struct piece *piece)
{
    for (size_t tried = 0; tried < watch.count; tried++) {
        size_t at = watch.file++ % watch.count;
        if (next_of_file(watch.files[at], piece))
            return true;
        if (watch.files[at]->is_left)
            forget_file(at);
    }
    return false;
}

static inline bool is_region_done(const struct region *r)
{
    return r->had_last_look && r->next >= r->count && (!r->about.has_ended || r->is_ended || r->is_damaged);
}

static inline bool are_regions_done(void)
{
    if (!is_stopped && !is_given("once"))
        return false;
    for (size_t k = 0; k < watch.count; k++)
        for (size_t each = 0; each < watch.files[k]->count; each++)
            if (!is_region_done(watch.files[k]->regions[each]))
                return false;
    return true;
}

static inline void nothing_to_note(const void *bytes)
{
    (void)bytes;
}

static inline void end_regions(void)
{
}

static inline struct source region_source(void)
{
    const struct word *given = word_named("region");
    open_state();
    for (size_t k = 0; k < given->count; k++) {
        watch_path(given->all[k]);
        if (!open_file(watch.files[k]) && is_given("once"))
            die(given->all[k], "nothing of it can be sent");
    }
    return (struct source){next_of_regions, nothing_to_note, are_regions_done, end_regions};
}
#endif
