#include "listing.h"
#include "arguments.h"
#include "filter.h"
#include "moments.h"

#include <stdlib.h>

enum { LONGEST_PAYLOAD = 65536, ID_SIZE = 4, THREAD_SIZE = 4 };

// How far the listing is, of one ring.
struct progress {
    uint64_t listed, next; // how many records were listed; the number after the greatest of them
};

// The next record of a collector, if there is one.
struct next {
    bool is_there;
    struct tracering_line line;
    uint8_t *payload;
};

// The listing of one dump. `first` is the collector that has its next record, or COLLECTORS: there is none any more.
struct listing {
    struct dump *dump;
    struct progress *rings; // by number
    struct next next[COLLECTORS];
    size_t first;
    nanoseconds time;     // of the next record
    struct lease unnamed; // its thread, if that has a number and no name
};

struct listings {
    struct listing *of;
    size_t count;
    const struct viewer *viewer;
    const struct filter *filter;
};

static const char *const REFUSED[REASONS] = {"busy", "too deep", "too long", "late moment", "crowded", "worn"};

void format_record(struct text *text, const struct record *record, struct arguments *arguments)
{
    arguments->count = arguments->next = 0;
    if (!record->site) {
        add_format(text, "<site %u isn't in the file>", record->id);
        for (size_t k = 0; k < record->payload.len; k++)
            add_format(text, " %02x", record->payload.at[k]);
        return;
    }
    read_arguments(arguments, record->site, record->payload);
    switch (record->site->style) {
    case STYLE_PRINTF: format_printf(text, record->site->format, arguments); break;
    case STYLE_FIELDS: format_fields(text, record->site, arguments); break;
    default: format_braces(text, record->site->format, arguments);
    }
    if (arguments->rest >= ID_SIZE || arguments->count < record->site->kinds.len)
        add_string(text, " <the record doesn't fit its site>");
}

const char *level_name(enum level level)
{
    static const char *const names[LEVELS] = {"", "ERROR", "WARN", "INFO", "DEBUG", "TRACE"};
    return names[level];
}

const char *level_key(enum level level)
{
    static const char *const keys[LEVELS] = {"", "error", "warn", "info", "debug", "trace"};
    return keys[level];
}

void add_line_text(struct text *line, const struct record *record, struct text *formatted, struct arguments *arguments)
{
    enum level level = record->site ? record->site->level : LEVEL_NONE;
    if (level != LEVEL_NONE)
        add_format(line, "%s ", level_name(level));
    formatted->len = 0;
    format_record(formatted, record, arguments);
    drop_line_end(formatted);
    add_escaped(line, bytes_of(formatted));
}

void add_thread(struct text *text, const struct ring *ring, const struct lease *lease)
{
    if (lease) {
        add_escaped(text, lease->name);
        add_format(text, "[%u]", lease->tid);
    } else {
        add_format(text, "slot-%u[?]", ring->slot);
    }
}

// Gives the numbers from the ring's next one up to `end`, if there are any, and they may be of a thread that passes.
static void give_gap(const struct listings *all, const struct listing *listing, const struct ring *ring, uint64_t end)
{
    uint64_t next = listing->rings[ring->number].next;
    if (end <= next)
        return;
    struct gap gap = {ring, ring_lease(ring, end - 1), next, end - 1};
    if (may_pass_thread(all->filter, gap.lease))
        all->viewer->gap(all->viewer->self, listing->dump, &gap);
}

// The thread of a record that has its number.
static const struct lease *thread_of(struct listing *listing, uint32_t number, uint64_t moment)
{
    const struct lease *named = dump_name(listing->dump, number, moment);
    listing->unnamed = (struct lease){0, number, {(const uint8_t *)"?", 1}};
    return named ? named : &listing->unnamed;
}

// The next record of a listing that has one. It holds until the one after it is asked for.
static struct record next_record(struct listing *listing)
{
    const struct next *next = &listing->next[listing->first];
    const struct tracering_line *line = &next->line;
    const struct ring *ring = listing->dump->of_number[listing->first * CPUS + line->cpu];
    struct record record = {line->moment, line->number, ring, ring_lease(ring, line->number), NULL, 0, {NULL, 0}};
    if (line->len >= ID_SIZE) {
        uint32_t head = number32_at(next->payload), has_thread = head >> EVENT_HAS_THREAD;
        size_t begin = has_thread && line->len >= ID_SIZE + THREAD_SIZE ? ID_SIZE + THREAD_SIZE : ID_SIZE;
        record.id = head & ~(1u << EVENT_HAS_THREAD);
        record.site = dump_site(listing->dump, record.id);
        record.payload = (struct bytes){next->payload + begin, line->len - begin};
        if (begin > ID_SIZE)
            record.lease = thread_of(listing, number32_at(next->payload + ID_SIZE), line->moment);
    }
    return record;
}

static void go_on(struct listing *listing, size_t collector)
{
    struct next *next = &listing->next[collector];
    struct tracering_collector *records = &listing->dump->records[collector];
    next->is_there = tracering_collector_next(records, next->payload, LONGEST_PAYLOAD, &next->line) == TRACERING_DONE;
}

// Finds the collector whose next record is the first by moment, ring and number. (The rings of one are below those of
// the next one, and it has each ring's records in their order.)
static void find_first(struct listing *listing)
{
    size_t first = COLLECTORS;
    for (size_t k = 0; k < COLLECTORS; k++)
        if (listing->next[k].is_there
            && (first == COLLECTORS || listing->next[k].line.moment < listing->next[first].line.moment))
            first = k;
    listing->first = first;
    if (first == COLLECTORS)
        return;
    const struct process *process = &listing->dump->process;
    uint64_t moment = listing->next[first].line.moment;
    listing->time = has_time(process) ? time_of(process, moment) : (nanoseconds)moment;
}

// Lists what each collector has, from the first record on, and answers how many records these are.
static size_t list_collectors(struct listing *listing)
{
    size_t all = 0, count;
    for (size_t k = 0; k < COLLECTORS; k++) {
        int32_t code = tracering_collector_list(&listing->dump->records[k], &count);
        if (code == TRACERING_ABSENT)
            continue;
        if (code != TRACERING_DONE)
            end_without_memory();
        if (!listing->next[k].payload)
            listing->next[k].payload = allocate(LONGEST_PAYLOAD, 1);
        go_on(listing, k);
        all += count;
    }
    find_first(listing);
    return all;
}

static size_t list_all(const struct listings *all)
{
    size_t records = 0;
    for (size_t k = 0; k < all->count; k++)
        records += list_collectors(&all->of[k]);
    return records;
}

// The listing that has the next record by time, or null. (Of equal times the one of the dump that is named first.)
static struct listing *next_of(const struct listings *all)
{
    struct listing *next = NULL;
    for (size_t k = 0; k < all->count; k++)
        if (all->of[k].first < COLLECTORS && (!next || all->of[k].time < next->time))
            next = &all->of[k];
    return next;
}

static void pass_over(struct listing *listing)
{
    go_on(listing, listing->first);
    find_first(listing);
}

// How many records pass the filter.
static size_t count_passing(const struct listings *all)
{
    size_t records = list_all(all), passing = 0;
    if (!all->filter)
        return records;
    for (struct listing *listing; (listing = next_of(all)); pass_over(listing)) {
        struct record record = next_record(listing);
        passing += passes(all->filter, listing->dump, &record);
    }
    (void)list_all(all);
    return passing;
}

static void list_records(const struct listings *all, size_t most)
{
    // (What passes isn't counted if all that does is given.)
    size_t left = most == SIZE_MAX ? list_all(all) : count_passing(all);
    for (struct listing *listing; (listing = next_of(all)); pass_over(listing)) {
        struct record record = next_record(listing);
        struct progress *progress = &listing->rings[record.ring->number];
        bool is_passing = passes(all->filter, listing->dump, &record);
        if (is_passing && left <= most) {
            give_gap(all, listing, record.ring, record.number);
            all->viewer->record(all->viewer->self, listing->dump, &record);
        }
        left -= is_passing;
        progress->listed++;
        if (record.number >= progress->next)
            progress->next = record.number + 1;
    }
}

static size_t give_loss(const struct viewer *viewer, const struct dump *dump, struct loss loss)
{
    if (!loss.count)
        return 0;
    viewer->loss(viewer->self, dump, &loss);
    return 1;
}

// Gives what a ring lost. How many losses these are. (What is missing was overwritten: pages have records in a row.)
static size_t give_ring_losses(const struct viewer *viewer, const struct listing *listing, const struct ring *ring)
{
    const struct progress *progress = &listing->rings[ring->number];
    const struct dump *dump = listing->dump;
    uint64_t end = ring->written > progress->next ? ring->written : progress->next;
    enum loss_kind kind = ring->is_damaged ? LOSS_UNKNOWN : LOSS_OVERWRITTEN;
    size_t losses = give_loss(viewer, dump, (struct loss){kind, NULL, ring, end - progress->listed, NULL, 0});
    for (size_t k = 0; k < REASONS; k++)
        losses += give_loss(viewer, dump, (struct loss){LOSS_REFUSED, REFUSED[k], ring, ring->refused[k], NULL, 0});
    return losses;
}

static size_t give_damages(const struct viewer *viewer, const struct dump *dump)
{
    size_t losses = 0;
    for (size_t k = 0; k < dump->damage_count; k++) {
        const struct damage *damage = &dump->damages[k];
        losses += give_loss(viewer, dump,
            (struct loss){LOSS_DAMAGED, damage->why, damage->ring, 1, damage->what, damage->offset});
    }
    return losses + give_loss(viewer, dump, (struct loss){LOSS_DAMAGED, NULL, NULL, dump->more_damages, NULL, 0});
}

// Gives what a dump lost.
static size_t give_losses(const struct viewer *viewer, const struct listing *listing)
{
    const struct dump *dump = listing->dump;
    size_t losses = 0;
    for (size_t k = 0; k < dump->ring_count; k++)
        losses += give_ring_losses(viewer, listing, &dump->rings[k]);
    losses += give_damages(viewer, dump);
    return losses + give_loss(viewer, dump, (struct loss){LOSS_NO_RING, NULL, NULL, dump->process.no_ring, NULL, 0});
}

static void free_listing(struct listing *listing)
{
    for (size_t k = 0; k < COLLECTORS; k++)
        free(listing->next[k].payload);
    free(listing->rings);
}

void list_dumps(struct dump *dumps, size_t count, const struct choice *choice, const struct viewer *viewer)
{
    struct listings all = {allocate(count, sizeof *all.of), count, viewer, choice->filter};
    size_t losses = 0;
    for (size_t k = 0; k < count; k++) {
        all.of[k].dump = &dumps[k];
        all.of[k].rings = allocate(RINGS, sizeof *all.of[k].rings);
        viewer->head(viewer->self, &dumps[k]);
    }
    list_records(&all, choice->most);
    for (size_t k = 0; k < count; k++)
        for (size_t ring = 0; ring < dumps[k].ring_count; ring++)
            give_gap(&all, &all.of[k], &dumps[k].rings[ring], dumps[k].rings[ring].written);
    for (size_t k = 0; k < count; k++)
        losses += give_losses(viewer, &all.of[k]);
    for (size_t k = 0; k < count; k++)
        free_listing(&all.of[k]);
    free(all.of);
    viewer->end(viewer->self, losses);
}
