// Prints dumps as Trace Event Format, one object of JSON, which Perfetto and Chrome open. Each dump is a process, and
// each thread a track of it. A record is an instant, and so is what is missing: at its ring's next record, or when the
// dump was made. Times are microseconds from the first record on.
#include "viewers.h"

#include <inttypes.h>
#include <stdlib.h>

// The number of a thread that isn't known is its slot's, and this.
#define UNKNOWN_THREAD (1u << 31)

struct events {
    struct lines lines;
    struct text losses;  // objects, with commas between them
    struct dump *dumps;
    size_t count;
    bool has_event, has_base;
    nanoseconds base; // of the first record
    // What is missing and isn't printed yet.
    bool has_gap;
    struct gap gap;
    const struct dump *gap_dump;
};

static void begin_event(struct events *events)
{
    add_string(&events->lines.line, events->has_event ? ",\n" : "");
    events->has_event = true;
}

static void write_text(struct text *text)
{
    (void)fwrite(text->at, 1, text->len, stdout);
    text->len = 0;
}

static uint32_t thread_of(const struct ring *ring, const struct lease *lease)
{
    return lease ? lease->tid : UNKNOWN_THREAD + ring->slot;
}

static nanoseconds moment_time(const struct dump *dump, uint64_t moment)
{
    return has_time(&dump->process) ? time_of(&dump->process, moment) : (nanoseconds)moment;
}

// Begins an instant of a thread, up to its name.
static void begin_instant(struct events *events, const struct dump *dump, uint32_t thread, nanoseconds time)
{
    if (!events->has_base)
        events->base = time;
    events->has_base = true;
    uint64_t after = time > events->base ? (uint64_t)(time - events->base) : 0;
    begin_event(events);
    add_format(&events->lines.line, "{\"ph\":\"i\",\"s\":\"t\",\"pid\":%u,\"tid\":%u,\"ts\":%" PRIu64 ".%03u,\"name\":",
        dump->process.pid, thread, after / 1000, (unsigned)(after % 1000));
}

static void write_gap(struct events *events, nanoseconds time)
{
    const struct gap *gap = &events->gap;
    uint64_t count = gap->last - gap->first + 1;
    if (!events->has_gap)
        return;
    begin_instant(events, events->gap_dump, thread_of(gap->ring, gap->lease), time);
    add_format(&events->lines.line, "\"%" PRIu64 " missing\",\"args\":{\"missing\":%" PRIu64 ",\"first\":%" PRIu64
        ",\"last\":%" PRIu64 ",\"ring\":%u}}", count, count, gap->first, gap->last, gap->ring->number);
    write_text(&events->lines.line);
    events->has_gap = false;
}

// Prints a gap that no record of its ring comes after.
static void write_last_gap(struct events *events)
{
    if (events->has_gap)
        write_gap(events, moment_time(events->gap_dump, events->gap_dump->process.dump_moment));
}

static void events_head(void *self, const struct dump *dump)
{
    (void)self;
    (void)dump;
}

static void events_record(void *self, const struct dump *dump, const struct record *record)
{
    struct events *events = self;
    struct text *line = &events->lines.line, *formatted = &events->lines.formatted;
    nanoseconds time = moment_time(dump, record->moment);
    write_gap(events, time);
    begin_instant(events, dump, thread_of(record->ring, record->lease), time);
    formatted->len = 0;
    format_record(formatted, record, &events->lines.arguments);
    drop_line_end(formatted);
    add_json(line, bytes_of(formatted));
    add_format(line, ",\"args\":{\"ring\":%u,\"number\":%" PRIu64 ",", record->ring->number, record->number);
    if (record->site) {
        add_string(line, "\"file\":");
        add_json(line, record->site->file);
        add_format(line, ",\"line\":%u,", record->site->line);
        if (record->site->level != LEVEL_NONE)
            add_format(line, "\"level\":\"%s\",", level_key(record->site->level));
    }
    add_json_arguments(line, record->site, &events->lines.arguments);
    add_string(line, "}}");
    write_text(line);
}

static void events_gap(void *self, const struct dump *dump, const struct gap *gap)
{
    struct events *events = self;
    write_last_gap(events);
    events->gap = *gap;
    events->gap_dump = dump;
    events->has_gap = true;
}

static void events_loss(void *self, const struct dump *dump, const struct loss *loss)
{
    struct events *events = self;
    write_last_gap(events);
    add_string(&events->losses, events->losses.len ? "," : "");
    add_json_loss(&events->losses, dump, loss);
}

static void write_name(struct events *events, const struct dump *dump, uint32_t thread, const char *kind,
    struct bytes name)
{
    struct text *line = &events->lines.line;
    begin_event(events);
    add_format(line, "{\"ph\":\"M\",\"pid\":%u,\"tid\":%u,", dump->process.pid, thread);
    add_format(line, "\"name\":\"%s\",\"args\":{\"name\":", kind);
    add_json(line, name);
    add_string(line, "}}");
    write_text(line);
}

// Prints the names of a dump's process and of all that had its rings; also that of a ring's unknown thread.
static void write_names(struct events *events, const struct dump *dump)
{
    struct text *formatted = &events->lines.formatted;
    write_name(events, dump, 0, "process_name", dump->process.name);
    for (size_t k = 0; k < dump->name_count; k++)
        write_name(events, dump, dump->names[k].tid, "thread_name", dump->names[k].name);
    for (size_t k = 0; k < dump->ring_count; k++) {
        const struct ring *ring = &dump->rings[k];
        for (size_t lease = 0; lease < ring->lease_count; lease++)
            write_name(events, dump, ring->leases[lease].tid, "thread_name", ring->leases[lease].name);
        if (ring->lease_count && !ring->leases[0].first)
            continue;
        formatted->len = 0;
        add_format(formatted, "slot-%u[?]", ring->slot);
        write_name(events, dump, thread_of(ring, NULL), "thread_name", bytes_of(formatted));
    }
}

static void events_end(void *self, size_t losses)
{
    struct events *events = self;
    struct text *line = &events->lines.line;
    bool is_known = events->has_base && has_time(&events->dumps[0].process);
    (void)losses;
    write_last_gap(events);
    for (size_t k = 0; k < events->count; k++)
        write_names(events, &events->dumps[k]);
    add_string(line, "\n],\"displayTimeUnit\":\"ns\",\"otherData\":{");
    add_json_date(line, "first_time", events->base, is_known);
    add_string(line, ",\"dumps\":[");
    for (size_t k = 0; k < events->count; k++) {
        add_string(line, k ? "," : "");
        add_json_head(line, &events->dumps[k]);
    }
    add_string(line, "],\"losses\":[");
    add_bytes(line, events->losses.at, events->losses.len);
    add_string(line, "]}}\n");
    write_text(line);
}

void print_trace_events(struct dump *dumps, size_t count, const struct choice *choice)
{
    struct events *events = allocate(1, sizeof *events);
    struct viewer viewer = {events, events_head, events_record, events_gap, events_loss, events_end};
    events->dumps = dumps;
    events->count = count;
    add_string(&events->lines.line, "{\"traceEvents\":[\n");
    write_text(&events->lines.line);
    list_dumps(dumps, count, choice, &viewer);
    free_text(&events->losses);
    free_lines(&events->lines);
    free(events);
}
