// The listing for programs: each line is an object. Numbers are exact, up to 2^64 - 1.
#include "viewers.h"

#include <inttypes.h>
#include <math.h>

void add_json_date(struct text *line, const char *key, nanoseconds time, bool is_known)
{
    add_format(line, "\"%s\":", key);
    size_t before = line->len;
    add_string(line, "\"");
    if (!is_known || !add_date(line, time, "T", "Z\"")) {
        line->len = before;
        add_string(line, "null");
    }
}

// What an object begins with: which of several dumps it is of.
static void begin_object(struct text *line, const struct dump *dump)
{
    add_string(line, "{");
    if (!dump->name)
        return;
    add_string(line, "\"dump\":");
    add_json(line, bytes_of_string(dump->name));
    add_string(line, ",");
}

static void add_lease(struct text *line, const struct lease *lease)
{
    if (!lease) {
        add_string(line, "\"thread\":null,\"tid\":null");
        return;
    }
    add_string(line, "\"thread\":");
    add_json(line, lease->name);
    add_format(line, ",\"tid\":%u", lease->tid);
}

// What a file's first line has in place of the thread that dumped.
static void add_run(struct text *line, const struct process *process)
{
    add_string(line, "\"tid\":null,\"signal\":0,");
    add_json_date(line, "started", (nanoseconds)process->start_time, true);
    add_format(line, ",\"stopped\":%s,\"inexact\":%s,", process->has_ended ? "true" : "false",
        process->is_inexact ? "true" : "false");
}

void add_json_head(struct text *line, const struct dump *dump)
{
    static const char *const clocks[CLOCK_KINDS] = {"monotonic", "tsc", "caller"};
    const struct process *process = &dump->process;
    begin_object(line, dump);
    add_string(line, "\"program\":");
    add_json(line, process->name);
    add_format(line, ",\"pid\":%u,", process->pid);
    if (process->is_file)
        add_run(line, process);
    else
        add_format(line, "\"tid\":%u,\"signal\":%u,", process->tid, process->signal);
    add_format(line, "\"clock\":\"%s\",", clocks[process->clock]);
    add_json_date(line, "time", process->dump_time, true);
    add_format(line, ",\"moment\":%" PRIu64 "}", process->dump_moment);
}

static void json_head(void *self, const struct dump *dump)
{
    struct lines *lines = self;
    add_json_head(&lines->line, dump);
    write_line(lines);
}

void add_json_argument(struct text *line, const struct argument *argument)
{
    struct text text = {NULL, 0, 0};
    switch (argument->class) {
    case CLASS_SIGNED: add_format(line, "%" PRId64, (int64_t)argument->value); break;
    case CLASS_FLOATING:
        if (isfinite(double_of(argument)))
            add_shortest(line, argument);
        else
            add_format(line, "\"%f\"", double_of(argument));
        break;
    case CLASS_TEXT:
        add_argument_text(&text, argument);
        add_json(line, bytes_of(&text));
        free_text(&text);
        break;
    default: add_format(line, "%" PRIu64, argument->value);
    }
}

void add_json_arguments(struct text *line, const struct site *site, const struct arguments *arguments)
{
    add_string(line, "\"args\":[");
    for (size_t k = 0; k < arguments->count; k++) {
        add_string(line, k ? "," : "");
        add_json_argument(line, &arguments->at[k]);
    }
    add_string(line, "]");
    if (!site || site->style != STYLE_FIELDS)
        return;
    add_string(line, ",\"fields\":{");
    for (size_t k = 0; k < arguments->count; k++) {
        add_string(line, k ? "," : "");
        add_json(line, field_name(site, k));
        add_string(line, ":");
        add_json_argument(line, &arguments->at[k]);
    }
    add_string(line, "}");
}

static void add_site(struct text *line, const struct site *site)
{
    if (!site) {
        add_string(line, ",\"file\":null,\"line\":null");
        return;
    }
    add_string(line, ",\"file\":");
    add_json(line, site->file);
    add_format(line, ",\"line\":%u", site->line);
    if (site->level != LEVEL_NONE)
        add_format(line, ",\"level\":\"%s\"", level_key(site->level));
}

static void json_record(void *self, const struct dump *dump, const struct record *record)
{
    struct lines *lines = self;
    struct text *line = &lines->line, *formatted = &lines->formatted;
    begin_object(line, dump);
    add_json_date(line, "time", time_of(&dump->process, record->moment), has_time(&dump->process));
    add_format(line, ",\"moment\":%" PRIu64 ",", record->moment);
    add_lease(line, record->lease);
    add_format(line, ",\"ring\":%u,\"number\":%" PRIu64, record->ring->number, record->number);
    add_site(line, record->site);
    formatted->len = 0;
    format_record(formatted, record, &lines->arguments);
    add_string(line, ",\"text\":");
    add_json(line, bytes_of(formatted));
    add_string(line, ",");
    add_json_arguments(line, record->site, &lines->arguments);
    add_string(line, "}");
    write_line(lines);
}

static void json_gap(void *self, const struct dump *dump, const struct gap *gap)
{
    struct lines *lines = self;
    begin_object(&lines->line, dump);
    add_format(&lines->line, "\"missing\":%" PRIu64 ",\"first\":%" PRIu64 ",\"last\":%" PRIu64 ",",
        gap->last - gap->first + 1, gap->first, gap->last);
    add_lease(&lines->line, gap->lease);
    add_format(&lines->line, ",\"ring\":%u}", gap->ring->number);
    write_line(lines);
}

void add_json_loss(struct text *line, const struct dump *dump, const struct loss *loss)
{
    static const char *const names[LOSS_KINDS] = {"overwritten", "refused", "no ring", "unknown", "damaged"};
    const struct ring *ring = loss->ring;
    begin_object(line, dump);
    add_format(line, "\"lost\":\"%s\",\"count\":%" PRIu64, names[loss->kind], loss->count);
    if (loss->why) {
        add_string(line, ",\"why\":");
        add_json(line, bytes_of_string(loss->why));
    }
    if (loss->what)
        add_format(line, ",\"what\":\"%s\",\"byte\":%zu", loss->what, loss->offset);
    if (ring)
        add_format(line, ",\"ring\":%u,\"slot\":%u,\"level\":%u,\"threads\":[", ring->number, ring->slot, ring->level);
    for (size_t k = 0; ring && k < ring->lease_count; k++) {
        add_string(line, k ? ",{" : "{");
        add_lease(line, &ring->leases[k]);
        add_string(line, "}");
    }
    add_string(line, ring ? "]}" : "}");
}

static void json_loss(void *self, const struct dump *dump, const struct loss *loss)
{
    struct lines *lines = self;
    add_json_loss(&lines->line, dump, loss);
    write_line(lines);
}

static void json_end(void *self, size_t losses)
{
    struct lines *lines = self;
    if (losses)
        return;
    add_string(&lines->line, "{\"lost\":null}");
    write_line(lines);
}

struct viewer json_viewer(struct lines *lines)
{
    return (struct viewer){lines, json_head, json_record, json_gap, json_loss, json_end};
}
