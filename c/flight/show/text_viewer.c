// The listing for readers: a line for each record and each gap, and then one for each loss.
#include "viewers.h"

#include <inttypes.h>
#include <signal.h>

// The width of a time, and of the largest moment.
enum { TIME_WIDTH = 18, MOST_NAMED = 8 };

void write_line(struct lines *lines)
{
    add_string(&lines->line, "\n");
    (void)fwrite(lines->line.at, 1, lines->line.len, stdout);
    lines->line.len = 0;
}

void free_lines(struct lines *lines)
{
    free_text(&lines->line);
    free_text(&lines->formatted);
}

static const char *signal_name(uint32_t signal)
{
    switch (signal) {
    case SIGSEGV: return " (SIGSEGV)";
    case SIGBUS: return " (SIGBUS)";
    case SIGILL: return " (SIGILL)";
    case SIGFPE: return " (SIGFPE)";
    case SIGABRT: return " (SIGABRT)";
    case SIGTERM: return " (SIGTERM)";
    default: return "";
    }
}

// Adds which of several dumps a line is of.
static void add_name(struct text *line, const struct dump *dump)
{
    if (!dump->name)
        return;
    add_escaped(line, bytes_of_string(dump->name));
    add_string(line, ": ");
}

static void show_file_head(struct lines *lines, const struct dump *dump)
{
    const struct process *process = &dump->process;
    add_escaped(&lines->line, process->name);
    add_format(&lines->line, "[%u], started ", process->pid);
    (void)add_date(&lines->line, (nanoseconds)process->start_time, " ", " UTC, ");
    add_string(&lines->line, process->has_ended ? "stopped " : "not stopped: it was killed, or runs");
    if (process->has_ended)
        (void)add_date(&lines->line, process->dump_time, " ", " UTC");
    write_line(lines);
    if (!process->is_inexact)
        return;
    add_name(&lines->line, dump);
    add_string(&lines->line, "times are inexact: the clocks were read once, or twice within a second, in another boot");
    write_line(lines);
}

static void show_head(void *self, const struct dump *dump)
{
    struct lines *lines = self;
    const struct process *process = &dump->process;
    add_name(&lines->line, dump);
    if (process->is_file) {
        show_file_head(lines, dump);
        return;
    }
    add_escaped(&lines->line, process->name);
    add_format(&lines->line, "[%u], dumped ", process->pid);
    (void)add_date(&lines->line, process->dump_time, " ", " UTC ");
    add_format(&lines->line, "by thread %u", process->tid);
    if (process->signal)
        add_format(&lines->line, " for signal %u%s", process->signal, signal_name(process->signal));
    write_line(lines);
}

static void show_record(void *self, const struct dump *dump, const struct record *record)
{
    struct lines *lines = self;
    struct text *line = &lines->line;
    if (has_time(&dump->process))
        add_time_of_day(line, time_of(&dump->process, record->moment));
    else
        add_format(line, "%*" PRIu64, TIME_WIDTH, record->moment);
    add_string(line, " ");
    add_name(line, dump);
    add_thread(line, record->ring, record->lease);
    add_string(line, " ");
    add_line_text(line, record, &lines->formatted, &lines->arguments);
    write_line(lines);
}

static const char *plural(uint64_t count)
{
    return count == 1 ? "" : "s";
}

static void show_gap(void *self, const struct dump *dump, const struct gap *gap)
{
    struct lines *lines = self;
    uint64_t count = gap->last - gap->first + 1;
    add_fill(&lines->line, " ", 1, TIME_WIDTH + 1);
    add_name(&lines->line, dump);
    add_thread(&lines->line, gap->ring, gap->lease);
    add_format(&lines->line, " %" PRIu64 " record%s missing", count, plural(count));
    write_line(lines);
}

// Adds the threads that had the ring, the last one last.
static void add_threads(struct text *text, const struct ring *ring)
{
    size_t first = ring->lease_count > MOST_NAMED ? ring->lease_count - MOST_NAMED : 0;
    add_format(text, "ring %u", ring->number);
    for (size_t k = first; k < ring->lease_count; k++) {
        add_string(text, k == first ? " (" : ", ");
        add_thread(text, ring, &ring->leases[k]);
    }
    if (ring->lease_count)
        add_string(text, ")");
}

static void show_damage(struct lines *lines, const struct loss *loss)
{
    if (loss->what)
        add_format(&lines->line, "%s is damaged: %s: byte %zu", loss->what, loss->why, loss->offset);
    else
        add_format(&lines->line, "%" PRIu64 " more damage%s", loss->count, plural(loss->count));
    write_line(lines);
}

static void show_loss(void *self, const struct dump *dump, const struct loss *loss)
{
    static const struct {
        const char *noun, *what;
    } said[LOSS_DAMAGED] = {{"record", "overwritten"}, {"record", "refused"}, {"event", "without a ring"},
        {"record", "overwritten, or on a page that is damaged"}};
    struct lines *lines = self;
    add_string(&lines->line, "lost: ");
    add_name(&lines->line, dump);
    if (loss->ring) {
        add_threads(&lines->line, loss->ring);
        add_string(&lines->line, ": ");
    }
    if (loss->kind == LOSS_DAMAGED) {
        show_damage(lines, loss);
        return;
    }
    add_format(&lines->line, "%" PRIu64 " %s%s %s", loss->count, said[loss->kind].noun, plural(loss->count),
        said[loss->kind].what);
    if (loss->why)
        add_format(&lines->line, ": %s", loss->why);
    write_line(lines);
}

static void show_end(void *self, size_t losses)
{
    struct lines *lines = self;
    if (losses)
        return;
    add_string(&lines->line, "nothing lost");
    write_line(lines);
}

struct viewer text_viewer(struct lines *lines)
{
    return (struct viewer){lines, show_head, show_record, show_gap, show_loss, show_end};
}
