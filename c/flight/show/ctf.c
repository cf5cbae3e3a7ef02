// Writes a dump as Common Trace Format 1.8: a file `metadata`, and one stream for each ring. A packet ends before each
// gap, and the next one counts the numbers that are missing as discarded; a last packet, which has no event, counts the
// records that were refused or aren't read.
#include "viewers.h"

#include <errno.h>
#include <inttypes.h>
#include <stdlib.h>
#include <string.h>
#include <sys/stat.h>

// The bytes of a packet before its events.
enum { PACKET_HEAD = 52, BITS = 8 };
static const uint32_t MAGIC = 0xc1fc1fc1;

struct stream {
    FILE *file;
    struct text packet; // its events
    uint64_t begin, end, discarded;
};

struct ctf {
    const struct dump *dump;
    const char *folder;
    struct text *path; // of the file that was opened last
    struct stream streams[RINGS]; // by number
    struct text formatted;
    struct arguments arguments;
    bool has_failed;
};

static void add_number(struct text *text, uint64_t number, size_t size)
{
    for (size_t k = 0; k < size; k++) {
        uint8_t byte = (uint8_t)(number >> (BITS * k));
        add_bytes(text, &byte, 1);
    }
}

// Adds bytes as a string of the trace, which ends with a zero byte and has no other.
static void add_ctf_string(struct text *text, struct bytes bytes)
{
    add_escaped(text, bytes);
    add_bytes(text, "", 1);
}

// Adds bytes as a string of the metadata, in quotes. They are what a reader may meet in it: printable letters.
static void add_quoted(struct text *text, struct bytes bytes)
{
    add_string(text, "\"");
    for (size_t k = 0; k < bytes.len; k++) {
        uint8_t byte = bytes.at[k];
        bool is_plain = byte >= 0x20 && byte < 0x7f;
        if (byte == '"' || byte == '\\')
            add_string(text, "\\");
        add_bytes(text, is_plain ? (const char *)&byte : "?", 1);
    }
    add_string(text, "\"");
}

static FILE *open_file(struct ctf *ctf, const char *name)
{
    ctf->path->len = 0;
    add_string(ctf->path, ctf->folder);
    add_string(ctf->path, "/");
    add_string(ctf->path, name);
    add_bytes(ctf->path, "", 1);
    FILE *file = fopen(ctf->path->at, "wxb");
    ctf->has_failed |= !file;
    return file;
}

static void write_file(struct ctf *ctf, FILE *file, const struct text *text)
{
    ctf->has_failed |= text->len && fwrite(text->at, 1, text->len, file) != text->len;
}

static void close_file(struct ctf *ctf, FILE *file)
{
    ctf->has_failed |= fclose(file) != 0;
}

// What is the same of all dumps.
static const char METADATA[] =
    "/* CTF 1.8 */\n"
    "typealias integer { size = 32; align = 8; signed = false; } := uint32_t;\n"
    "typealias integer { size = 64; align = 8; signed = false; } := uint64_t;\n"
    "trace {\n    major = 1;\n    minor = 8;\n    byte_order = le;\n"
    "    packet.header := struct { uint32_t magic; uint32_t stream_id; };\n};\n";

static const char STREAM[] =
    "typealias integer { size = 64; align = 8; signed = false; map = clock.flight.value; } := moment_t;\n"
    "stream {\n    id = 0;\n"
    "    packet.context := struct { moment_t timestamp_begin; moment_t timestamp_end; uint64_t content_size;\n"
    "        uint64_t packet_size; uint64_t events_discarded; uint32_t ring; };\n"
    "    event.header := struct { uint32_t id; moment_t timestamp; };\n"
    "    event.context := struct { string { encoding = UTF8; } thread; uint32_t tid; uint64_t number; "
    "uint64_t moment; };\n};\n";

static void add_environment(struct text *text, const struct process *process)
{
    add_string(text, "env {\n    program = ");
    add_quoted(text, process->name);
    add_format(text, ";\n    pid = %u;\n    dumped_by = %u;\n    signal = %u;\n", process->pid, process->tid,
        process->signal);
    if (process->is_file)
        add_format(text, "    stopped = %d;\n    inexact = %d;\n", process->has_ended, process->is_inexact);
    add_string(text, "    events_without_ring = ");
    add_format(text, "%" PRIu64 ";\n};\n", process->no_ring & INT64_MAX);
    add_string(text, "clock {\n    name = flight;\n    freq = 1000000000;\n");
    if (has_time(process))
        add_string(text, "    offset = 0;\n    absolute = true;\n    description = \"nanoseconds from 1970\";\n};\n");
    else
        add_string(text, "    description = \"the moments of the program's own clock\";\n};\n");
}

// Adds the type of a field for an argument of this kind.
static void add_type(struct text *text, uint8_t kind)
{
    unsigned bits = BITS * kind_size(kind);
    switch (kind_class(kind)) {
    case CLASS_TEXT: add_string(text, "string { encoding = UTF8; }"); break;
    case CLASS_FLOATING:
        add_format(text, "floating_point { exp_dig = %d; mant_dig = %d; byte_order = le; align = 8; }",
            bits == 32 ? 8 : 11, bits == 32 ? 24 : 53);
        break;
    default:
        add_format(text, "integer { size = %u; align = 8; signed = %s; base = %d; }", bits,
            kind_class(kind) == CLASS_SIGNED ? "true" : "false", kind_class(kind) == CLASS_ADDRESS ? 16 : 10);
    }
}

// The class of a record's event: its site's place among the sites, and after them that of an unknown site.
static uint32_t class_of(const struct dump *dump, const struct site *site)
{
    return (uint32_t)(site ? (size_t)(site - dump->sites) : dump->site_count);
}

static void add_event_head(struct text *text, struct bytes name, uint32_t class)
{
    add_string(text, "event {\n    name = ");
    add_quoted(text, name);
    add_format(text, ";\n    id = %u;\n    stream_id = 0;\n", class);
    add_string(text, "    fields := struct {\n        string { encoding = UTF8; } text;\n");
}

static void add_event(struct text *text, const struct dump *dump, const struct site *site)
{
    struct text name = {NULL, 0, 0};
    add_bytes(&name, site->file.at, site->file.len);
    add_format(&name, ":%u", site->line);
    add_event_head(text, bytes_of(&name), class_of(dump, site));
    free_text(&name);
    for (size_t k = 0; k < site->kinds.len; k++) {
        add_string(text, "        ");
        add_type(text, site->kinds.at[k]);
        add_format(text, " arg%zu;\n", k);
    }
    add_string(text, "    };\n};\n");
}

static void ctf_head(void *self, const struct dump *dump)
{
    struct ctf *ctf = self;
    struct text text = {NULL, 0, 0};
    FILE *file = open_file(ctf, "metadata");
    if (!file)
        return;
    add_string(&text, METADATA);
    add_environment(&text, &dump->process);
    add_string(&text, STREAM);
    for (size_t k = 0; k < dump->site_count; k++) {
        add_event(&text, dump, &dump->sites[k]);
        write_file(ctf, file, &text);
        text.len = 0;
    }
    add_event_head(&text, bytes_of_string("unknown"), class_of(dump, NULL));
    add_string(&text, "    };\n};\n");
    write_file(ctf, file, &text);
    close_file(ctf, file);
    free_text(&text);
}

// Writes the packet whose events were added. The next one begins where it ends.
static void write_packet(struct ctf *ctf, const struct ring *ring, struct stream *stream)
{
    struct text head = {NULL, 0, 0};
    uint64_t bits = (PACKET_HEAD + (uint64_t)stream->packet.len) * BITS;
    add_number(&head, MAGIC, 4);
    add_number(&head, 0, 4);
    add_number(&head, stream->begin, 8);
    add_number(&head, stream->end, 8);
    add_number(&head, bits, 8);
    add_number(&head, bits, 8);
    add_number(&head, stream->discarded, 8);
    add_number(&head, ring->number, 4);
    write_file(ctf, stream->file, &head);
    write_file(ctf, stream->file, &stream->packet);
    free_text(&head);
    stream->packet.len = 0;
    stream->begin = stream->end;
}

// The time of a moment in the trace, which is a number of 63 bits.
static uint64_t trace_time(const struct process *process, uint64_t moment)
{
    nanoseconds time = has_time(process) ? time_of(process, moment) : (nanoseconds)moment;
    return time < 0 ? 0 : time > INT64_MAX ? INT64_MAX : (uint64_t)time;
}

// The stream of a ring, or null: it can't be made. It begins with a packet without events, so that the next one's count
// of discarded events has one before it.
static struct stream *stream_of(struct ctf *ctf, const struct ring *ring)
{
    struct stream *stream = &ctf->streams[ring->number];
    char name[32];
    snprintf(name, sizeof name, "ring_%u", ring->number);
    if (!stream->file && !ctf->has_failed) {
        stream->file = open_file(ctf, name);
        if (stream->file) {
            stream->begin = stream->end = trace_time(&ctf->dump->process, ctf->dump->process.start_moment);
            write_packet(ctf, ring, stream);
        }
    }
    return ctf->has_failed ? NULL : stream;
}

static void add_argument(struct text *text, uint8_t kind, const struct argument *argument)
{
    struct text whole = {NULL, 0, 0};
    if (kind_class(kind) != CLASS_TEXT) {
        add_number(text, argument ? argument->value : 0, kind_size(kind));
        return;
    }
    if (argument)
        add_argument_text(&whole, argument);
    add_ctf_string(text, bytes_of(&whole));
    free_text(&whole);
}

static void add_record(struct ctf *ctf, struct text *packet, const struct record *record, uint64_t time)
{
    struct arguments *arguments = &ctf->arguments;
    struct bytes nobody = bytes_of_string("?");
    add_number(packet, class_of(ctf->dump, record->site), 4);
    add_number(packet, time, 8);
    add_ctf_string(packet, record->lease ? record->lease->name : nobody);
    add_number(packet, record->lease ? record->lease->tid : 0, 4);
    add_number(packet, record->number, 8);
    add_number(packet, record->moment, 8);
    ctf->formatted.len = 0;
    format_record(&ctf->formatted, record, arguments);
    drop_line_end(&ctf->formatted);
    add_ctf_string(packet, bytes_of(&ctf->formatted));
    for (size_t k = 0; record->site && k < record->site->kinds.len; k++)
        add_argument(packet, record->site->kinds.at[k], k < arguments->count ? &arguments->at[k] : NULL);
}

static void ctf_record(void *self, const struct dump *dump, const struct record *record)
{
    struct ctf *ctf = self;
    struct stream *stream = stream_of(ctf, record->ring);
    (void)dump;
    if (!stream)
        return;
    uint64_t time = trace_time(&ctf->dump->process, record->moment);
    if (stream->end < time)
        stream->end = time;
    add_record(ctf, &stream->packet, record, stream->end);
    // What is kept of a packet is bounded.
    if (stream->packet.len > (size_t)1 << 16)
        write_packet(ctf, record->ring, stream);
}

static void ctf_gap(void *self, const struct dump *dump, const struct gap *gap)
{
    struct ctf *ctf = self;
    struct stream *stream = stream_of(ctf, gap->ring);
    (void)dump;
    if (!stream)
        return;
    if (stream->packet.len)
        write_packet(ctf, gap->ring, stream);
    stream->discarded += gap->last - gap->first + 1;
}

static void ctf_loss(void *self, const struct dump *dump, const struct loss *loss)
{
    struct ctf *ctf = self;
    (void)dump;
    if (loss->kind != LOSS_REFUSED)
        return;
    struct stream *stream = stream_of(ctf, loss->ring);
    if (!stream)
        return;
    if (stream->packet.len)
        write_packet(ctf, loss->ring, stream);
    stream->discarded += loss->count;
}

// Ends each stream with a packet up to the dump.
static void ctf_end(void *self, size_t losses)
{
    struct ctf *ctf = self;
    uint64_t end = trace_time(&ctf->dump->process, ctf->dump->process.dump_moment);
    (void)losses;
    for (size_t k = 0; k < ctf->dump->ring_count && !ctf->has_failed; k++) {
        const struct ring *ring = &ctf->dump->rings[k];
        struct stream *stream = &ctf->streams[ring->number];
        if (!stream->file)
            continue;
        if (stream->packet.len)
            write_packet(ctf, ring, stream);
        if (stream->end < end)
            stream->end = end;
        write_packet(ctf, ring, stream);
    }
}

bool write_ctf(struct dump *dump, const struct choice *choice, const char *folder, struct text *path)
{
    struct ctf *ctf = allocate(1, sizeof *ctf);
    struct viewer viewer = {ctf, ctf_head, ctf_record, ctf_gap, ctf_loss, ctf_end};
    ctf->dump = dump;
    ctf->folder = folder;
    ctf->path = path;
    if (mkdir(folder, 0777) && errno != EEXIST)
        ctf->has_failed = true;
    else
        list_dumps(dump, 1, choice, &viewer);
    for (size_t k = 0; k < RINGS; k++) {
        if (ctf->streams[k].file)
            close_file(ctf, ctf->streams[k].file);
        free_text(&ctf->streams[k].packet);
    }
    bool is_written = !ctf->has_failed;
    free_text(&ctf->formatted);
    free(ctf);
    return is_written;
}
