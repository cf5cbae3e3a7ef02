// A kernel's ring buffer: the pages that per_cpu/cpuN/trace_pipe_raw gives, each read once. The numbers of a CPU count
// its records, and what the pages say was lost before them. A loss whose number the kernel doesn't say, and a page that
// can't be read, leave one number without anything: collectors find it unknown.
//
// Each start is another stream. If the last one was killed, its end is sent now, as its state says it: what it read and
// didn't bring to the bus is unknown then.
#ifndef KERNEL_SOURCE_H
#define KERNEL_SOURCE_H

#include "page_words.h"
#include "source.h"
#include "state.h"

#include <dirent.h>

#define KERNEL_WORDS \
    NUMBER_WORD("page", NULL, 64, 65536, \
        "--kernel: bytes of a page of the ring buffer (buffer_subbuf_size_kb, or 4096)")

enum { MOST_CPUS = 256, IMAGE_HEAD = 16, NUMBERS = 32 };
#define KERNEL_MISSED (UINT64_C(1) << 31)
#define KERNEL_STORED (UINT64_C(1) << 30)
enum { READ_EVERY = 50 }; // milliseconds from one look at a CPU that has nothing to the next

struct kernel_cpu {
    int file;
    uint32_t cpu;
    uint64_t fill;
    struct state_entry *sent; // `next` is the number of the next record
    double next_look;
    bool is_read, is_ended; // after a signal
};

static struct {
    uint64_t stream;
    struct kernel_cpu cpus[MOST_CPUS];
    size_t count, turn, page;
    struct state_entry former[STATE_ENTRIES]; // ends that a killed start owes
    size_t former_count, former_next;
    uint8_t parcel[NUMBERS + 65536];
} kernel;

// A time stamp has the low 59 bits of a time alone: above 2^59 the others are those of the time before it. It is made a
// time extend, which has the same length. (The kernel's reader does the same sum: rb_fix_abs_ts.)
static inline void restore_stamps(uint64_t time, uint8_t *data, size_t len)
{
    const uint64_t low = (UINT64_C(1) << 59) - 1;
    for (size_t at = 0, took; (took = word_len(data, len, at)); at += took) {
        uint32_t head = word_at(data, at), kind = head & 31;
        uint64_t delta = head >> 5;
        if (kind >= WORD_EXTEND)
            delta += (uint64_t)word_at(data, at + 4) << 27;
        if (kind == WORD_STAMP && time > low) {
            uint64_t moment = delta | (time & ~low);
            moment += moment < time ? low + 1 : 0;
            put_word(data, at, (uint32_t)(moment - time) << 5 | WORD_EXTEND);
            put_word(data, at + 4, (uint32_t)((moment - time) >> 27));
            time = moment;
        } else {
            time = kind == WORD_STAMP ? delta : kind == WORD_PADDING ? time : time + delta;
        }
    }
}

// Makes a piece of a page that was read. False: it has no record, or can't be read.
static inline bool pack_page(struct kernel_cpu *c, size_t len, struct piece *piece)
{
    uint8_t *image = kernel.parcel + NUMBERS, *data = image + IMAGE_HEAD;
    uint64_t commit = len < IMAGE_HEAD ? 0 : number_at(image, 8), size = commit & 0x3fffffff, missed = 0;
    uint64_t next = c->sent->next, parts[] = {c->cpu, c->fill++, 0, 0};
    bool is_short = len < IMAGE_HEAD + size;
    if (commit & KERNEL_MISSED && commit & KERNEL_STORED && len >= IMAGE_HEAD + size + 8)
        missed = number_at(data, size);
    bool is_unknown = commit & KERNEL_MISSED && (missed == 0 || missed == UINT64_MAX);
    missed = is_unknown ? 0 : missed;
    next += is_unknown;
    count(UNKNOWN_LOSSES, is_unknown);
    parts[2] = next + missed;
    parts[3] = missed;
    memcpy(kernel.parcel, parts, sizeof parts);
    put_number(image, 8, size | (missed ? KERNEL_MISSED : 0));
    if (!is_short)
        restore_stamps(number_at(image, 0), data, size);
    int32_t code = tracering_pack(kernel.stream, kernel.parcel, NUMBERS + (is_short ? len : IMAGE_HEAD + size),
        piece->bytes, sizeof piece->bytes, &piece->len);
    if (code == TRACERING_NO_MEMORY)
        die("pack", tracering_text(code));
    if (code > TRACERING_DONE) {
        report("a page of the kernel is damaged", tracering_text(code));
        count(DAMAGED_PAGES, 1);
        note_sent(c->sent, next + 1);
        return false;
    }
    uint64_t records = span_of_piece(piece->bytes).count;
    count(MISSING, missed);
    note_sent(c->sent, next + missed + records);
    return records || missed;
}

// Reads the next page of a CPU, and makes a piece of it.
static inline bool read_page(struct kernel_cpu *c, struct piece *piece)
{
    while (!c->is_read && seconds_now() >= c->next_look) {
        ssize_t len = read(c->file, kernel.parcel + NUMBERS, kernel.page);
        if (len <= 0) {
            if (len < 0 && errno != EAGAIN && errno != EINTR)
                report("trace_pipe_raw", strerror(errno));
            c->is_read = is_stopped;
            c->next_look = seconds_now() + READ_EVERY / 1e3;
        } else if (pack_page(c, (size_t)len, piece)) {
            return true;
        }
    }
    return false;
}

static inline bool next_of_kernel(struct piece *piece)
{
    if (kernel.former_next < kernel.former_count) {
        const struct state_entry *owed = &kernel.former[kernel.former_next++];
        pack_end(piece, owed->stream, (uint32_t)owed->cpu, owed->next);
        return true;
    }
    for (size_t tried = 0; tried < kernel.count; tried++) {
        struct kernel_cpu *c = &kernel.cpus[kernel.turn++ % kernel.count];
        piece->stream = kernel.stream;
        piece->cpu = c->cpu;
        if (is_stopped)
            c->next_look = 0;
        if (read_page(c, piece))
            return true;
        if (c->is_read && !c->is_ended) {
            c->is_ended = true;
            pack_end(piece, kernel.stream, c->cpu, c->sent->next);
            return true;
        }
    }
    return false;
}

// The end of a CPU's stream is on the bus: nothing is owed of it any more.
static inline void forget_ended(const void *bytes)
{
    if (kind_of(bytes) != KIND_END)
        return;
    for (struct state_entry *each = state.entries; each < state.entries + STATE_ENTRIES; each++)
        if (each->made && each->stream == number_at(bytes, STREAM_AT) && each->cpu == number_at(bytes, CPU_AT))
            __atomic_store_n(&each->made, 0, __ATOMIC_SEQ_CST);
}

static inline bool is_kernel_done(void)
{
    for (size_t k = 0; k < kernel.count; k++)
        if (!kernel.cpus[k].is_ended)
            return false;
    return kernel.former_next == kernel.former_count;
}

static inline void end_kernel(void)
{
    for (size_t k = 0; k < kernel.count; k++)
        (void)close(kernel.cpus[k].file);
}

static inline void open_cpu(const char *folder, unsigned cpu)
{
    char path[4096];
    struct kernel_cpu *c = &kernel.cpus[kernel.count++];
    if (snprintf(path, sizeof path, "%s/per_cpu/cpu%u/trace_pipe_raw", folder, cpu) >= (int)sizeof path)
        die(folder, strerror(ENAMETOOLONG));
    *c = (struct kernel_cpu){.file = open(path, O_RDONLY | O_NONBLOCK | O_CLOEXEC), .cpu = cpu};
    if (c->file < 0)
        die(path, strerror(errno));
    c->sent = state_of(kernel.stream, cpu);
}

// How many bytes a page of the ring buffer has, as the kernel says (from 6.8 on), or 4,096.
static inline size_t page_of_kernel(const char *folder)
{
    char path[4096];
    unsigned long kilobytes = 4;
    (void)snprintf(path, sizeof path, "%s/buffer_subbuf_size_kb", folder);
    FILE *from = fopen(path, "r");
    if (from && fscanf(from, "%lu", &kilobytes) != 1)
        die(path, "it has no number");
    if (from)
        (void)fclose(from);
    return kilobytes * 1024;
}

static inline struct source kernel_source(void)
{
    char path[4096];
    const char *folder = text_of("kernel");
    open_state();
    kernel.stream = own_stream();
    for (size_t k = 0; k < STATE_ENTRIES; k++)
        if (state.entries[k].made)
            kernel.former[kernel.former_count++] = state.entries[k];
    kernel.page = text_of("page") ? number_of("page") : page_of_kernel(folder);
    if (kernel.page < 64 || kernel.page > 65536)
        refuse_words("--page", "it is 64 to 65536");
    (void)snprintf(path, sizeof path, "%s/per_cpu", folder);
    DIR *from = opendir(path);
    if (!from)
        die(path, strerror(errno));
    for (struct dirent *each; (each = readdir(from));) {
        unsigned cpu;
        if (sscanf(each->d_name, "cpu%u", &cpu) == 1 && cpu < MOST_CPUS)
            open_cpu(folder, cpu);
    }
    (void)closedir(from);
    if (!kernel.count)
        die(path, "it has no CPU");
    return (struct source){next_of_kernel, forget_ended, is_kernel_done, end_kernel};
}
#endif
