// Ids of streams, and how far each CPU's numbers were given to the bus. With `--state FILE` that outlives the
// publisher, whatever ends it: a number is noted there before it is given to the bus, so what was noted may have been
// sent, and nothing else was. (A crash of the machine leaves what it had written back; its rings are gone then, too.)
#ifndef STATE_H
#define STATE_H

#include "report.h"

#define STREAM_WORDS \
    NUMBER_WORD("host", NULL, 0, UINT32_MAX, "32 high bits of the stream's id (of /etc/machine-id)"), \
    NUMBER_WORD("incarnation", NULL, 0, UINT32_MAX, "32 low bits, others at each start (the start's second)")

#define STATE_WORDS \
    TEXT_WORD("state", NULL, "file that notes how far was sent; none: a new start knows nothing of this one")

struct state_entry {
    uint64_t stream, cpu;
    uint64_t next; // all numbers of which any may have been sent are below
    uint64_t made; // rises with each new entry; 0: it is free
};

enum { STATE_ENTRIES = 4096 };

static struct {
    struct state_entry *entries;
    bool is_kept; // in a file
    uint64_t made;
} state;

static inline void open_state(void)
{
    const char *path = text_of("state");
    size_t len = STATE_ENTRIES * sizeof *state.entries;
    if (!path) {
        state.entries = allocated(STATE_ENTRIES, sizeof *state.entries);
        return;
    }
    int file = open(path, O_RDWR | O_CREAT | O_CLOEXEC, 0600);
    if (file < 0 || lockf(file, F_TLOCK, 0) || ftruncate(file, (off_t)len))
        die(path, errno == EAGAIN || errno == EACCES ? "another publisher has it" : strerror(errno));
    state.entries = mmap(NULL, len, PROT_READ | PROT_WRITE, MAP_SHARED, file, 0);
    if (state.entries == MAP_FAILED)
        die(path, strerror(errno));
    state.is_kept = true;
    for (size_t k = 0; k < STATE_ENTRIES; k++)
        state.made = state.entries[k].made > state.made ? state.entries[k].made : state.made;
    // (The file stays open, and so locked.)
}

// The entry of a CPU of a stream: a new one, from number 0 on, if there is none. It takes the place of the oldest one
// if there are too many.
static inline struct state_entry *state_of(uint64_t stream, uint32_t cpu)
{
    struct state_entry *oldest = state.entries;
    for (struct state_entry *each = state.entries; each < state.entries + STATE_ENTRIES; each++) {
        if (each->made && each->stream == stream && each->cpu == cpu)
            return each;
        if (each->made < oldest->made)
            oldest = each;
    }
    *oldest = (struct state_entry){stream, cpu, 0, ++state.made};
    return oldest;
}

// Notes that numbers below this one may have been sent.
static inline void note_sent(struct state_entry *entry, uint64_t next)
{
    if (next > entry->next)
        __atomic_store_n(&entry->next, next, __ATOMIC_SEQ_CST);
}

// A number of 32 bits that this machine keeps.
static inline uint64_t machine_number(void)
{
    char text[256] = "";
    uint64_t sum = UINT64_C(14695981039346656037); // (FNV-1a)
    FILE *from = fopen("/etc/machine-id", "r");
    if ((!from || !fgets(text, sizeof text, from)) && gethostname(text, sizeof text - 1))
        die("gethostname", strerror(errno));
    if (from)
        (void)fclose(from);
    for (const char *at = text; *at && *at != '\n'; at++)
        sum = (sum ^ (unsigned char)*at) * UINT64_C(1099511628211);
    return (sum ^ sum >> 32) & UINT32_MAX;
}

// A stream's id that no other start has. Two publishers of one machine get another `--host` each.
static inline uint64_t own_stream(void)
{
    uint64_t host = text_of("host") ? number_of("host") : machine_number();
    uint64_t incarnation = text_of("incarnation") ? number_of("incarnation") : (uint64_t)time(NULL);
    return host << 32 | (incarnation & UINT32_MAX);
}
#endif
