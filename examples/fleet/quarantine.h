// The messages of a bus that weren't taken whole: they can't be read, contradict what is known, or are marks, which no
// bus may bring. Each is kept as it came, and read again when the collector starts: a later version of it may take what
// this one can't (docs/formats/files.md, "Log of a collector"). For one that has no room, see `keep_message`.
#ifndef QUARANTINE_H
#define QUARANTINE_H

#include "log_files.h"
#include "report.h"

#define QUARANTINE "quarantine"
#define KEPT_LETTERS "TRMESSAG"
#define QUARANTINE_WORDS \
    NUMBER_WORD("quarantine-bytes", "268435456", 0, UINT64_MAX, \
        "bytes of the quarantine; what has no room isn't acknowledged")

struct kept_message {
    char letters[8];
    uint64_t len;    // of the message, which follows
    uint64_t moment; // when it came first, in nanoseconds since 1970
    uint64_t cause;  // the library's answer to what wasn't taken, or KEPT_MARK
};

enum { KEPT_MARK = 1000 };

struct quarantine {
    int folder;
    FILE *file;
    uint64_t count, size; // its messages and bytes
    bool is_new;          // whether something isn't lasting yet
};

static inline const char *cause_text(uint64_t cause)
{
    return cause == KEPT_MARK ? "a mark comes over the bus, and only collectors make them" : tracering_text((int)cause);
}

static inline void keep_in(struct quarantine *q, FILE *file, const struct kept_message *head, const void *message)
{
    write_all(file, head, sizeof *head, QUARANTINE);
    write_all(file, message, head->len, QUARANTINE);
    q->count++;
    q->size += sizeof *head + head->len;
}

// Keeps a message. False: there is no room for it, so that it must not be acknowledged. The bus has it still, and gives
// it again, to this collector or to another one.
static inline bool keep_message(struct quarantine *q, const void *message, size_t len, uint64_t cause)
{
    struct kept_message head = {KEPT_LETTERS, len, nanoseconds(CLOCK_REALTIME), cause};
    if (q->size + sizeof head + len > number_of("quarantine-bytes")) {
        report("a message isn't acknowledged, since the quarantine is full (--quarantine-bytes)", cause_text(cause));
        return false;
    }
    report("a message is kept in quarantine", cause_text(cause));
    keep_in(q, q->file, &head, message);
    return q->is_new = true;
}

static inline void sync_quarantine(struct quarantine *q)
{
    if (q->is_new)
        make_lasting(q->file, QUARANTINE);
    q->is_new = false;
}

// Whether a whole message is kept at this place. If not, a crash cut it, before it was acknowledged, or it is damaged.
static inline bool kept_at(const uint8_t *bytes, size_t len, size_t at, struct kept_message *head)
{
    if (len - at < sizeof *head)
        return false;
    memcpy(head, bytes + at, sizeof *head);
    return !memcmp(head->letters, KEPT_LETTERS, 8) && len - at - sizeof *head >= head->len;
}

// Opens the quarantine, and gives each of its messages to `take` again, which answers the cause why it isn't taken
// whole, or 0. Those that are taken now are in the log, which `sync` makes lasting before they leave the quarantine.
static inline void open_quarantine(struct quarantine *q, int folder, uint64_t (*take)(const void *, size_t),
    void (*sync)(void))
{
    int file;
    size_t len, at = 0;
    uint64_t taken = 0;
    *q = (struct quarantine){.folder = folder};
    const uint8_t *bytes = mapped_at(folder, QUARANTINE, O_RDWR | O_CREAT | O_APPEND, &file, &len);
    FILE *left = opened_at(folder, QUARANTINE "~", O_WRONLY | O_CREAT | O_TRUNC, "w");
    for (struct kept_message next; at < len && kept_at(bytes, len, at, &next); at += sizeof next + next.len) {
        next.cause = take(bytes + at + sizeof next, next.len);
        if (next.cause)
            keep_in(q, left, &next, bytes + at + sizeof next);
        taken += !next.cause;
    }
    if (at < len && !memcmp(bytes + at, KEPT_LETTERS, len - at < 8 ? len - at : 8))
        fprintf(stderr, "the last message in quarantine was never whole, and is cut off\n");
    else if (at < len)
        die(QUARANTINE, "it is damaged; give it another name, to look at it and to go on without it");
    unmap(bytes, len);
    (void)close(file);
    if (taken) {
        sync();
        fprintf(stderr, "%" PRIu64 " messages of the quarantine are read now, %" PRIu64 " aren't\n", taken, q->count);
    }
    make_lasting(left, QUARANTINE);
    (void)fclose(left);
    rename_at(folder, QUARANTINE "~", QUARANTINE);
    q->file = opened_at(folder, QUARANTINE, O_WRONLY | O_APPEND, "a");
}
#endif
