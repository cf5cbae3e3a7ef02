// Rings of the publisher's own process, to be copied: a ring for each of its CPUs, one thread that writes them all, and
// the publisher, which takes their pages. The ledger says what it wrote, took, and knows to be on the bus, for whoever
// checks what collectors have.
#ifndef HOST_H
#define HOST_H

#include "source.h"
#include "state.h"

#define HOST_WORDS \
    NUMBER_WORD("cpus", "4", 1, RINGS, "--rings: how many rings"), \
    NUMBER_WORD("pages", "64", 2, 1024, "--rings: how many pages each has"), \
    NUMBER_WORD("size", "4080", 32, 65520, "--rings: bytes of data of a page"), \
    NUMBER_WORD("rate", "1000", 0, A_BILLION, "--rings: events a second of each ring; 0: as many as it can"), \
    NUMBER_WORD("seconds", "10", 0, A_BILLION, "--rings: how long it writes"), \
    TEXT_WORD("ledger", NULL, "--rings: file of what it does")

enum { RINGS = 64 };

struct ring {
    struct tracering_writer writer;
    struct tracering_reader reader;
    uint64_t written, moment;
    double asked; // when a page was taken, or wished for
    bool is_settled, is_ended;
};

static struct {
    uint64_t stream, rate;
    double seconds;
    uint32_t cpus, turn, ended;
    FILE *ledger;
    pthread_t thread;
    double writing;         // how many seconds of a processor its thread took
    atomic_bool is_written; // all that this host writes is written
    bool is_joined;
    struct ring rings[RINGS];
    uint8_t parcel[PARCEL];
} host;

#define NOTE(...) (host.ledger ? (void)fprintf(host.ledger, __VA_ARGS__) : (void)0)

// An event of a CPU: a record, and within the first of several the others, as by an interrupt. The ledger has its line
// before the ring has its record, so it has the line of each record that a collector ever gets.
static inline void record(uint32_t cpu, int events)
{
    static const char dots[] = "........................................";
    struct ring *r = &host.rings[cpu];
    uint64_t number = r->written++, now = nanoseconds(CLOCK_REALTIME) - UINT64_C(1735689600000000000); // from 2025 on
    char text[128];
    int len = snprintf(text, sizeof text, "event %" PRIu64 " of host %u %.*s", number, (unsigned)(host.stream >> 32),
        (int)(number * 7 % sizeof dots), dots);
    r->moment = now > r->moment ? now : r->moment;
    NOTE("wrote %u %" PRIu64 " %" PRIu64 " %s\n", cpu, number, r->moment, text);
    if (events == 1) {
        must(tracering_write(&r->writer, r->moment, text, (size_t)len), "write");
        return;
    }
    must(tracering_begin(&r->writer, r->moment, (size_t)len), "begin");
    must(tracering_finish(&r->writer), "finish"); // it has its number and its place
    record(cpu, events - 1);
    must(tracering_put(&r->writer, text, (size_t)len), "put");
    must(tracering_end(&r->writer), "end");
    must(tracering_finish(&r->writer), "finish");
}

// Writes this many events of each CPU a second, or as many as it can, and waits for nobody. (If it has no processor for
// a while, it writes then what was due.)
static inline void *write_events(void *given)
{
    double begun = seconds_now(), passed = 0;
    for (uint64_t count = 0; !is_stopped && passed < host.seconds;) {
        passed = seconds_now() - begun;
        double until = passed < host.seconds ? passed : host.seconds;
        uint64_t due = host.rate ? (uint64_t)(until * (double)host.rate) : count + 16;
        for (; count < due; count++)
            for (uint32_t cpu = 0; cpu < host.cpus; cpu++)
                record(cpu, count % 16 == 0 ? 3 : 1);
        if (host.rate)
            wait_milliseconds(1);
    }
    host.writing = (double)nanoseconds(CLOCK_THREAD_CPUTIME_ID) / 1e9;
    host.is_written = true;
    is_stopped = 1;
    return given;
}

// Takes a page of a ring: a closed one, or, once all is written, the last one too. An old page is wished for.
static inline bool take_page(uint32_t cpu, struct piece *piece)
{
    struct ring *r = &host.rings[cpu];
    struct tracering_taken taken = {.len = 0};
    int32_t code = tracering_take(&r->reader, host.parcel, sizeof host.parcel, &taken);
    if (code == TRACERING_EMPTY && host.is_joined) {
        code = tracering_settle(&r->writer, &r->reader, host.parcel, sizeof host.parcel, &taken);
        r->is_settled = code == TRACERING_DONE;
    } else if (code == TRACERING_EMPTY && seconds_now() > r->asked + 0.2) {
        code = tracering_wish(&r->reader);
        r->asked = seconds_now();
    }
    if (code != TRACERING_EMPTY && code != TRACERING_MOVING)
        must(code, "take");
    if (!taken.len)
        return false;
    r->asked = seconds_now();
    NOTE("took %u %" PRIu64 " %" PRIu64 " %" PRIu64 " %" PRIu64 "\n", cpu, taken.fill, taken.first, taken.count,
        taken.missed);
    count(MISSING, taken.missed);
    must(tracering_pack(host.stream, host.parcel, taken.len, piece->bytes, sizeof piece->bytes, &piece->len), "pack");
    return true;
}

// The next piece that is to be sent: a page, or the mark of a CPU's end. None, if nothing can be taken now.
static inline bool next_of_host(struct piece *piece)
{
    if (!host.is_joined && host.is_written)
        host.is_joined = !pthread_join(host.thread, NULL);
    for (uint32_t tried = 0; tried < host.cpus; tried++) {
        uint32_t cpu = piece->cpu = host.turn++ % host.cpus;
        struct ring *r = &host.rings[cpu];
        piece->stream = host.stream;
        if (!r->is_settled && take_page(cpu, piece))
            return true;
        if (r->is_settled && !r->is_ended) {
            NOTE("end %u %" PRIu64 "\n", cpu, r->written);
            pack_end(piece, host.stream, cpu, r->written);
            r->is_ended = true;
            host.ended++;
            return true;
        }
    }
    return false;
}

static inline void note_acknowledged(const void *bytes)
{
    uint64_t cpu = number_at(bytes, CPU_AT), fill = number_at(bytes, FILL_AT);
    if (kind_of(bytes))
        NOTE("sent %" PRIu64 " end\n", cpu);
    else
        NOTE("sent %" PRIu64 " %" PRIu64 "\n", cpu, fill);
}

static inline bool is_host_done(void)
{
    return host.ended == host.cpus;
}

static inline void end_host(void)
{
    printf("writing %.3f\n", host.writing);
}

static inline struct source host_source(void)
{
    const char *ledger = text_of("ledger");
    // (A host that starts again begins at record 0 again, so its stream has another id.)
    host.stream = own_stream();
    host.cpus = (uint32_t)number_of("cpus");
    host.rate = number_of("rate");
    host.seconds = (double)number_of("seconds");
    if (ledger && (!(host.ledger = fopen(ledger, "w")) || setvbuf(host.ledger, NULL, _IOLBF, 1 << 16)))
        die(ledger, strerror(errno));
    NOTE("stream %016" PRIx64 "\n", host.stream);
    for (uint32_t cpu = 0; cpu < host.cpus; cpu++) {
        struct ring *r = &host.rings[cpu];
        must(tracering_new(&r->writer, &r->reader, cpu, number_of("pages"), number_of("size")), "new");
    }
    if (pthread_create(&host.thread, NULL, write_events, NULL))
        die("pthread_create", "it fails");
    return (struct source){next_of_host, note_acknowledged, is_host_done, end_host};
}
#endif
