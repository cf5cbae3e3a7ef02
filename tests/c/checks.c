// Checks of the library for C: which misuse is refused; what a peek gives; a signal's handler that calls one end of a
// ring within calls on the other end; and a writer's thread, a reader's thread, and a handler that writes between the
// writer's calls, in the middle of them, and nested in records. The reader looks at each page's numbers and at each
// payload. The pages that are taken are added to a collector, which has to miss what the reader missed, and to list the
// others by moments that don't fall and numbers that rise. Prints the same whatever the schedule, and ends with 0 if
// all is well. `checks RECORDS` says how many records the writer makes.
#define _DEFAULT_SOURCE
#include "tracering.h"

#include <pthread.h>
#include <sched.h>
#include <signal.h>
#include <stdatomic.h>
#include <stdio.h>
#include <stdlib.h>
#include <string.h>
#include <sys/time.h>

enum { PAGES = 64, SIZE = 4080, LONGEST = 200 };

static struct tracering_writer writer;
static _Atomic uint64_t moment;
static _Atomic uint64_t from_handler, amid_calls;
static atomic_int done, faults;

// A payload says of itself which one it is: its length, and then that counted on.
static void fill(uint8_t *payload, size_t len)
{
    for (size_t i = 0; i < len; i++)
        payload[i] = (uint8_t)(len + i);
}

static int32_t write_filled(size_t len)
{
    uint8_t payload[LONGEST];
    fill(payload, len);
    return tracering_write(&writer, ++moment, payload, len);
}

// The handler writes one record, or two of which the second is nested, and leaves no frame on the stack. Within a call
// of the writer on its handle it is refused.
static int32_t write_nested(size_t len)
{
    uint8_t payload[LONGEST];
    fill(payload, len);
    int32_t depth = tracering_depth(&writer);
    int32_t code = tracering_begin(&writer, ++moment, len);
    if (code != TRACERING_DONE)
        return code;
    code = tracering_finish(&writer);
    if (code != TRACERING_RESERVED) {
        if (tracering_depth(&writer) > depth)
            (void)tracering_finish(&writer);
        return code;
    }
    faults += tracering_put(&writer, payload, len) != TRACERING_DONE;
    if (write_filled(7) == TRACERING_DONE)
        from_handler++;
    faults += tracering_end(&writer) != TRACERING_DONE;
    if (depth == 0)
        faults += tracering_finish(&writer) != TRACERING_DONE;
    return TRACERING_DONE;
}

static void on_signal(int signal)
{
    static unsigned count;
    int32_t code = signal == SIGUSR1 || ++count % 2 ? write_filled(12) : write_nested(40);
    if (code == TRACERING_DONE)
        from_handler++;
    else if (code == TRACERING_BUSY)
        amid_calls++;
    else if (code != TRACERING_TOO_DEEP && code != TRACERING_CROWDED)
        faults++;
}

// The record is written by its parts, so that the handler's are nested in it.
static int32_t write_by_parts(const uint8_t *payload, size_t len)
{
    int32_t code = tracering_begin(&writer, ++moment, len);
    if (code != TRACERING_DONE)
        return code;
    code = tracering_finish(&writer);
    if (code != TRACERING_RESERVED)
        return code;
    code = tracering_put(&writer, payload, len);
    if (code == TRACERING_DONE)
        raise(SIGUSR1);
    code = tracering_end(&writer);
    if (code != TRACERING_DONE)
        return code;
    return tracering_depth(&writer) ? tracering_finish(&writer) : TRACERING_DONE;
}

static uint64_t write_records(uint64_t count)
{
    uint8_t payload[LONGEST];
    uint64_t written = 0;
    for (uint64_t i = 0; i < count; i++) {
        size_t len = 1 + i % LONGEST;
        fill(payload, len);
        int32_t code = i % 8 ? tracering_write(&writer, ++moment, payload, len) : write_by_parts(payload, len);
        written += code == TRACERING_DONE;
    }
    return written;
}

struct seen {
    struct tracering_reader reader;
    struct tracering_collector collector;
    uint64_t pages, records, missed, next, faults;
};

static uint64_t number_at(const uint8_t *at, int bytes)
{
    uint64_t number = 0;
    for (int i = bytes; i-- > 0;)
        number = number << 8 | at[i];
    return number;
}

// How many bytes a parcel uses: those before its page's data, the data, and the count of missed records, if it has one.
static size_t used_len(const uint8_t *parcel)
{
    uint64_t commit = number_at(parcel + 40, 8);
    return TRACERING_HEADER + (commit & 0x3FFFFFFF) + (commit >> 30 & 1 ? 8 : 0);
}

// Looks at a parcel: its numbers, its image's header, how many records it has, and their payloads.
static void look_at(struct seen *seen, const uint8_t *parcel, const struct tracering_taken *taken)
{
    seen->faults += number_at(parcel, 8) != 3 || number_at(parcel + 8, 8) != taken->fill
        || number_at(parcel + 16, 8) != taken->first || number_at(parcel + 24, 8) != taken->missed
        || taken->len != used_len(parcel);
    uint64_t commit = number_at(parcel + 40, 8), len = commit & 0x3fffffff, count = 0;
    seen->faults += len > SIZE || (commit >> 31 & 1) != (taken->missed > 0);
    const uint8_t *data = parcel + TRACERING_HEADER;
    for (uint64_t at = 0; at < len; count++) {
        uint64_t type = number_at(data + at, 4) & 31;
        uint64_t slot = type ? 4 * type : number_at(data + at + 4, 4) - 4, before = type ? 4 : 8;
        const uint8_t *payload = data + at + before;
        // The slot is the payload's length, rounded up: its first byte is the length.
        uint64_t own = payload[0];
        seen->faults += type > 28 || own > slot || slot - own > 3;
        for (uint64_t i = 0; i < slot && own <= slot; i++)
            seen->faults += payload[i] != (i < own ? (uint8_t)(own + i) : 0);
        at += before + slot;
    }
    seen->faults += count != taken->count;
}

// Counts a page that was taken.
static void count_page(struct seen *seen, const struct tracering_taken *taken)
{
    seen->faults += taken->first != seen->next + taken->missed;
    seen->next = taken->first + taken->count;
    seen->pages++;
    seen->records += taken->count;
    seen->missed += taken->missed;
}

// Takes a page into this parcel, if there is one, and looks at it.
static int32_t take_page(struct seen *seen, uint8_t parcel[TRACERING_HEADER + SIZE], struct tracering_taken *taken)
{
    int32_t code = tracering_take(&seen->reader, parcel, TRACERING_HEADER + SIZE, taken);
    if (code != TRACERING_DONE)
        return code;
    count_page(seen, taken);
    look_at(seen, parcel, taken);
    return code;
}

// Adds the next page to the collector; every second one as the bytes of a parcel.
static int32_t collect_page(struct seen *seen)
{
    static uint8_t out[TRACERING_HEADER + SIZE];
    struct tracering_taken taken;
    struct tracering_fault_at at;
    if (seen->pages % 2) {
        int32_t code = tracering_collector_take(&seen->collector, &seen->reader, &taken, &at);
        if (code == TRACERING_DONE)
            count_page(seen, &taken);
        return code;
    }
    int32_t code = take_page(seen, out, &taken);
    if (code == TRACERING_DONE)
        seen->faults += tracering_collector_add(&seen->collector, out, taken.len, &at) != TRACERING_DONE;
    return code;
}

static void *read_pages(void *given)
{
    struct seen *seen = given;
    for (;;) {
        int last = atomic_load(&done);
        int32_t code = collect_page(seen);
        if (code == TRACERING_EMPTY && last)
            return NULL;
        if (code != TRACERING_DONE) {
            seen->faults += code != TRACERING_EMPTY && code != TRACERING_MOVING;
            // Wishes within the writer's calls, which close the page that is written sooner.
            seen->faults += tracering_wish(&seen->reader) != TRACERING_DONE;
            sched_yield();
        }
    }
}

// The reader of the ring both ends of which belong to one thread; how often the handler that calls one end interrupted
// a call on the other one; and how often it peeked.
static struct seen own;
static _Atomic uint64_t amid_writes, amid_takes, peeks;

// Takes all pages that are closed, and then peeks: what is peeked comes right after what was taken. Within a call of
// the writer the peek is refused.
static void on_alarm_take(int signal)
{
    (void)signal;
    static uint8_t out[TRACERING_HEADER + SIZE];
    struct tracering_taken taken;
    bool amid = writer.in_call != 0;
    amid_writes += amid;
    int32_t code;
    do
        code = take_page(&own, out, &taken);
    while (code == TRACERING_DONE);
    faults += code != TRACERING_EMPTY && !(amid && code == TRACERING_MOVING);
    code = tracering_peek(&writer, out, sizeof out, &taken);
    if (code == TRACERING_DONE) {
        peeks++;
        own.faults += amid || taken.first != own.next || taken.missed || taken.len != used_len(out);
        look_at(&own, out, &taken);
    } else {
        faults += amid ? code != TRACERING_BUSY : code != TRACERING_EMPTY && code != TRACERING_NOT_AT_REST;
    }
}

static void on_alarm_write(int signal)
{
    amid_takes += own.reader.in_call != 0;
    on_signal(signal);
}

// An alarm comes 50 microseconds after the handler of the last one is done: so the thread goes on, however slowly.
static const struct itimerval soon = {.it_value = {.tv_usec = 50}}, never;
static void (*volatile on_alarm)(int);

static void on_each_alarm(int signal)
{
    if (!on_alarm)
        return;
    on_alarm(signal);
    faults += setitimer(ITIMER_REAL, &soon, NULL) != 0;
}

static int alarms(void (*handler)(int))
{
    struct sigaction action = {.sa_handler = on_each_alarm};
    on_alarm = handler;
    return sigaction(SIGALRM, &action, NULL) || setitimer(ITIMER_REAL, handler ? &soon : &never, NULL);
}

// How many records of handlers the writer's handle says that it refused within its calls.
static uint64_t refused_amid(void)
{
    struct tracering_refused counts;
    return tracering_refused(&writer, &counts) == TRACERING_DONE ? counts.busy : UINT64_MAX;
}

// The thread writes while the handler takes and peeks, and then takes while the handler writes. Each record is on a
// page that is taken, or counted as missed before one.
static int crossed(uint64_t count)
{
    static uint8_t out[TRACERING_HEADER + SIZE];
    struct tracering_taken taken;
    int bad = tracering_new(&writer, &own.reader, 3, PAGES, SIZE) != TRACERING_DONE;
    bad += alarms(on_alarm_take);
    uint64_t written = write_records(count);
    bad += alarms(on_alarm_write);
    for (uint64_t i = 0; i < count; i++)
        (void)take_page(&own, out, &taken);
    // An alarm that is still to come does nothing.
    bad += alarms(NULL);
    bad += tracering_begin_close(&writer) != TRACERING_DONE || tracering_finish(&writer) > TRACERING_DONE;
    while (take_page(&own, out, &taken) == TRACERING_DONE)
        ;
    bad += written != count || own.faults || own.records + own.missed != written + from_handler;
    bad += count >= 200000 && (!amid_writes || !amid_takes || !peeks);
    bad += refused_amid() != amid_calls;
    uint64_t lost = UINT64_MAX;
    bad += tracering_writer_free(&writer, &lost) != TRACERING_DONE || lost;
    bad += tracering_reader_free(&own.reader) != TRACERING_DONE;
    from_handler = amid_calls = 0;
    return bad;
}

// Whether this is what the handle has counted.
static bool is_counted(const struct tracering_writer *w, struct tracering_refused wanted)
{
    struct tracering_refused counts;
    return tracering_refused(w, &counts) == TRACERING_DONE && !memcmp(&counts, &wanted, sizeof counts);
}

static bool is_zeros(const struct tracering_writer *w)
{
    return !w->held.at && !w->held.live && !w->in_call && !w->closes && is_counted(w, (struct tracering_refused){0});
}

static bool has_only_zeros(const void *handle, size_t len)
{
    const uint8_t *bytes = handle;
    for (size_t k = 0; k < len; k++)
        if (bytes[k])
            return false;
    return true;
}

// Within a call on their handle all calls are refused, and two handles are marked together or not at all.
static int amid(void)
{
    struct tracering_writer busy = {.in_call = 1}, w = {0};
    struct tracering_reader busy_reader = {.in_call = 1}, r = {0};
    struct tracering_taken taken;
    uint8_t byte[TRACERING_HEADER] = {0};
    int bad = 0;
    bad += tracering_new(&busy, &r, 0, 2, 64) != TRACERING_BUSY || r.in_call;
    bad += tracering_new(&w, &busy_reader, 0, 2, 64) != TRACERING_BUSY || w.in_call;
    bad += tracering_write(&busy, 1, byte, 1) != TRACERING_BUSY;
    bad += tracering_begin(&busy, 1, 1) != TRACERING_BUSY;
    bad += tracering_begin_close(&busy) != TRACERING_BUSY;
    bad += tracering_finish(&busy) != TRACERING_BUSY;
    bad += tracering_put(&busy, byte, 1) != TRACERING_BUSY;
    bad += tracering_end(&busy) != TRACERING_BUSY;
    bad += tracering_peek(&busy, byte, sizeof byte, &taken) != TRACERING_BUSY;
    bad += tracering_take(&busy_reader, byte, sizeof byte, &taken) != TRACERING_BUSY;
    bad += tracering_wish(&busy_reader) != TRACERING_BUSY;
    bad += tracering_depth(&busy) != TRACERING_BUSY;
    bad += tracering_settle(&busy, &r, byte, sizeof byte, &taken) != TRACERING_BUSY || r.in_call;
    bad += tracering_settle(&w, &busy_reader, byte, sizeof byte, &taken) != TRACERING_BUSY || w.in_call;
    bad += tracering_writer_free(&busy, NULL) != TRACERING_BUSY;
    bad += tracering_reader_free(&busy_reader) != TRACERING_BUSY;
    // Of the calls on a writer only write and begin are counted, and the counts are there within a call.
    bad += !is_counted(&busy, (struct tracering_refused){.busy = 2}) || !is_counted(&w, (struct tracering_refused){0});
    return bad + (!busy.in_call || !busy_reader.in_call);
}

// A null pointer is refused.
static int nulls(void)
{
    struct tracering_writer w = {0};
    struct tracering_reader r = {0};
    struct tracering_taken taken;
    struct tracering_refused refused;
    uint8_t byte[TRACERING_HEADER] = {0};
    int bad = 0;
    bad += tracering_new(NULL, &r, 0, 2, 64) != TRACERING_NULL;
    bad += tracering_new(&w, NULL, 0, 2, 64) != TRACERING_NULL;
    bad += tracering_write(NULL, 1, byte, 1) != TRACERING_NULL;
    bad += tracering_write(&w, 1, NULL, 1) != TRACERING_NULL;
    bad += tracering_begin(NULL, 1, 1) != TRACERING_NULL;
    bad += tracering_begin_close(NULL) != TRACERING_NULL;
    bad += tracering_finish(NULL) != TRACERING_NULL;
    bad += tracering_put(NULL, byte, 1) != TRACERING_NULL;
    bad += tracering_put(&w, NULL, 1) != TRACERING_NULL;
    bad += tracering_end(NULL) != TRACERING_NULL;
    bad += tracering_depth(NULL) != TRACERING_NULL;
    bad += tracering_refused(NULL, &refused) != TRACERING_NULL;
    bad += tracering_refused(&w, NULL) != TRACERING_NULL;
    bad += tracering_peek(NULL, byte, sizeof byte, &taken) != TRACERING_NULL;
    bad += tracering_peek(&w, NULL, sizeof byte, &taken) != TRACERING_NULL;
    bad += tracering_peek(&w, byte, sizeof byte, NULL) != TRACERING_NULL;
    bad += tracering_take(NULL, byte, sizeof byte, &taken) != TRACERING_NULL;
    bad += tracering_take(&r, NULL, sizeof byte, &taken) != TRACERING_NULL;
    bad += tracering_take(&r, byte, sizeof byte, NULL) != TRACERING_NULL;
    bad += tracering_wish(NULL) != TRACERING_NULL;
    bad += tracering_settle(NULL, &r, byte, sizeof byte, &taken) != TRACERING_NULL;
    bad += tracering_settle(&w, NULL, byte, sizeof byte, &taken) != TRACERING_NULL;
    bad += tracering_settle(&w, &r, NULL, sizeof byte, &taken) != TRACERING_NULL;
    bad += tracering_settle(&w, &r, byte, sizeof byte, NULL) != TRACERING_NULL;
    bad += tracering_writer_free(NULL, NULL) != TRACERING_NULL;
    bad += tracering_reader_free(NULL) != TRACERING_NULL;
    return bad + !is_counted(&w, (struct tracering_refused){0});
}

// Four frames fit the stack, and two open pages a ring of two.
static int refused_frames(void)
{
    struct tracering_writer w = {0};
    struct tracering_reader r = {0};
    int bad = tracering_new(&w, &r, 0, 2, 64) != TRACERING_DONE;
    for (uint64_t moment = 1; moment <= 3; moment++)
        bad += tracering_begin(&w, moment, 4) != TRACERING_DONE;
    bad += tracering_begin_close(&w) != TRACERING_DONE;
    bad += tracering_begin(&w, 5, 4) != TRACERING_TOO_DEEP;
    bad += tracering_begin_close(&w) != TRACERING_TOO_DEEP;
    bad += tracering_write(&w, 5, "deep", 4) != TRACERING_TOO_DEEP;
    bad += tracering_depth(&w) != 4;
    w.in_call = 1;
    bad += tracering_depth(&w) != TRACERING_BUSY;
    w.in_call = 0;
    // A close that is refused loses no record.
    bad += !is_counted(&w, (struct tracering_refused){.too_deep = 2});
    bad += tracering_writer_free(&w, NULL) != TRACERING_DONE || tracering_reader_free(&r) != TRACERING_DONE;
    bad += !is_zeros(&w);

    bad += tracering_new(&w, &r, 0, 2, 64) != TRACERING_DONE;
    for (uint64_t moment = 1; moment <= 2; moment++)
        bad += tracering_begin(&w, moment, 60) != TRACERING_DONE || tracering_finish(&w) != TRACERING_RESERVED;
    bad += tracering_write(&w, 3, "third", 5) != TRACERING_CROWDED || tracering_depth(&w) != 2;
    bad += tracering_begin(&w, 3, 60) != TRACERING_DONE || tracering_finish(&w) != TRACERING_CROWDED;
    bad += tracering_depth(&w) != 2 || !is_counted(&w, (struct tracering_refused){.crowded = 2});
    // Nor does it if it was begun, whether it is on top at once or after a record above it, which is lost; and where it
    // was, a record may be.
    bad += tracering_begin_close(&w) != TRACERING_DONE || tracering_finish(&w) != TRACERING_CROWDED;
    bad += tracering_depth(&w) != 2 || !is_counted(&w, (struct tracering_refused){.crowded = 2});
    bad += tracering_begin_close(&w) != TRACERING_DONE || tracering_begin(&w, 3, 60) != TRACERING_DONE;
    bad += tracering_finish(&w) != TRACERING_CROWDED || tracering_depth(&w) != 3;
    bad += tracering_finish(&w) != TRACERING_CROWDED || tracering_depth(&w) != 2;
    bad += !is_counted(&w, (struct tracering_refused){.crowded = 3});
    bad += tracering_begin(&w, 3, 60) != TRACERING_DONE || tracering_finish(&w) != TRACERING_CROWDED;
    bad += tracering_write(&w, 3, "long", 61) != TRACERING_TOO_LONG;
    bad += tracering_begin(&w, 1ull << 59, 4) != TRACERING_LATE_MOMENT;
    bad += !is_counted(&w, (struct tracering_refused){.too_long = 1, .late_moment = 1, .crowded = 4});
    bad += tracering_writer_free(&w, NULL) != TRACERING_DONE || tracering_reader_free(&r) != TRACERING_DONE;
    return bad + !is_zeros(&w);
}

// Misuse that a call can see is refused.
static int refusals(void)
{
    enum { ROOM = TRACERING_HEADER + 64 };
    struct tracering_writer none = {0}, made = {0};
    struct tracering_reader reader = {0}, no_reader = {0};
    struct tracering_taken taken, unset;
    uint8_t byte[ROOM] = {0};
    int bad = 0;
    memset(&unset, 7, sizeof unset);
    bad += tracering_write(&none, 1, byte, 1) != TRACERING_ABSENT;
    bad += tracering_begin(&none, 1, 1) != TRACERING_ABSENT;
    bad += tracering_begin_close(&none) != TRACERING_ABSENT;
    bad += tracering_finish(&none) != TRACERING_ABSENT;
    bad += tracering_put(&none, byte, 1) != TRACERING_ABSENT;
    bad += tracering_end(&none) != TRACERING_ABSENT;
    bad += tracering_depth(&none) != TRACERING_ABSENT;
    bad += tracering_peek(&none, byte, ROOM, &taken) != TRACERING_ABSENT;
    bad += tracering_take(&reader, byte, ROOM, &taken) != TRACERING_ABSENT;
    bad += tracering_wish(&reader) != TRACERING_ABSENT;
    bad += tracering_settle(&none, &reader, byte, ROOM, &taken) != TRACERING_ABSENT;
    bad += tracering_writer_free(&none, NULL) != TRACERING_ABSENT;
    bad += tracering_reader_free(&reader) != TRACERING_ABSENT || !is_zeros(&none);
    bad += tracering_new(&made, &reader, 256, 2, 64) != TRACERING_BAD_CPU;
    bad += tracering_new(&made, &reader, 0, 1, 64) != TRACERING_BAD_SIZE;
    bad += tracering_new(&made, &reader, 0, 1025, 64) != TRACERING_BAD_SIZE;
    bad += tracering_new(&made, &reader, 0, 2, 28) != TRACERING_BAD_SIZE;
    bad += tracering_new(&made, &reader, 0, 2, 66) != TRACERING_BAD_SIZE;
    bad += tracering_new(&made, &reader, 0, 2, 65524) != TRACERING_BAD_SIZE;
    bad += !is_zeros(&made) || reader.held.at || reader.held.live || reader.in_call;
    bad += tracering_new(&made, &reader, 255, 2, 64) != TRACERING_DONE;
    bad += tracering_new(&made, &reader, 0, 2, 64) != TRACERING_IN_USE;
    bad += tracering_new(&none, &reader, 0, 2, 64) != TRACERING_IN_USE;
    bad += tracering_finish(&made) != TRACERING_NO_FRAME;
    bad += tracering_end(&made) != TRACERING_NO_FRAME;
    bad += tracering_put(&made, NULL, 0) != TRACERING_NO_FRAME;
    bad += tracering_write(&made, 1, byte, 61) != TRACERING_TOO_LONG;
    bad += tracering_write(&made, 1ull << 59, byte, 1) != TRACERING_LATE_MOMENT;
    bad += tracering_write(&made, 1, NULL, 0) != TRACERING_DONE;
    bad += tracering_begin(&made, 1, 3) != TRACERING_DONE;
    bad += tracering_put(&made, byte, 3) != TRACERING_NOT_RESERVED;
    bad += tracering_end(&made) != TRACERING_NOT_RESERVED;
    bad += tracering_depth(&made) != 1;
    bad += tracering_settle(&made, &reader, byte, ROOM, &taken) != TRACERING_NOT_AT_REST;
    bad += tracering_finish(&made) != TRACERING_RESERVED;
    bad += tracering_put(&made, byte, 5) != TRACERING_TOO_LONG;
    bad += tracering_put(&made, "abc", 3) != TRACERING_DONE;
    bad += tracering_end(&made) != TRACERING_DONE;
    bad += tracering_finish(&made) != TRACERING_DONE;
    bad += tracering_depth(&made) != 0;
    bad += !is_counted(&made, (struct tracering_refused){.too_long = 1, .late_moment = 1});
    memset(&taken, 7, sizeof taken);
    bad += tracering_take(&reader, byte, ROOM - 1, &taken) != TRACERING_NO_ROOM || taken.len != unset.len;
    bad += taken.count != unset.count || taken.fill != unset.fill;
    bad += tracering_settle(&made, &reader, byte, ROOM, &taken) != TRACERING_UNREAD;
    bad += tracering_take(&reader, byte, ROOM, &taken) != TRACERING_EMPTY;
    bad += tracering_wish(&reader) != TRACERING_DONE;
    bad += tracering_begin_close(&made) != TRACERING_DONE;
    bad += tracering_finish(&made) != TRACERING_DONE;
    bad += tracering_take(&reader, byte, ROOM, &taken) != TRACERING_DONE;
    bad += taken.count != 2 || taken.first != 0 || taken.missed != 0 || taken.len != used_len(byte) || taken.fill != 0;
    bad += memcmp(byte + 60, "abc", 4) != 0;
    bad += tracering_write(&made, 5, "last", 4) != TRACERING_DONE;
    bad += tracering_take(&reader, byte, ROOM, &taken) != TRACERING_EMPTY;
    memset(&taken, 7, sizeof taken);
    bad += tracering_settle(&made, &reader, byte, ROOM - 1, &taken) != TRACERING_NO_ROOM || taken.len != unset.len;
    bad += taken.count != unset.count || taken.fill != unset.fill;
    bad += tracering_settle(&made, &no_reader, byte, ROOM, &taken) != TRACERING_ABSENT;
    bad += tracering_settle(&made, &reader, byte, ROOM, &taken) != TRACERING_DONE;
    bad += taken.count != 1 || taken.first != 2 || taken.missed != 0 || taken.len != used_len(byte) || taken.fill != 1;
    bad += memcmp(byte + 52, "last", 4) != 0 || !is_zeros(&made);
    bad += !has_only_zeros(&made, sizeof made) || !has_only_zeros(&reader, sizeof reader);
    bad += tracering_write(&made, 9, byte, 1) != TRACERING_ABSENT;
    bad += tracering_writer_free(&made, NULL) != TRACERING_ABSENT;
    bad += tracering_reader_free(&reader) != TRACERING_ABSENT;
    bad += tracering_new(&made, &reader, 0, 2, 64) != TRACERING_DONE;
    bad += tracering_write(&made, 1, byte, 61) != TRACERING_TOO_LONG;
    bad += tracering_writer_free(&made, NULL) != TRACERING_DONE || !is_zeros(&made);
    bad += tracering_wish(&reader) != TRACERING_DONE;
    bad += tracering_reader_free(&reader) != TRACERING_DONE;
    return bad;
}

// Whether a page that is peeked is the one of this fill, with `count` records from number `first` on, each of which has
// its own number as its moment and its first byte.
static bool is_peeked(struct tracering_writer *w, uint64_t fill, uint64_t first, uint64_t count)
{
    enum { ROOM = TRACERING_HEADER + 64 };
    uint8_t out[ROOM + 1];
    struct tracering_taken taken = {0};
    out[ROOM] = 77;
    bool is = tracering_peek(w, out, ROOM, &taken) == TRACERING_DONE && out[ROOM] == 77 && taken.fill == fill
        && taken.first == first && taken.missed == 0 && taken.count == count
        && taken.len == TRACERING_HEADER + 8 * count
        && number_at(out, 8) == 5 && number_at(out + 8, 8) == fill && number_at(out + 16, 8) == first
        && number_at(out + 24, 8) == 0 && number_at(out + 32, 8) == first && number_at(out + 40, 8) == 8 * count;
    for (uint64_t k = 0; k < count && is; k++)
        is = out[TRACERING_HEADER + 8 * k + 4] == (uint8_t)(first + k);
    return is;
}

static int32_t write_number(struct tracering_writer *w, uint64_t number)
{
    uint8_t byte = (uint8_t)number;
    return tracering_write(w, number, &byte, 1);
}

// What a peek answers: each refusal, which leaves the buffer as it was; and between writes the newest records, which a
// take gives again once their page is closed, and a settle if it isn't.
static int peeked(void)
{
    enum { ROOM = TRACERING_HEADER + 64 };
    struct tracering_writer w = {0};
    struct tracering_reader r = {0};
    struct tracering_taken taken = {7, 7, 7, 7, 7}, later;
    uint8_t out[ROOM], kept[ROOM], given[ROOM];
    int bad = tracering_new(&w, &r, 5, 2, 64) != TRACERING_DONE;
    memset(out, 7, ROOM);
    memset(kept, 7, ROOM);
    bad += tracering_peek(&w, out, ROOM, &taken) != TRACERING_EMPTY;
    bad += tracering_peek(&w, out, ROOM - 1, &taken) != TRACERING_NO_ROOM;
    bad += tracering_begin(&w, 0, 1) != TRACERING_DONE;
    bad += tracering_peek(&w, out, ROOM, &taken) != TRACERING_NOT_AT_REST;
    bad += tracering_finish(&w) != TRACERING_RESERVED || tracering_end(&w) != TRACERING_DONE;
    bad += tracering_peek(&w, out, ROOM - 1, &taken) != TRACERING_NOT_AT_REST;
    bad += tracering_finish(&w) != TRACERING_DONE;
    bad += tracering_peek(&w, out, ROOM - 1, &taken) != TRACERING_NO_ROOM;
    bad += memcmp(out, kept, ROOM) != 0 || taken.fill != 7 || taken.first != 7 || taken.missed != 7;
    bad += taken.count != 7 || taken.len != 7 || w.in_call;
    // Eight such records fill a page. The ring of two keeps the page that is written and the one before it.
    for (uint64_t number = 1; number < 30; number++) {
        bad += !is_peeked(&w, (number - 1) / 8, (number - 1) / 8 * 8, (number - 1) % 8 + 1);
        bad += write_number(&w, number) != TRACERING_DONE;
    }
    bad += tracering_take(&r, out, ROOM, &taken) != TRACERING_DONE || taken.fill != 2 || taken.missed != 16;
    bad += tracering_take(&r, out, ROOM, &taken) != TRACERING_EMPTY;
    bad += tracering_peek(&w, kept, ROOM, &taken) != TRACERING_DONE || taken.first != 24 || taken.count != 6;
    bad += tracering_begin_close(&w) != TRACERING_DONE || tracering_finish(&w) != TRACERING_DONE;
    bad += tracering_peek(&w, out, ROOM, &later) != TRACERING_EMPTY;
    bad += tracering_take(&r, given, ROOM, &later) != TRACERING_DONE || memcmp(given, kept, ROOM) != 0;
    bad += memcmp(&taken, &later, sizeof taken) != 0;
    bad += write_number(&w, 30) != TRACERING_DONE || !is_peeked(&w, 4, 30, 1);
    bad += tracering_peek(&w, kept, ROOM, &taken) != TRACERING_DONE;
    bad += tracering_take(&r, out, ROOM, &later) != TRACERING_EMPTY;
    bad += tracering_settle(&w, &r, given, ROOM, &later) != TRACERING_DONE || memcmp(given, kept, ROOM) != 0;
    bad += memcmp(&taken, &later, sizeof taken) != 0;
    bad += tracering_peek(&w, out, ROOM, &taken) != TRACERING_ABSENT;
    return bad;
}

// What a close answers: whether it closed the page, which it does if that has a record, of whatever frame.
static int closed(void)
{
    enum { ROOM = TRACERING_HEADER + 64 };
    struct tracering_writer w = {0};
    struct tracering_reader r = {0};
    struct tracering_taken taken;
    uint8_t out[ROOM];
    int bad = tracering_new(&w, &r, 5, 8, 64) != TRACERING_DONE;
    bad += tracering_begin_close(&w) != TRACERING_DONE || tracering_finish(&w) != TRACERING_NOTHING_CLOSED;
    bad += tracering_depth(&w) != 0 || tracering_take(&r, out, ROOM, &taken) != TRACERING_EMPTY;
    bad += write_number(&w, 0) != TRACERING_DONE;
    bad += tracering_begin_close(&w) != TRACERING_DONE || tracering_finish(&w) != TRACERING_DONE;
    bad += tracering_take(&r, out, ROOM, &taken) != TRACERING_DONE || taken.fill != 0 || taken.count != 1;
    bad += tracering_begin_close(&w) != TRACERING_DONE || tracering_finish(&w) != TRACERING_NOTHING_CLOSED;
    // Nested in a record: the page that has it is left, and the next one has none.
    bad += tracering_begin(&w, 1, 1) != TRACERING_DONE || tracering_finish(&w) != TRACERING_RESERVED;
    bad += tracering_begin_close(&w) != TRACERING_DONE || tracering_finish(&w) != TRACERING_DONE;
    bad += tracering_begin_close(&w) != TRACERING_DONE || tracering_finish(&w) != TRACERING_NOTHING_CLOSED;
    bad += tracering_depth(&w) != 1 || tracering_take(&r, out, ROOM, &taken) != TRACERING_EMPTY;
    bad += tracering_end(&w) != TRACERING_DONE || tracering_finish(&w) != TRACERING_DONE;
    bad += tracering_take(&r, out, ROOM, &taken) != TRACERING_DONE || taken.fill != 1 || taken.count != 1;
    // A record above a close is on the page that it closes, and of two closes one has nothing to close.
    bad += tracering_begin_close(&w) != TRACERING_DONE || tracering_begin_close(&w) != TRACERING_DONE;
    bad += write_number(&w, 2) != TRACERING_DONE || tracering_finish(&w) != TRACERING_DONE;
    bad += tracering_finish(&w) != TRACERING_NOTHING_CLOSED || tracering_finish(&w) != TRACERING_NO_FRAME;
    bad += tracering_take(&r, out, ROOM, &taken) != TRACERING_DONE || taken.fill != 2 || taken.count != 1;
    bad += !is_counted(&w, (struct tracering_refused){0});
    return bad + (tracering_writer_free(&w, NULL) != TRACERING_DONE || tracering_reader_free(&r) != TRACERING_DONE);
}

// Eleven records, of which eight fill a page; `frames` frames, each with a record on a page of its own; and one record
// more, if there may be a frame for it. Then the writer is freed, and the reader takes the pages that are closed.
static int freed_above(int frames)
{
    enum { ROOM = TRACERING_HEADER + 64 };
    struct tracering_writer w = {0};
    struct tracering_reader r = {0};
    struct tracering_taken taken;
    uint8_t out[ROOM];
    uint64_t lost = 77, number = 0;
    int bad = tracering_new(&w, &r, 5, 16, 64) != TRACERING_DONE;
    while (number < 11)
        bad += write_number(&w, number++) != TRACERING_DONE;
    for (int k = 0; k < frames; k++)
        bad += tracering_begin(&w, number++, 60) != TRACERING_DONE || tracering_finish(&w) != TRACERING_RESERVED;
    bad += write_number(&w, number) != (frames < 4 ? TRACERING_DONE : TRACERING_TOO_DEEP);
    number += frames < 4;
    bad += tracering_writer_free(&w, &lost) != TRACERING_DONE || lost != (frames ? number - 8 : 0);
    bad += !has_only_zeros(&w, sizeof w);
    bad += tracering_take(&r, out, ROOM, &taken) != TRACERING_DONE || taken.first != 0 || taken.count != 8;
    if (!frames)
        bad += tracering_take(&r, out, ROOM, &taken) != TRACERING_DONE || taken.first != 8 || taken.count != 4;
    bad += tracering_take(&r, out, ROOM, &taken) != TRACERING_EMPTY;
    lost = 77;
    bad += tracering_writer_free(&w, &lost) != TRACERING_ABSENT || lost != 77;
    bad += tracering_reader_free(&r) != TRACERING_DONE || !has_only_zeros(&r, sizeof r);
    return bad;
}

// What is lost of a writer that is freed: nothing if no frame is begun, and else what is on no closed page. The close
// of the last page of a full ring overwrites the oldest one. A frame that is begun has no record, and one that is ended
// has its own.
static int freed(void)
{
    enum { ROOM = TRACERING_HEADER + 64 };
    struct tracering_writer w = {0};
    struct tracering_reader r = {0};
    struct tracering_taken taken;
    uint8_t out[ROOM];
    uint64_t lost = 77, number = 0;
    int bad = 0;
    for (int frames = 0; frames <= 4; frames++)
        bad += freed_above(frames);
    bad += tracering_new(&w, &r, 5, 2, 64) != TRACERING_DONE;
    while (number < 16)
        bad += write_number(&w, number++) != TRACERING_DONE;
    bad += tracering_writer_free(&w, &lost) != TRACERING_DONE || lost != 0;
    bad += tracering_take(&r, out, ROOM, &taken) != TRACERING_DONE || taken.first != 8 || taken.count != 8;
    bad += taken.missed != 8 || tracering_take(&r, out, ROOM, &taken) != TRACERING_EMPTY;
    bad += tracering_reader_free(&r) != TRACERING_DONE;
    for (int ended = 0; ended < 3; ended++) {
        bad += tracering_new(&w, &r, 5, 2, 64) != TRACERING_DONE || write_number(&w, 0) != TRACERING_DONE;
        bad += tracering_begin(&w, 1, 1) != TRACERING_DONE;
        bad += ended > 0 && tracering_finish(&w) != TRACERING_RESERVED;
        bad += ended > 1 && tracering_end(&w) != TRACERING_DONE;
        bad += tracering_writer_free(&w, &lost) != TRACERING_DONE || lost != (ended ? 2 : 1);
        bad += tracering_take(&r, out, ROOM, &taken) != TRACERING_EMPTY;
        bad += tracering_reader_free(&r) != TRACERING_DONE;
    }
    return bad + (!has_only_zeros(&w, sizeof w) || !has_only_zeros(&r, sizeof r));
}

// A parcel of CPU 3: `count` records of 4 bytes from number `first` on, the first at moment 10 and each of the later
// ones 10 after it, and `missed` missing before them.
static size_t make_parcel(uint8_t *out, uint64_t first, uint64_t missed, uint64_t count, const char *payload)
{
    uint64_t numbers[6] = {3, 0, first, missed, 10, 8 * count | (missed ? 1ull << 31 : 0)};
    for (size_t at = 0; at < TRACERING_HEADER; at++)
        out[at] = (uint8_t)(numbers[at / 8] >> at % 8 * 8);
    for (uint64_t k = 0; k < count; k++) {
        uint8_t *word = out + TRACERING_HEADER + 8 * k;
        uint32_t type_and_delta = 1 | (k ? 10u << 5 : 0);
        for (int at = 0; at < 4; at++) {
            word[at] = (uint8_t)(type_and_delta >> 8 * at);
            word[4 + at] = (uint8_t)payload[at];
        }
    }
    return TRACERING_HEADER + 8 * count;
}

static bool is_line(const struct tracering_line *line, uint64_t moment, uint64_t number, const uint8_t *bytes)
{
    return line->moment == moment && line->number == number && line->cpu == 3 && line->len == 4
        && (!bytes || memcmp(bytes, "abcd", 4) == 0);
}

// What collectors answer: each refusal, the runs that miss, and a listing line by line.
static int collected(void)
{
    enum { ROOM = TRACERING_HEADER + 64 };
    struct tracering_collector none = {0}, c = {0}, other = {0}, busy = {.in_call = 1};
    struct tracering_fault_at at = {7, 7};
    struct tracering_run runs[2] = {{7, 7}, {7, 7}};
    struct tracering_line line = {7, 7, 7, 7};
    uint8_t parcel[ROOM], bytes[8];
    size_t count = 7, len = make_parcel(parcel, 6, 2, 2, "abcd");
    int bad = 0;
    bad += tracering_collector_add(&none, parcel, len, &at) != TRACERING_ABSENT;
    bad += tracering_collector_missing(&none, 3, runs, 2, &count) != TRACERING_ABSENT;
    bad += tracering_collector_list(&none, &count) != TRACERING_ABSENT;
    bad += tracering_collector_next(&none, bytes, 8, &line) != TRACERING_ABSENT;
    bad += tracering_collector_same(&none, &other) != TRACERING_ABSENT;
    bad += tracering_collector_free(&none) != TRACERING_ABSENT;
    bad += tracering_collector_new(&busy) != TRACERING_BUSY;
    bad += tracering_collector_add(&busy, parcel, len, &at) != TRACERING_BUSY;
    bad += tracering_collector_missing(&busy, 3, runs, 2, &count) != TRACERING_BUSY;
    bad += tracering_collector_list(&busy, &count) != TRACERING_BUSY;
    bad += tracering_collector_next(&busy, bytes, 8, &line) != TRACERING_BUSY;
    bad += tracering_collector_same(&none, &busy) != TRACERING_BUSY || none.in_call;
    bad += tracering_collector_same(&busy, &none) != TRACERING_BUSY || none.in_call;
    bad += tracering_collector_free(&busy) != TRACERING_BUSY;
    bad += tracering_collector_new(NULL) != TRACERING_NULL;
    bad += tracering_collector_free(NULL) != TRACERING_NULL;
    bad += tracering_collector_new(&c) != TRACERING_DONE;
    bad += tracering_collector_new(&c) != TRACERING_IN_USE;
    bad += tracering_collector_new(&other) != TRACERING_DONE;
    bad += tracering_collector_same(&c, &none) != TRACERING_ABSENT;
    bad += tracering_collector_same(&c, &c) != TRACERING_BUSY;
    bad += tracering_collector_same(&c, NULL) != TRACERING_NULL;
    bad += tracering_collector_same(&c, &other) != TRACERING_DONE;
    bad += tracering_collector_add(&c, NULL, 1, &at) != TRACERING_NULL;
    bad += tracering_collector_add(&c, parcel, len, NULL) != TRACERING_NULL;
    bad += tracering_collector_missing(&c, 3, NULL, 1, &count) != TRACERING_NULL;
    bad += tracering_collector_missing(&c, 3, runs, 2, NULL) != TRACERING_NULL;
    bad += tracering_collector_list(&c, NULL) != TRACERING_NULL;
    bad += tracering_collector_next(&c, NULL, 1, &line) != TRACERING_NULL;
    bad += tracering_collector_next(&c, bytes, 8, NULL) != TRACERING_NULL;
    bad += count != 7 || at.number != 7 || at.cpu != 7 || line.len != 7 || runs[0].first != 7;
    bad += tracering_collector_next(&c, bytes, 8, &line) != TRACERING_END;
    bad += tracering_collector_list(&c, &count) != TRACERING_DONE || count != 0;
    bad += tracering_collector_missing(&c, 3, NULL, 0, &count) != TRACERING_DONE || count != 0;

    bad += tracering_collector_add(&c, NULL, 0, &at) != TRACERING_TOO_SHORT;
    bad += tracering_collector_add(&c, parcel, TRACERING_HEADER - 1, &at) != TRACERING_TOO_SHORT;
    bad += tracering_collector_add(&c, parcel, len - 1, &at) != TRACERING_BAD_IMAGE_SIZE;
    parcel[43] |= 64;
    bad += tracering_collector_add(&c, parcel, len, &at) != TRACERING_BAD_COUNT;
    make_parcel(parcel, 6, 2, 2, "abcd");
    parcel[40] = 15;
    bad += tracering_collector_add(&c, parcel, len, &at) != TRACERING_CUT || at.number != 8 || at.cpu != 7;
    make_parcel(parcel, 6, 2, 2, "abcd");
    parcel[48] = 0;
    memset(parcel + 52, 0, 4);
    bad += tracering_collector_add(&c, parcel, len, &at) != TRACERING_BAD_LENGTH || at.number != 0 || at.cpu != 7;
    make_parcel(parcel, 6, 2, 2, "abcd");
    memset(parcel + 32, 255, 8);
    bad += tracering_collector_add(&c, parcel, len, &at) != TRACERING_TIME_OVERFLOW || at.number != 8 || at.cpu != 7;
    make_parcel(parcel, 6, 2, 2, "abcd");
    parcel[1] = 1;
    bad += tracering_collector_add(&c, parcel, len, &at) != TRACERING_BAD_CPU;
    make_parcel(parcel, UINT64_MAX - 1, 2, 2, "abcd");
    bad += tracering_collector_add(&c, parcel, len, &at) != TRACERING_NUMBER_OVERFLOW;
    make_parcel(parcel, 6, 7, 2, "abcd");
    bad += tracering_collector_add(&c, parcel, len, &at) != TRACERING_MISSED_TOO_MANY;
    make_parcel(parcel, 6, 2, 2, "abcd");
    parcel[43] = 0;
    bad += tracering_collector_add(&c, parcel, len, &at) != TRACERING_MISSED_DIFFERS;
    bad += tracering_collector_same(&c, &other) != TRACERING_DONE;

    make_parcel(parcel, 6, 2, 2, "abcd");
    bad += tracering_collector_add(&c, parcel, len, &at) != TRACERING_DONE;
    bad += tracering_collector_add(&c, parcel, len, &at) != TRACERING_KNOWN;
    make_parcel(parcel, 6, 2, 2, "abcD");
    bad += tracering_collector_add(&c, parcel, len, &at) != TRACERING_CLASH || at.number != 6 || at.cpu != 3;
    make_parcel(parcel, 8, 1, 2, "abcd");
    bad += tracering_collector_add(&c, parcel, len, &at) != TRACERING_TAKEN_AND_MISSING || at.number != 7;
    make_parcel(parcel, 2, 1, 2, "abcd");
    bad += tracering_collector_add(&c, parcel, len, &at) != TRACERING_DONE;
    bad += tracering_collector_same(&c, &other) != TRACERING_DIFFERENT;
    bad += tracering_collector_missing(&c, 3, runs, 1, &count) != TRACERING_NO_ROOM || count != 2;
    bad += runs[0].first != 1 || runs[0].last != 1 || runs[1].first != 7;
    bad += tracering_collector_missing(&c, 3, runs, 2, &count) != TRACERING_DONE || count != 2;
    bad += runs[0].first != 1 || runs[0].last != 1 || runs[1].first != 4 || runs[1].last != 5;
    bad += tracering_collector_missing(&c, 256, runs, 2, &count) != TRACERING_DONE || count != 0;

    bad += tracering_collector_next(&c, bytes, 8, &line) != TRACERING_END || line.len != 7;
    bad += tracering_collector_list(&c, &count) != TRACERING_DONE || count != 4;
    memset(bytes, 7, sizeof bytes);
    bad += tracering_collector_next(&c, bytes, 3, &line) != TRACERING_NO_ROOM || !is_line(&line, 10, 2, NULL);
    bad += bytes[0] != 7;
    bad += tracering_collector_next(&c, bytes, 4, &line) != TRACERING_DONE || !is_line(&line, 10, 2, bytes);
    bad += tracering_collector_next(&c, bytes, 8, &line) != TRACERING_DONE || !is_line(&line, 10, 6, bytes);
    bad += tracering_collector_next(&c, bytes, 8, &line) != TRACERING_DONE || !is_line(&line, 20, 3, bytes);
    bad += tracering_collector_next(&c, bytes, 8, &line) != TRACERING_DONE || !is_line(&line, 20, 7, bytes);
    bad += tracering_collector_next(&c, bytes, 8, &line) != TRACERING_END;
    bad += tracering_collector_free(&c) != TRACERING_DONE || !has_only_zeros(&c, sizeof c);
    bad += tracering_collector_next(&c, bytes, 8, &line) != TRACERING_ABSENT;
    bad += tracering_collector_free(&other) != TRACERING_DONE;
    return bad;
}

// A ring of CPU 3 with a closed page of two records of 4 bytes; the one that is written has a third.
static int make_ring(struct tracering_writer *w, struct tracering_reader *r, const char *second)
{
    int bad = tracering_new(w, r, 3, 2, 64) != TRACERING_DONE;
    bad += tracering_write(w, 10, "abcd", 4) != TRACERING_DONE || tracering_write(w, 20, second, 4) != TRACERING_DONE;
    bad += tracering_begin_close(w) != TRACERING_DONE || tracering_finish(w) != TRACERING_DONE;
    return bad + (tracering_write(w, 30, "abcd", 4) != TRACERING_DONE);
}

// What a collector answers as it takes pages: each refusal; and a page that it doesn't add stays with the reader.
static int pages_collected(void)
{
    enum { ROOM = TRACERING_HEADER + 64 };
    struct tracering_collector none = {0}, c = {0}, busy = {.in_call = 1};
    struct tracering_writer w = {0}, twin = {0}, other = {0};
    struct tracering_reader r = {0}, twin_r = {0}, other_r = {0}, busy_r = {.in_call = 1};
    struct tracering_taken taken = {7, 7, 7, 7, 7};
    struct tracering_fault_at at = {7, 7};
    uint8_t out[ROOM];
    int bad = make_ring(&w, &r, "abcd") + make_ring(&twin, &twin_r, "abcd") + make_ring(&other, &other_r, "abcD");
    bad += tracering_collector_take(&none, &r, &taken, &at) != TRACERING_ABSENT;
    bad += tracering_collector_new(&c) != TRACERING_DONE;
    bad += tracering_collector_take(&c, NULL, &taken, &at) != TRACERING_NULL;
    bad += tracering_collector_take(NULL, &r, &taken, &at) != TRACERING_NULL;
    bad += tracering_collector_take(&c, &r, NULL, &at) != TRACERING_NULL;
    bad += tracering_collector_take(&c, &r, &taken, NULL) != TRACERING_NULL;
    bad += tracering_collector_take(&busy, &r, &taken, &at) != TRACERING_BUSY || r.in_call;
    bad += tracering_collector_take(&c, &busy_r, &taken, &at) != TRACERING_BUSY || c.in_call;
    bad += tracering_collector_take(&c, &(struct tracering_reader){0}, &taken, &at) != TRACERING_ABSENT;
    bad += taken.fill != 7 || taken.len != 7 || at.number != 7 || at.cpu != 7;

    bad += tracering_collector_take(&c, &r, &taken, &at) != TRACERING_DONE || c.in_call || r.in_call;
    bad += taken.fill != 0 || taken.first != 0 || taken.missed != 0 || taken.count != 2;
    bad += taken.len != TRACERING_HEADER + 16;
    taken.fill = 7;
    bad += tracering_collector_take(&c, &r, &taken, &at) != TRACERING_EMPTY || taken.fill != 7 || at.number != 7;
    bad += tracering_collector_take(&c, &twin_r, &taken, &at) != TRACERING_KNOWN || taken.fill != 0;
    // The page stays, before the one that is closed after it.
    taken.fill = 7;
    for (int turn = 0; turn < 2; turn++) {
        bad += tracering_collector_take(&c, &other_r, &taken, &at) != TRACERING_CLASH || at.number != 1 || at.cpu != 3;
        bad += tracering_settle(&other, &other_r, out, ROOM, &taken) != TRACERING_UNREAD || taken.fill != 7;
    }
    bad += tracering_begin_close(&other) != TRACERING_DONE || tracering_finish(&other) != TRACERING_DONE;
    bad += tracering_take(&other_r, out, ROOM - 1, &taken) != TRACERING_NO_ROOM;
    bad += tracering_take(&other_r, out, ROOM, &taken) != TRACERING_DONE || taken.fill != 0 || taken.count != 2;
    bad += memcmp(out + TRACERING_HEADER + 12, "abcD", 4) != 0;
    bad += tracering_collector_take(&c, &other_r, &taken, &at) != TRACERING_DONE || taken.fill != 1 || taken.first != 2;
    bad += tracering_settle(&w, &r, out, ROOM, &taken) != TRACERING_DONE || taken.first != 2;
    bad += tracering_collector_add(&c, out, ROOM, &at) != TRACERING_KNOWN;
    bad += tracering_writer_free(&twin, NULL) != TRACERING_DONE || tracering_reader_free(&twin_r) != TRACERING_DONE;
    bad += tracering_writer_free(&other, NULL) != TRACERING_DONE || tracering_reader_free(&other_r) != TRACERING_DONE;
    return bad + (tracering_collector_free(&c) != TRACERING_DONE);
}

// All that was taken is listed by moment and number, and what was missed is missing.
static int is_listed(struct seen *seen)
{
    size_t count = 0, lines = 0;
    uint64_t missing = 0, moment = 0, number = 0;
    (void)tracering_collector_missing(&seen->collector, 3, NULL, 0, &count);
    struct tracering_run *runs = calloc(count + 1, sizeof *runs);
    int bad = tracering_collector_missing(&seen->collector, 3, runs, count + 1, &count) != TRACERING_DONE;
    for (size_t k = 0; k < count && !bad; k++)
        missing += runs[k].last - runs[k].first + 1;
    bad += missing != seen->missed;
    free(runs);
    bad += tracering_collector_list(&seen->collector, &lines) != TRACERING_DONE || lines != seen->records;
    for (size_t k = 0; k < lines; k++) {
        struct tracering_line line;
        uint8_t bytes[LONGEST];
        bad += tracering_collector_next(&seen->collector, bytes, sizeof bytes, &line) != TRACERING_DONE;
        bad += line.moment < moment || (k && line.number <= number) || line.cpu != 3 || line.len < bytes[0];
        moment = line.moment;
        number = line.number;
    }
    return bad + (tracering_collector_free(&seen->collector) != TRACERING_DONE);
}

int main(int argc, char **argv)
{
    uint64_t count = argc > 1 ? strtoull(argv[1], NULL, 10) : 200000;
    int bad = refusals() + amid() + nulls() + refused_frames() + peeked() + closed() + freed();
    printf("refusals: %s\n", bad ? "wrong" : "as they are to be");
    int wrong = collected() + pages_collected();
    printf("collectors: %s\n", wrong ? "wrong" : "as they are to be");
    bad += wrong;

    static struct seen seen;
    struct sigaction action = {.sa_handler = on_signal};
    sigset_t alarm;
    pthread_t reader;
    sigemptyset(&alarm);
    sigaddset(&alarm, SIGALRM);
    if (sigaction(SIGUSR1, &action, NULL))
        return 1;
    wrong = crossed(count) + faults;
    printf("handlers that call the other end: %s\n", wrong ? "wrong" : "as they are to be");
    if (wrong || argc > 2)
        fprintf(stderr, "amid writes %llu, amid takes %llu, peeks %llu, records %llu, missed %llu\n",
            (unsigned long long)amid_writes, (unsigned long long)amid_takes, (unsigned long long)peeks,
            (unsigned long long)own.records, (unsigned long long)own.missed);
    bad += wrong;
    // The alarms are for this thread alone: the reader's is made while they are blocked.
    if (tracering_new(&writer, &seen.reader, 3, PAGES, SIZE) != TRACERING_DONE
        || tracering_collector_new(&seen.collector) != TRACERING_DONE || pthread_sigmask(SIG_BLOCK, &alarm, NULL)
        || pthread_create(&reader, NULL, read_pages, &seen) || alarms(on_signal)
        || pthread_sigmask(SIG_UNBLOCK, &alarm, NULL))
        return 1;
    uint64_t written = write_records(count);
    // An alarm that is still to come would write after the close.
    if (alarms(NULL) || pthread_sigmask(SIG_BLOCK, &alarm, NULL))
        return 1;
    if (tracering_begin_close(&writer) != TRACERING_DONE || tracering_finish(&writer) > TRACERING_DONE)
        bad++;
    atomic_store(&done, 1);
    pthread_join(reader, NULL);
    bad += written != count || faults || seen.faults || seen.records + seen.missed != written + from_handler
        || from_handler < (count + 7) / 8 || (count >= 200000 && !amid_calls) || refused_amid() != amid_calls
        || is_listed(&seen);
    if (bad || argc > 2)
        fprintf(stderr, "records %llu, from handlers %llu, refused amid calls %llu, missed %llu, faults %llu and %d\n",
            (unsigned long long)written, (unsigned long long)from_handler, (unsigned long long)amid_calls,
            (unsigned long long)seen.missed, (unsigned long long)seen.faults, faults);
    printf("records: each is taken or counted as missed: %s\n", bad ? "no" : "yes");
    tracering_writer_free(&writer, NULL);
    tracering_reader_free(&seen.reader);
    return bad != 0;
}
