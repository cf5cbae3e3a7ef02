// What handles know by themselves: how much room their calls want, how many records are complete, whether two ends are
// of one ring; and that a handle which a call left marked can be given up.
//
//     handles
//
// Prints nothing, and ends with status 0 if all is so.
#define _GNU_SOURCE
#include "tracering.h"
#include <setjmp.h>
#include <signal.h>
#include <stdio.h>
#include <string.h>
#include <sys/time.h>

enum { PAGES = 3, SIZE = 64, ROOM = TRACERING_HEADER + SIZE, FRAMES = 4 };

static int bad;

// Says where something isn't so.
#define IS(what) ((what) ? (void)0 : (void)(bad++, fprintf(stderr, "handles.c:%d: %s\n", __LINE__, #what)))

static bool are_zeros(const void *bytes, size_t len)
{
    static const uint8_t zeros[sizeof(struct tracering_writer) + sizeof(struct tracering_reader)];
    return !memcmp(bytes, zeros, len);
}

static uint64_t written(const struct tracering_writer *w)
{
    uint64_t records = UINT64_MAX;
    IS(tracering_written(w, &records) == TRACERING_DONE);
    return records;
}

// How much room is wanted: that much is enough, and one byte less is not.
static void rooms(void)
{
    static struct tracering_writer w = TRACERING_WRITER_INIT;
    static struct tracering_reader r = TRACERING_READER_INIT;
    uint8_t out[ROOM];
    struct tracering_taken taken;
    IS(tracering_writer_room(&w) == 0 && tracering_reader_room(&r) == 0);
    IS(tracering_writer_room(NULL) == 0 && tracering_reader_room(NULL) == 0);
    IS(tracering_new(&w, &r, 0, PAGES, SIZE + 1) == TRACERING_BAD_SIZE);
    IS(are_zeros(&w, sizeof w) && are_zeros(&r, sizeof r));
    IS(tracering_new(&w, &r, 0, PAGES, SIZE) == TRACERING_DONE);
    IS(tracering_writer_room(&w) == ROOM && tracering_reader_room(&r) == ROOM);
    IS(tracering_write(&w, 1, "record", 6) == TRACERING_DONE);
    IS(tracering_peek(&w, out, tracering_writer_room(&w) - 1, &taken) == TRACERING_NO_ROOM);
    IS(tracering_peek(&w, out, tracering_writer_room(&w), &taken) == TRACERING_DONE);
    // One record of two words, of which the first is its header.
    IS(taken.len == TRACERING_HEADER + 12);
    IS(tracering_take(&r, out, tracering_reader_room(&r), &taken) == TRACERING_EMPTY);
    IS(tracering_settle(&w, &r, out, tracering_reader_room(&r), &taken) == TRACERING_DONE);
    IS(are_zeros(&w, sizeof w) && are_zeros(&r, sizeof r));
}

// What of a parcel is used: its first `len` bytes are the same parcel, zeros follow them, and one byte less is none.
static void used(void)
{
    struct tracering_writer w = TRACERING_WRITER_INIT;
    struct tracering_reader r = TRACERING_READER_INIT;
    struct tracering_collector whole = TRACERING_COLLECTOR_INIT, front = TRACERING_COLLECTOR_INIT;
    uint8_t out[ROOM];
    struct tracering_taken taken;
    struct tracering_fault_at at;
    IS(tracering_new(&w, &r, 0, PAGES, SIZE) == TRACERING_DONE);
    IS(tracering_collector_new(&whole) == TRACERING_DONE && tracering_collector_new(&front) == TRACERING_DONE);
    uint64_t stored = 0;
    for (unsigned k = 1; k < 500; k++) {
        IS(tracering_write(&w, k, "records of several lengths", k % 27) == TRACERING_DONE);
        if (k % 31 % 7 == 1) {
            IS(tracering_begin_close(&w) == TRACERING_DONE);
            (void)tracering_finish(&w);
        }
        if (k % 3)
            continue;
        memset(out, 7, sizeof out);
        if (tracering_take(&r, out, sizeof out, &taken) != TRACERING_DONE)
            continue;
        stored += taken.missed && taken.len > TRACERING_HEADER + (size_t)out[40];
        IS(taken.len <= ROOM && are_zeros(out + taken.len, ROOM - taken.len));
        IS(tracering_collector_add(&whole, out, ROOM, &at) == TRACERING_DONE);
        IS(tracering_collector_add(&front, out, taken.len - 1, &at) > TRACERING_DONE);
        IS(tracering_collector_add(&front, out, taken.len, &at) == TRACERING_DONE);
        IS(tracering_collector_same(&whole, &front) == TRACERING_DONE);
    }
    IS(stored > 0);
    IS(tracering_collector_free(&whole) == TRACERING_DONE && tracering_collector_free(&front) == TRACERING_DONE);
    IS(tracering_reader_abandon(NULL) == TRACERING_NULL && tracering_writer_abandon(NULL) == TRACERING_NULL);
    while (tracering_take(&r, out, sizeof out, &taken) == TRACERING_DONE)
        ;
    IS(tracering_settle(&w, &r, out, sizeof out, &taken) == TRACERING_DONE);
}

// How many records are complete: those that are written or ended, and no others.
static void counted(void)
{
    struct tracering_writer w = TRACERING_WRITER_INIT;
    struct tracering_reader r = TRACERING_READER_INIT;
    uint8_t out[ROOM];
    struct tracering_taken taken;
    IS(tracering_written(NULL, NULL) == TRACERING_NULL && tracering_written(&w, NULL) == TRACERING_NULL);
    IS(written(&w) == 0);
    IS(tracering_new(&w, &r, 0, PAGES, SIZE) == TRACERING_DONE);
    IS(tracering_write(&w, 1, out, SIZE) == TRACERING_TOO_LONG && written(&w) == 0);
    IS(tracering_write(&w, 1, "a", 1) == TRACERING_DONE && written(&w) == 1);
    IS(tracering_begin(&w, 2, 8) == TRACERING_DONE && tracering_end(&w) == TRACERING_NOT_RESERVED);
    IS(tracering_finish(&w) == TRACERING_RESERVED && written(&w) == 1);
    IS(tracering_write(&w, 3, "b", 1) == TRACERING_DONE && written(&w) == 2);
    IS(tracering_end(&w) == TRACERING_DONE && written(&w) == 3);
    IS(tracering_finish(&w) == TRACERING_DONE && written(&w) == 3);
    IS(tracering_begin_close(&w) == TRACERING_DONE && tracering_finish(&w) == TRACERING_DONE && written(&w) == 3);
    // Of a ring whose oldest pages are overwritten, the reader gets all but those of the page that is written.
    uint64_t next = 0;
    for (unsigned k = 0; k < 1000; k++)
        IS(tracering_write(&w, 4, "of 8 bytes", 8) == TRACERING_DONE);
    while (tracering_take(&r, out, sizeof out, &taken) == TRACERING_DONE) {
        IS(taken.first - taken.missed == next);
        next = taken.first + taken.count;
    }
    IS(written(&w) == 1003 && tracering_peek(&w, out, sizeof out, &taken) == TRACERING_DONE);
    IS(taken.first == next && written(&w) - next == taken.count);
    IS(tracering_settle(&w, &r, out, sizeof out, &taken) == TRACERING_DONE && written(&w) == 0);
}

// Ends of two rings are distinguished, also if one was made where the other was before.
static void strangers(void)
{
    static struct tracering_writer w[2] = {TRACERING_WRITER_INIT, TRACERING_WRITER_INIT};
    static struct tracering_reader r[2] = {TRACERING_READER_INIT, TRACERING_READER_INIT};
    uint8_t large[TRACERING_HEADER + 4096], out[ROOM];
    struct tracering_taken taken = {7, 7, 7, 7, 7};
    IS(tracering_settle(&w[0], &r[0], out, sizeof out, &taken) == TRACERING_ABSENT);
    IS(tracering_new(&w[0], &r[0], 0, PAGES, 4096) == TRACERING_DONE);
    IS(tracering_settle(&w[0], &r[1], out, sizeof out, &taken) == TRACERING_ABSENT);
    IS(tracering_new(&w[1], &r[1], 1, PAGES, SIZE) == TRACERING_DONE);
    IS(tracering_settle(&w[0], &r[1], out, sizeof out, &taken) == TRACERING_OTHER_RING);
    IS(tracering_settle(&w[1], &r[0], out, sizeof out, &taken) == TRACERING_OTHER_RING);
    IS(taken.len == 7 && !w[0].in_call && !w[1].in_call && !r[0].in_call && !r[1].in_call);
    // The first ring's writer is gone, and others are made, mostly where it was.
    IS(tracering_writer_free(&w[0], NULL) == TRACERING_DONE);
    for (int k = 0; k < 100; k++) {
        IS(tracering_new(&w[0], &r[1], 1, PAGES, SIZE) == TRACERING_IN_USE);
        struct tracering_reader own = TRACERING_READER_INIT;
        IS(tracering_new(&w[0], &own, 1, PAGES, 4096) == TRACERING_DONE);
        IS(tracering_settle(&w[0], &r[0], large, sizeof large, &taken) == TRACERING_OTHER_RING);
        IS(tracering_take(&own, large, sizeof large, &taken) == TRACERING_EMPTY);
        IS(tracering_settle(&w[0], &own, large, sizeof large, &taken) == TRACERING_DONE);
    }
    IS(tracering_take(&r[1], out, sizeof out, &taken) == TRACERING_EMPTY);
    IS(tracering_settle(&w[1], &r[1], out, sizeof out, &taken) == TRACERING_DONE);
    IS(tracering_reader_free(&r[0]) == TRACERING_DONE && are_zeros(&r[0], sizeof r[0]));
}

static struct tracering_writer interrupted = TRACERING_WRITER_INIT;
static sigjmp_buf away;
static void *volatile left; // what the handle had, so that a tool which looks for lost memory finds it

static void on_alarm(int signal)
{
    (void)signal;
    if (!interrupted.in_call)
        return;
    left = interrupted.held.at;
    siglongjmp(away, 1);
}

// A handler jumps out of a call. Then the handle is in a call for ever: it is given up, and made new.
static void jumped(void)
{
    static const struct itimerval often = {.it_interval = {.tv_usec = 50}, .it_value = {.tv_usec = 50}}, never;
    struct tracering_reader r = TRACERING_READER_INIT, other = TRACERING_READER_INIT;
    uint8_t out[ROOM];
    struct tracering_taken taken;
    struct sigaction action = {.sa_handler = on_alarm};
    IS(tracering_new(&interrupted, &r, 0, PAGES, SIZE) == TRACERING_DONE);
    IS(sigaction(SIGALRM, &action, NULL) == 0 && setitimer(ITIMER_REAL, &often, NULL) == 0);
    if (!sigsetjmp(away, 1))
        for (;;)
            (void)tracering_write(&interrupted, 1, "record", 6);
    IS(setitimer(ITIMER_REAL, &never, NULL) == 0);
    IS(tracering_write(&interrupted, 1, "record", 6) == TRACERING_BUSY);
    IS(tracering_writer_free(&interrupted, NULL) == TRACERING_BUSY);
    IS(tracering_writer_abandon(&interrupted) == TRACERING_DONE);
    IS(are_zeros(&interrupted, sizeof interrupted));
    int32_t code;
    int moves = 0;
    do
        code = tracering_take(&r, out, sizeof out, &taken);
    while (code == TRACERING_DONE || (code == TRACERING_MOVING && moves++ < 1000));
    IS(code == TRACERING_EMPTY || code == TRACERING_MOVING);
    IS(tracering_reader_free(&r) == TRACERING_DONE);
    IS(tracering_new(&interrupted, &other, 0, PAGES, SIZE) == TRACERING_DONE);
    IS(tracering_write(&interrupted, 1, "record", 6) == TRACERING_DONE);
    IS(tracering_take(&other, out, sizeof out, &taken) == TRACERING_EMPTY);
    IS(tracering_settle(&interrupted, &other, out, sizeof out, &taken) == TRACERING_DONE && taken.count == 1);
}

int main(void)
{
    rooms();
    used();
    counted();
    strangers();
    jumped();
    return bad != 0;
}
