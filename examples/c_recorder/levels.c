// A ring for each level of signals, to be copied: no record of a handler is refused because it interrupts a call. The
// thread's own code writes ring 0, and the handlers of three timers write rings 1 to 3. Each handler blocks the signals
// of its own level and of those below, so what writes a ring is never interrupted by what writes the same one. A
// collector has the records of all in order of time.
//
// `./tracering-lib` prints how to compile and link it. `levels RECORDS` has ring 0 get RECORDS records, and prints
// the same each time: that each record is there. It ends with 1 if one isn't.
#define _POSIX_C_SOURCE 200809L
#include "tracering.h"

#include <signal.h>
#include <stdio.h>
#include <stdlib.h>
#include <time.h>

enum { LEVELS = 4, PAGES = 64, SIZE = 1024 };

static struct tracering_writer writers[LEVELS];
static struct tracering_reader readers[LEVELS];
// How many records of each level were made, and how many of them in a call on another level's ring: on a ring of all
// levels these would be refused.
static uint64_t made[LEVELS];
static volatile sig_atomic_t amid_calls;

static void record(int level)
{
    struct timespec now;
    (void)clock_gettime(CLOCK_MONOTONIC, &now);
    uint64_t moment = (uint64_t)now.tv_sec * 1000000000 + (uint64_t)now.tv_nsec;
    (void)tracering_write(&writers[level], moment, &made[level], sizeof made[level]);
    made[level]++;
}

static int signal_of(int level)
{
    return SIGRTMIN + level;
}

static void on_timer(int signal)
{
    int level = signal - signal_of(0);
    for (int below = 0; below < level; below++)
        if (writers[below].in_call)
            amid_calls = 1;
    record(level);
}

// The timer of a level, every 50 microseconds and some more.
static int start_timer(int level)
{
    struct sigaction action = {.sa_handler = on_timer, .sa_flags = SA_RESTART};
    struct sigevent event = {.sigev_notify = SIGEV_SIGNAL, .sigev_signo = signal_of(level)};
    struct timespec every = {.tv_nsec = 50000 + 1370 * level};
    struct itimerspec times = {.it_interval = every, .it_value = every};
    timer_t timer;
    sigemptyset(&action.sa_mask);
    for (int each = 1; each <= level; each++)
        sigaddset(&action.sa_mask, signal_of(each));
    return sigaction(signal_of(level), &action, NULL) || timer_create(CLOCK_MONOTONIC, &event, &timer)
        || timer_settime(timer, 0, &times, NULL);
}

// Takes the closed pages of all rings, before they are overwritten.
static int take_all(struct tracering_collector *collector)
{
    struct tracering_taken taken;
    struct tracering_fault_at at;
    for (int level = 0; level < LEVELS; level++) {
        int32_t code;
        do
            code = tracering_collector_take(collector, &readers[level], &taken, &at);
        while (code == TRACERING_DONE);
        if (code != TRACERING_EMPTY && code != TRACERING_MOVING)
            return 1;
    }
    return 0;
}

// No record was refused, none is missing, and all that were made are listed, by time.
static int check(struct tracering_collector *collector)
{
    uint64_t listed[LEVELS] = {0}, moment = 0;
    struct tracering_line line;
    size_t count;
    if (tracering_collector_list(collector, &count) != TRACERING_DONE)
        return 1;
    for (uint64_t number; tracering_collector_next(collector, &number, sizeof number, &line) == TRACERING_DONE;) {
        if (line.number != listed[line.cpu]++ || line.number != number || line.moment < moment)
            return 1;
        moment = line.moment;
    }
    for (int level = 0; level < LEVELS; level++) {
        struct tracering_refused refused;
        (void)tracering_refused(&writers[level], &refused);
        if (refused.busy || refused.crowded || listed[level] != made[level])
            return 1;
        printf("level %d: each record is there\n", level);
    }
    return 0;
}

int main(int argc, char **argv)
{
    uint64_t records = argc > 1 ? strtoull(argv[1], NULL, 10) : 200000;
    struct tracering_collector collector = TRACERING_COLLECTOR_INIT;
    sigset_t all;
    sigfillset(&all);
    if (tracering_collector_new(&collector) != TRACERING_DONE)
        return 1;
    for (uint32_t level = 0; level < LEVELS; level++)
        if (tracering_new(&writers[level], &readers[level], level, PAGES, SIZE) != TRACERING_DONE)
            return 1;
    for (int level = 1; level < LEVELS; level++)
        if (start_timer(level))
            return 1;
    while (made[0] < records || !made[1] || !made[2] || !made[3] || !amid_calls) {
        record(0);
        if (made[0] % 64 == 0 && take_all(&collector))
            return 1;
    }
    // No handler writes any more, and the last page of each ring is closed, if it has a record.
    if (sigprocmask(SIG_BLOCK, &all, NULL))
        return 1;
    for (int level = 0; level < LEVELS; level++)
        if (tracering_begin_close(&writers[level]) != TRACERING_DONE
            || tracering_finish(&writers[level]) > TRACERING_DONE)
            return 1;
    int status = take_all(&collector) || check(&collector);
    for (int level = 0; level < LEVELS; level++) {
        (void)tracering_writer_free(&writers[level], NULL);
        (void)tracering_reader_free(&readers[level]);
    }
    (void)tracering_collector_free(&collector);
    return status;
}
