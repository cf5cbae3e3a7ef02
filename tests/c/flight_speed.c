// What an event takes: TRACE with two arguments, by each clock, beside tracering_write of as many bytes with a counter,
// in the same run. `flight_speed` prints nanoseconds, the least of many rounds; `flight_speed NAME` carries out one of
// them once, so that its instructions can be counted.
#define _GNU_SOURCE
#include "tracering.h"
#include "tracering_flight.h"

#include <stdio.h>
#include <string.h>
#include <time.h>

enum { ROUND = 100000, ROUNDS = 200 };

static struct tracering_writer writer = TRACERING_WRITER_INIT;
static struct tracering_reader reader = TRACERING_READER_INIT;

static void write_events(void)
{
    static uint64_t moment;
    for (uint32_t each = 0; each < ROUND; each++) {
        struct {
            uint32_t id, first;
            uint64_t second;
        } event = {7, each, moment};
        (void)tracering_write(&writer, moment++, &event, sizeof event);
    }
}

static void trace_events(void)
{
    for (uint32_t each = 0; each < ROUND; each++)
        TRACE("request %u took %lu ns", each, (unsigned long)each + 250);
}

static void trace_texts(void)
{
    for (uint32_t each = 0; each < ROUND; each++)
        TRACE("request %s took %u ns", "a text of 24 characters.", each);
}

static void trace_nothing(void)
{
    for (uint32_t each = 0; each < ROUND; each++)
        TRACE("switched off %u took %lu ns", each, (unsigned long)each + 250);
}

static uint64_t count_up(void)
{
    static uint64_t moment;
    return moment++;
}

static double nanoseconds_of(void (*events)(void))
{
    struct timespec begun, ended;
    double least = 1e9;
    for (int round = 0; round < ROUNDS; round++) {
        (void)clock_gettime(CLOCK_MONOTONIC, &begun);
        events();
        (void)clock_gettime(CLOCK_MONOTONIC, &ended);
        double took = (double)(ended.tv_sec - begun.tv_sec) * 1e9 + (double)(ended.tv_nsec - begun.tv_nsec);
        least = took < least ? took : least;
    }
    return least / ROUND;
}

static const struct {
    const char *name;
    enum flight_clock clock;
    void (*events)(void);
    bool per_cpu;
} runs[] = {{"write", FLIGHT_MONOTONIC, write_events, false}, {"counter", FLIGHT_CALLER, trace_events, false},
    {"tsc", FLIGHT_TSC, trace_events, false}, {"cpu", FLIGHT_TSC, trace_events, true},
    {"monotonic", FLIGHT_MONOTONIC, trace_events, false}, {"text", FLIGHT_TSC, trace_texts, false},
    {"off", FLIGHT_TSC, trace_nothing, false}};

int main(int argc, char **argv)
{
    if (tracering_new(&writer, &reader, 0, 8, 4080) != TRACERING_DONE || flight_switch("* switched off *", false))
        return 1;
    for (size_t at = 0; at < sizeof runs / sizeof *runs; at++) {
        struct flight_config config = {.clock = runs[at].clock, .per_cpu = runs[at].per_cpu};
        config.now = config.clock == FLIGHT_CALLER ? count_up : NULL;
        if (argc > 1 && strcmp(argv[1], runs[at].name))
            continue;
        if (flight_start(&config))
            return 1;
        if (argc > 1)
            runs[at].events();
        else
            printf("%-10s %6.2f ns\n", runs[at].name, nanoseconds_of(runs[at].events));
        if (flight_stop())
            return 1;
    }
    return 0;
}
