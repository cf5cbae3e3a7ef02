// What the programs of this folder share: faults, time, signals, and what a piece is (docs/FLEET.md).
#ifndef FLEET_H
#define FLEET_H

#define _GNU_SOURCE
#include "tracering.h"

#include <errno.h>
#include <fcntl.h>
#include <inttypes.h>
#include <pthread.h>
#include <stdatomic.h>
#include <stdio.h>
#include <stdlib.h>
#include <string.h>
#include <sys/mman.h>
#include <sys/stat.h>
#include <time.h>
#include <unistd.h>

// ---- Faults, time, and the signals that end a program.

static volatile sig_atomic_t is_stopped;

static inline _Noreturn void die(const char *what, const char *why)
{
    fprintf(stderr, "%s: %s\n", what, why);
    exit(1);
}

static inline void must(int32_t code, const char *call)
{
    if (code > TRACERING_DONE)
        die(call, tracering_text(code));
}

static inline void *allocated(size_t count, size_t size)
{
    void *memory = calloc(count, size);
    if (!memory)
        die("calloc", strerror(errno));
    return memory;
}

static inline uint64_t nanoseconds(clockid_t clock)
{
    struct timespec now;
    (void)clock_gettime(clock, &now);
    return (uint64_t)now.tv_sec * 1000000000 + (uint64_t)now.tv_nsec;
}

static inline double seconds_now(void)
{
    return (double)nanoseconds(CLOCK_MONOTONIC) / 1e9;
}

static inline void wait_milliseconds(long count)
{
    (void)nanosleep(&(struct timespec){.tv_nsec = count * 1000000}, NULL);
}

static inline void on_stop(int signal)
{
    (void)signal;
    is_stopped = 1;
}

static inline void stop_at_signals(void)
{
    struct sigaction stop = {.sa_handler = on_stop}, ignored = {.sa_handler = SIG_IGN};
    if (sigaction(SIGTERM, &stop, NULL) || sigaction(SIGINT, &stop, NULL) || sigaction(SIGPIPE, &ignored, NULL))
        die("sigaction", strerror(errno));
}

// ---- Pieces: the offsets at which their bytes say what they are (docs/formats/pages.md, "Streams of parcels").

#define PIECE_LETTERS "TRPARCEL"
enum { KIND_AT = 12, LENGTH_AT = 16, STREAM_AT = 24, CPU_AT = 32, FILL_AT = 40, FIRST_AT = 48, TIME_AT = 64 };
enum { COMMIT_AT = 72, DATA_AT = 80, SUM_BYTES = 8, LEAST_PIECE = 56 };
enum { KIND_PARCEL, KIND_END, KIND_FORGOTTEN, KIND_UNDELIVERED };
enum { PAGE = 65520, PARCEL = TRACERING_HEADER + PAGE, MOST_PIECE = TRACERING_PIECE(PARCEL) };

struct piece {
    uint64_t stream;
    uint32_t cpu;
    size_t len;
    uint8_t bytes[MOST_PIECE];
};

static inline uint64_t number_at(const void *bytes, size_t at)
{
    uint64_t number;
    memcpy(&number, (const uint8_t *)bytes + at, sizeof number);
    return number;
}

static inline void put_number(void *bytes, size_t at, uint64_t number)
{
    memcpy((uint8_t *)bytes + at, &number, sizeof number);
}

static inline uint32_t kind_of(const void *piece)
{
    return (uint32_t)number_at(piece, KIND_AT);
}
#endif
