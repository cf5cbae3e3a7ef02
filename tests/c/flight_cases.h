// What the checks of the flight recorder share: `PROGRAM FOLDER SCALE [CASE..]`. Each case runs in a process of its
// own, which counts its events in memory that outlives it, dumps to the folder, and mostly dies; its parent reads the
// dump with a strict reader, and compares.
#ifndef FLIGHT_CASES_H
#define FLIGHT_CASES_H

#include "flight_reader.h"
#include "tracering_flight.h"

#include <errno.h>
#include <pthread.h>
#include <signal.h>
#include <sys/mman.h>
#include <sys/prctl.h>
#include <sys/stat.h>
#include <sys/wait.h>
#include <time.h>
#include <unistd.h>

enum { MOST_THREADS = 16 };

// What a case counts, and reports to its parent.
static struct truth {
    uint64_t counted[MOST_THREADS]; // how many events each thread made
    uint64_t at_crash[MOST_THREADS];
    uint64_t ready;
    uint64_t number, other;
} *truth;

static char path[200], second_path[200];
static uint64_t scale = 1; // by how much less is done where all is slow

static inline void count(uint64_t *number)
{
    (void)__atomic_fetch_add(number, 1, __ATOMIC_SEQ_CST);
}

static inline uint64_t seen(const uint64_t *number)
{
    return __atomic_load_n(number, __ATOMIC_SEQ_CST);
}

static inline void nap(long us)
{
    struct timespec time = {us / 1000000, us % 1000000 * 1000};
    while (nanosleep(&time, &time) && errno == EINTR)
        continue;
}

static inline void idle(void)
{
    for (;;)
        nap(1000000);
}

static inline void wait_for(const uint64_t *number, uint64_t most)
{
    while (seen(number) < most)
        nap(100);
}

static inline void start(const struct flight_config *config)
{
    want(!flight_start(config), "no start", 0);
}

static inline pthread_t thread(void *(*body)(void *), uint64_t which)
{
    pthread_t made;
    want(!pthread_create(&made, NULL, body, (void *)(uintptr_t)which), "no thread", which);
    return made;
}

// One that nobody waits for.
static inline void let_go(void *(*body)(void *), uint64_t which)
{
    want(!pthread_detach(thread(body, which)), "no thread", which);
}

// Runs this in a process of its own, and answers how that ended.
static inline int run(void (*body)(uint64_t), uint64_t which)
{
    int status;
    memset(truth, 0, sizeof *truth);
    (void)unlink(path);
    (void)unlink(second_path);
    fflush(NULL);
    pid_t child = fork();
    want(child >= 0, "no process", 0);
    if (!child) {
        (void)prctl(PR_SET_PDEATHSIG, SIGKILL); // so that one that hangs doesn't outlive the checks
        body(which);
        _exit(0);
    }
    want(waitpid(child, &status, 0) == child, "no end", 0);
    return status;
}

static inline void run_well(void (*body)(uint64_t), uint64_t which)
{
    int status = run(body, which);
    want(WIFEXITED(status) && WEXITSTATUS(status) == 0, "a case doesn't end well", (uint64_t)status);
}

static inline uint64_t sum(const uint64_t *numbers, size_t count_of)
{
    uint64_t all = 0;
    for (size_t each = 0; each < count_of; each++)
        all += numbers[each];
    return all;
}

// The ring of this level that a thread of this name had last.
static inline const struct read_ring *ring_named(const struct read_dump *dump, const char *name, uint32_t level)
{
    for (int each = 0; each < RINGS; each++) {
        const struct read_ring *ring = &dump->rings[each];
        const struct read_lease *last = &ring->lease[ring->leases - 1];
        if (ring->is_there && ring->level == level && ring->leases && !strcmp(last->name, name))
            return ring;
    }
    bad("no ring of this name", level);
    return NULL;
}

static inline const struct read_ring *ring_of_worker(const struct read_dump *dump, uint64_t which)
{
    char name[32];
    snprintf(name, sizeof name, "worker-%llu", (unsigned long long)which);
    return ring_named(dump, name, 0);
}

static inline void name_worker(uint64_t which)
{
    char name[32];
    snprintf(name, sizeof name, "worker-%llu", (unsigned long long)which);
    want(!flight_name(name), "no name", which);
}

static inline void record(uint64_t which)
{
    TRACE("worker %u event %lu", (unsigned)which, (unsigned long)truth->counted[which]);
    count(&truth->counted[which]);
}

// A ring whose events `record` made, each: its records have their own numbers, and all is accounted.
static inline void check_worker(const struct read_dump *dump, const struct read_ring *ring, uint64_t which)
{
    for (size_t each = 0; each < ring->count; each++) {
        const struct read_record *at = &ring->records[each];
        want(argument_number(dump, at, 0) == which, "an event of another thread", which);
        want(argument_number(dump, at, 1) == at->number, "an event of another number", at->number);
        want(!strcmp(site_of(dump, at)->format, "worker %u event %lu"), "another format", which);
    }
    want(sum(ring->refused, 6) == 0, "an event is refused", which);
}

// How many of its events were overwritten.
static inline uint64_t overwritten(const struct read_ring *ring)
{
    return ring->written - ring->count;
}

struct flight_case {
    const char *name;
    void (*check)(void);
};

// Carries out the cases that are named, or all.
static inline int carry_out(const struct flight_case *cases, size_t count_of, int argc, char **argv)
{
    want(argc >= 3, "usage: PROGRAM FOLDER SCALE [CASE..]", 0);
    scale = strtoull(argv[2], NULL, 10);
    truth = mmap(NULL, sizeof *truth, PROT_READ | PROT_WRITE, MAP_SHARED | MAP_ANONYMOUS, -1, 0);
    want(truth != MAP_FAILED, "no memory", 0);
    snprintf(path, sizeof path, "%s/dump", argv[1]);
    snprintf(second_path, sizeof second_path, "%s/second", argv[1]);
    for (size_t at = 0; at < count_of; at++) {
        bool is_named = argc == 3;
        for (int each = 3; each < argc; each++)
            is_named |= !strcmp(argv[each], cases[at].name);
        if (is_named) {
            cases[at].check();
            printf("%s: as it is to be\n", cases[at].name);
        }
    }
    return 0;
}

#endif
