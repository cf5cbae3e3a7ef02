// Records of 8 to 112 bytes by LTTng-UST, for `bench/run embed`: `main ROUNDS RUNS` prints how many nanoseconds the
// fastest run of ROUNDS rounds took. The session that records them is made by the benchmark.
#define LTTNG_UST_TRACEPOINT_CREATE_PROBES
#define LTTNG_UST_TRACEPOINT_DEFINE
#include "events.h"

#include <stdio.h>
#include <stdlib.h>
#include <string.h>
#include <time.h>

enum { ROUND = 8400, POOL = 256 };

static uint8_t pool[POOL], lens[ROUND];

__attribute__((noinline)) void round_of_lttng(void)
{
    for (size_t i = 0; i < ROUND; i++)
        lttng_ust_tracepoint(embed, record, pool + i % 128, lens[i]);
}

static uint64_t now(void)
{
    struct timespec time;
    clock_gettime(CLOCK_MONOTONIC, &time);
    return time.tv_sec * 1000000000ull + time.tv_nsec;
}

int main(int argc, char **argv)
{
    if (argc != 3)
        return 2;
    uint32_t random = 1;
    for (size_t i = 0; i < ROUND; i++) {
        random = random * 1103515245 + 12345;
        lens[i] = 8 + (random >> 16) % 105;
    }
    memset(pool, 0x5a, sizeof pool);
    uint64_t least = UINT64_MAX;
    for (long run = 0; run < atol(argv[2]); run++) {
        uint64_t begun = now();
        for (long i = 0; i < atol(argv[1]); i++)
            round_of_lttng();
        uint64_t took = now() - begun;
        least = took < least ? took : least;
    }
    printf("%llu\n", (unsigned long long)least);
    return 0;
}
