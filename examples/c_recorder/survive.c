// Records that outlive their process, to be copied. Four threads record events, each in a ring of its own, whose pages
// lie in the file ring.N of the folder that is named. Then the process kills itself, as another one might at any
// moment: `tracering recover ring.*` prints the events all the same, those of all threads by time.
//
// `./tracering-lib` prints how to compile and link it; add `-lpthread`. `survive FOLDER` ends with status 137
// (SIGKILL).
#define _POSIX_C_SOURCE 200809L
#include "tracering_region.h"

#include <pthread.h>
#include <signal.h>
#include <stdint.h>
#include <stdio.h>
#include <time.h>
#include <unistd.h>

enum { THREADS = 4, PAGES = 8, SIZE = 4080, EVENTS = 3000 };

struct recorder {
    struct tracering_writer writer;
    struct tracering_reader reader;
};

static struct recorder recorders[THREADS];

// One id for all rings of this run, each of which has a CPU of its own. By it they differ from those of other
// runs, on this machine and elsewhere.
static uint64_t stream_of_this_run(void)
{
    struct timespec now;
    clock_gettime(CLOCK_REALTIME, &now);
    return (uint64_t)now.tv_sec << 30 | ((uint64_t)getpid() & 0x3fffffff);
}

static uint64_t moment(void)
{
    struct timespec now;
    clock_gettime(CLOCK_MONOTONIC, &now);
    return (uint64_t)now.tv_sec * 1000000000u + (uint64_t)now.tv_nsec;
}

// A file of before is put aside as ring.N~, so what one run leaves is there until the second start after it.
static bool start(uint32_t thread, uint64_t stream)
{
    char path[16];
    size_t len = tracering_region_size(PAGES, SIZE);
    snprintf(path, sizeof path, "ring.%u", (unsigned)thread);
    void *region = tracering_region_file(path, len);
    if (!region) {
        perror(path);
        return false;
    }
    struct recorder *recorder = &recorders[thread];
    return tracering_new_in(&recorder->writer, &recorder->reader, thread, PAGES, SIZE, stream, region, len)
        == TRACERING_DONE;
}

static void *work(void *given)
{
    struct recorder *recorder = given;
    char event[32];
    for (int k = 0; k < EVENTS; k++) {
        int len = snprintf(event, sizeof event, "event %d", k);
        (void)tracering_write(&recorder->writer, moment(), event, (size_t)len);
    }
    return NULL;
}

int main(int argc, char **argv)
{
    pthread_t threads[THREADS];
    uint64_t stream = stream_of_this_run();
    if (argc != 2 || chdir(argv[1]))
        return 2;
    for (uint32_t each = 0; each < THREADS; each++)
        if (!start(each, stream) || pthread_create(&threads[each], NULL, work, &recorders[each]))
            return 1;
    for (int each = 0; each < THREADS; each++)
        pthread_join(threads[each], NULL);
    kill(getpid(), SIGKILL);
}
