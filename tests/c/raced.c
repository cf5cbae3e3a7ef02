// Two races that ThreadSanitizer has to report, though the header hides from it what calls do with a ring's pages: a
// thread writes records and takes pages, while another one changes the payload (`raced payload`) or reads the buffer
// that the pages go to (`raced out`).
#include "tracering.h"

#include <pthread.h>
#include <string.h>

enum { SIZE = 1024, CALLS = 20000 };

static struct tracering_writer writer = TRACERING_WRITER_INIT;
static struct tracering_reader reader = TRACERING_READER_INIT;
static uint8_t payload[40], out[TRACERING_HEADER + SIZE];
static bool done;

static void *call_often(void *given)
{
    struct tracering_taken taken;
    for (uint64_t moment = 0; moment < CALLS; moment++) {
        (void)tracering_write(&writer, moment, payload, sizeof payload);
        (void)tracering_take(&reader, out, sizeof out, &taken);
    }
    __atomic_store_n(&done, true, __ATOMIC_RELAXED);
    return given;
}

int main(int argc, char **argv)
{
    bool is_payload = argc > 1 && !strcmp(argv[1], "payload");
    volatile uint8_t *raced = is_payload ? payload : out;
    pthread_t other;
    if (tracering_new(&writer, &reader, 0, 8, SIZE) != TRACERING_DONE
        || pthread_create(&other, NULL, call_often, NULL))
        return 1;
    // (A relaxed load orders nothing.)
    for (int k = 0; k < CALLS || !__atomic_load_n(&done, __ATOMIC_RELAXED); k++) {
        if (is_payload)
            raced[k % 40]++;
        else
            (void)raced[k % SIZE];
    }
    return pthread_join(other, NULL);
}
