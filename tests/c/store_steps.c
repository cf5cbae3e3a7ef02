// Writes records for tests/c/store-steps, which looks at `watched` after each instruction while `is_watched` is 1. With
// PLANT they are written by tests/c/store_order.c, right if that is 0, and else as it plants there.
#include "tracering_region.h"

#include <stdio.h>
#include <string.h>

enum { PAGES = 2, SIZE = 128, RECORDS = 14, LONGEST = 100, STRIDE = (TRACERING_HEADER + SIZE + 63) / 64 * 64 };
enum { LEN = TRACERING_REGION_HEADER + (PAGES + 1) * STRIDE };

struct watched {
    _Alignas(TRACERING_REGION_ALIGN) unsigned char region[LEN];
    volatile uint64_t is_watched;
};
struct watched watched;

#ifdef PLANT

#include "store_order.c"

static struct writer writer = {.room = SIZE, .body = watched.region + TRACERING_REGION_HEADER};
static struct tracering_held held = {.at = &writer};

static bool make(void)
{
    return true;
}

static bool write_record(uint64_t moment, const unsigned char *bytes, size_t len)
{
    struct tracering_payload payload = {bytes, len};
    return tracering_raw_write(&held, moment, payload) == TRACERING_DONE;
}

#else

static struct tracering_writer writer = TRACERING_WRITER_INIT;
static struct tracering_reader reader = TRACERING_READER_INIT;

static bool make(void)
{
    return tracering_new_in(&writer, &reader, 0, PAGES, SIZE, 1, watched.region, LEN) == TRACERING_DONE;
}

static bool write_record(uint64_t moment, const unsigned char *bytes, size_t len)
{
    return tracering_write(&writer, moment, bytes, len) == TRACERING_DONE;
}

#endif

// Where the emulator halts for the first time.
__attribute__((noinline)) void begin_watch(void)
{
    __asm__ volatile("" ::: "memory");
}

int main(void)
{
    unsigned char bytes[LONGEST];
    if (!make())
        return 2;
    begin_watch();
    for (uint64_t number = 1; number <= RECORDS; number++) {
        memset(bytes, (int)number, sizeof bytes);
        // (Some deltas are long, so that there are words of each kind.)
        uint64_t moment = number + (number % 13 ? 0 : number << 30);
        watched.is_watched = 1;
        bool is_written = write_record(moment, bytes, 1 + number * 7 % sizeof bytes);
        watched.is_watched = 0;
        if (!is_written)
            return 1;
    }
    return 0;
}
