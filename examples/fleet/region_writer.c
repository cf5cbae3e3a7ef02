// A process for `test`, whose rings others have to read: it records in regions, and is killed or comes to its end.
//
//     region_writer FOLDER STREAM RINGS EVENTS_A_SECOND SECONDS
//
// Each ring is the file ring.N of the folder; the payload of record K of CPU N is `event K of CPU N` and some dots.
#include "fleet.h"

#include "tracering_region.h"

enum { RINGS = 8, PAGES = 4, SIZE = 1020 };

static struct tracering_writer writers[RINGS];
static struct tracering_reader readers[RINGS];

static void make_ring(const char *folder, uint64_t stream, uint32_t cpu)
{
    char path[4096];
    size_t len = tracering_region_size(PAGES, SIZE);
    (void)snprintf(path, sizeof path, "%s/ring.%" PRIu32, folder, cpu);
    void *region = tracering_region_file(path, len);
    if (!region)
        die(path, strerror(errno));
    must(tracering_new_in(&writers[cpu], &readers[cpu], cpu, PAGES, SIZE, stream, region, len), "new_in");
}

static void record(uint32_t cpu, uint64_t number)
{
    static const char dots[] = "....................";
    char text[96];
    int len = snprintf(text, sizeof text, "event %" PRIu64 " of CPU %" PRIu32 " %.*s", number, cpu,
        (int)(number % sizeof dots), dots);
    must(tracering_write(&writers[cpu], nanoseconds(CLOCK_MONOTONIC), text, (size_t)len), "write");
}

int main(int argc, char **argv)
{
    if (argc != 6)
        die("region_writer", "FOLDER STREAM RINGS EVENTS_A_SECOND SECONDS");
    uint32_t rings = (uint32_t)atoi(argv[3]);
    double rate = atof(argv[4]), seconds = atof(argv[5]), begun, passed = 0;
    stop_at_signals();
    for (uint32_t cpu = 0; cpu < rings; cpu++)
        make_ring(argv[1], strtoull(argv[2], NULL, 16), cpu);
    begun = seconds_now();
    for (uint64_t number = 0; !is_stopped && passed < seconds; passed = seconds_now() - begun) {
        for (; (double)number < passed * rate; number++)
            for (uint32_t cpu = 0; cpu < rings; cpu++)
                record(cpu, number);
        wait_milliseconds(1);
    }
    for (uint32_t cpu = 0; cpu < rings; cpu++) {
        uint64_t lost;
        must(tracering_writer_free(&writers[cpu], &lost), "writer_free");
    }
}
