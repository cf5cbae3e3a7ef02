// Lists a dump of the recorder by time, whichever page of which ring a record is in: collect < DUMP. First come the
// runs of numbers that the dump doesn't have, each by its CPU, its first and its last number; then a line for each
// record, with its moment, CPU, number and text.
#include "tracering.h"

#include <stdio.h>

enum { CPUS = 2, SIZE = 128, RUNS = 16 };

static int failed(const char *what, int32_t code)
{
    fprintf(stderr, "collect: %s: %s\n", what, tracering_text(code));
    return 1;
}

static int collect(struct tracering_collector *collector)
{
    uint8_t parcel[TRACERING_HEADER + SIZE];
    size_t len;
    while ((len = fread(parcel, 1, sizeof parcel, stdin)) > 0) {
        struct tracering_fault_at at = {0, 0};
        int32_t code = tracering_collector_add(collector, parcel, len, &at);
        if (code > TRACERING_DONE) {
            unsigned long long number = at.number;
            fprintf(stderr, "a parcel is refused: %s, cpu %u number %llu\n", tracering_text(code), at.cpu, number);
            return 1;
        }
    }
    if (ferror(stdin))
        perror("collect");
    return ferror(stdin) != 0;
}

static int list(struct tracering_collector *collector)
{
    struct tracering_run runs[RUNS];
    struct tracering_line line;
    char text[SIZE];
    size_t count;
    for (uint32_t cpu = 0; cpu < CPUS; cpu++) {
        int32_t code = tracering_collector_missing(collector, cpu, runs, RUNS, &count);
        if (code != TRACERING_DONE)
            return failed("the missing numbers", code);
        for (size_t k = 0; k < count; k++)
            printf("missing %u %llu-%llu\n", cpu, (unsigned long long)runs[k].first, (unsigned long long)runs[k].last);
    }
    int32_t code = tracering_collector_list(collector, &count);
    if (code != TRACERING_DONE)
        return failed("the listing", code);
    // The text is followed by the zeros of its slot, which may be none.
    while ((code = tracering_collector_next(collector, text, sizeof text, &line)) == TRACERING_DONE)
        printf("%llu %u %llu %.*s\n", (unsigned long long)line.moment, line.cpu, (unsigned long long)line.number,
            (int)line.len, text);
    return code == TRACERING_END ? 0 : failed("the listing", code);
}

int main(void)
{
    struct tracering_collector collector = {0};
    int32_t code = tracering_collector_new(&collector);
    if (code != TRACERING_DONE)
        return failed("a new collector", code);
    int status = collect(&collector) || list(&collector);
    tracering_collector_free(&collector);
    return status;
}
