// Looks at a ring's region after each instruction of the calls that write it: what is there is what a kill at that
// instruction leaves. All records that were complete are there unless they were overwritten, of the call that is
// interrupted all or nothing, and none is torn. It is for x86-64, where a flag of the processor traps at each
// instruction, and is compiled with -mno-red-zone.
#define _GNU_SOURCE
#include "region_account.h"

#include <signal.h>
#include <sys/mman.h>

enum { ROUNDS = 60 };

static struct tracering_writer writer = TRACERING_WRITER_INIT;
static struct tracering_reader reader = TRACERING_READER_INIT;
static void *region;
static size_t region_len, pages, size;
static uint64_t moment, rest, begun, steps, wrong;
static uint64_t passed; // the fill after the last one that the reader was given
static uint32_t ids[SOURCES];
static size_t depth;

static bool holds_with(struct tracering_collector *c)
{
    struct found found;
    if (!find_pages(region, region_len, c, &found) || !are_in_order(&found))
        return false;
    // (What is nested in others is whole with them.)
    if (depth && found.end > rest)
        return fault("a record is there amid the one that it is nested in", found.end, rest);
    found.passed = passed;
    return has_records(&found, pages, rest, begun) && lists_records(c, size, &found.records);
}

static void on_step(int signal)
{
    struct tracering_collector c = TRACERING_COLLECTOR_INIT;
    (void)signal;
    steps++;
    if (wrong)
        return;
    (void)tracering_collector_new(&c);
    wrong += !holds_with(&c);
    (void)tracering_collector_free(&c);
}

#define STEP(call) \
    do { \
        __asm__ volatile("pushfq\n\torq $0x100, (%%rsp)\n\tpopfq" ::: "memory", "cc"); \
        call; \
        __asm__ volatile("pushfq\n\tandq $~0x100, (%%rsp)\n\tpopfq" ::: "memory", "cc"); \
    } while (0)

static __attribute__((noinline)) void write_whole(uint32_t source)
{
    unsigned char bytes[LONGEST];
    size_t len = make_record(source, ids[source]++, size, bytes);
    int32_t code;
    begun++;
    moment += 1 + (begun % 29 ? 0 : 1u << 28);
    STEP(code = tracering_write(&writer, moment, bytes, len));
    if (code != TRACERING_DONE) {
        ids[source]--;
        begun--;
    }
    if (!depth)
        rest = begun;
}

// A record by its parts, and another one nested in it.
static __attribute__((noinline)) void write_by_parts(uint32_t source)
{
    unsigned char bytes[LONGEST];
    size_t len = make_record(source, ids[source]++, size, bytes);
    int32_t code;
    moment++;
    begun++;
    STEP(code = tracering_begin(&writer, moment, len));
    depth++;
    STEP(code = tracering_finish(&writer));
    if (code != TRACERING_RESERVED) {
        if (tracering_depth(&writer) == (int32_t)depth)
            STEP(code = tracering_finish(&writer));
        depth--;
        begun--;
        ids[source]--;
        return;
    }
    STEP(code = tracering_put(&writer, bytes, len));
    if (source + 1 < SOURCES)
        write_by_parts(source + 1);
    write_whole(2);
    STEP(code = tracering_end(&writer));
    if (depth == 1) {
        depth = 0;
        STEP(code = tracering_finish(&writer));
        rest = begun;
    } else {
        depth--;
    }
}

static __attribute__((noinline)) void close_page(void)
{
    STEP((void)tracering_begin_close(&writer));
    STEP((void)tracering_finish(&writer));
}

static __attribute__((noinline)) void take(bool wishes)
{
    unsigned char out[TRACERING_HEADER + 1024];
    struct tracering_taken taken;
    int32_t code;
    STEP(code = tracering_take(&reader, out, sizeof out, &taken));
    if (code == TRACERING_DONE)
        passed = taken.fill + 1;
    if (code == TRACERING_EMPTY && wishes)
        STEP((void)tracering_wish(&reader));
}

static bool is_stepped(size_t of_pages, size_t of_size)
{
    pages = of_pages;
    size = of_size;
    region_len = tracering_region_size(pages, size);
    region = tracering_region_huge(region_len, NULL);
    moment = rest = begun = passed = 0;
    memset(ids, 0, sizeof ids);
    if (!region || tracering_new_in(&writer, &reader, 1, pages, size, 1, region, region_len) != TRACERING_DONE)
        return fault("no ring is made", pages, size);
    for (uint64_t round = 0; round < ROUNDS && !wrong; round++) {
        write_whole(0);
        if (round % 3 == 0)
            write_by_parts(0);
        if (round % 7 == 0)
            close_page();
        if (round / 16 % 2)
            take(round % 4 == 0);
    }
    // (These release memory, of which the handler's collector takes some.)
    (void)tracering_writer_free(&writer, NULL);
    (void)tracering_reader_free(&reader);
    return !wrong && !tracering_region_unmap(region, region_len);
}

int main(void)
{
    static const size_t sizes[] = {64, 128, 256};
    struct sigaction action = {.sa_handler = on_step};
    if (sigaction(SIGTRAP, &action, NULL))
        return 2;
    for (size_t of_pages = 2; of_pages <= 4; of_pages++)
        for (size_t each = 0; each < sizeof sizes / sizeof *sizes; each++)
            if (!is_stepped(of_pages, sizes[each])) {
                fprintf(stderr, "region: %zu pages of %zu bytes, step %llu\n", pages, size, (unsigned long long)steps);
                return 1;
            }
    printf("%llu instructions\n", (unsigned long long)steps);
    return steps < 10000;
}
