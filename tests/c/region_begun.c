// Looks at a region after each instruction of the call that makes a ring in it, where another ring was: at each the
// region is the former ring, whole, or none, or the new one, whole. It is for x86-64, where a flag of the processor
// traps at each instruction, and is compiled with -mno-red-zone.
#define _GNU_SOURCE
#include "region_account.h"

#include <signal.h>

enum { PAGES = 4, SIZE = 64, FORMER = 1, LATER = 2 };

static _Alignas(TRACERING_REGION_ALIGN) unsigned char region[2048], former[2048];
static size_t len;
static uint64_t steps, of_former, of_none, of_later;

static bool is_empty(void)
{
    const void *bytes;
    size_t bytes_len;
    for (size_t slot = 0; slot < PAGES; slot++)
        if (tracering_region_slot(region, len, slot, &bytes, &bytes_len) != TRACERING_EMPTY)
            return false;
    return true;
}

static void on_step(int signal)
{
    struct tracering_region about;
    (void)signal;
    steps++;
    if (tracering_region_about(region, len, &about) != TRACERING_DONE) {
        of_none++;
        return;
    }
    bool is_former = about.stream == FORMER && !memcmp(region, former, len);
    bool is_later = about.stream == LATER && about.cpu == 9 && about.pages == PAGES - 1 && !about.has_ended
        && !about.taken && is_empty();
    if (!is_former && !is_later && fault("the region is of two rings", steps, about.stream))
        return;
    if (!is_former && !is_later)
        _exit(1);
    of_former += is_former;
    of_later += is_later;
}

int main(void)
{
    struct tracering_writer writer = TRACERING_WRITER_INIT, later = TRACERING_WRITER_INIT;
    struct tracering_reader reader = TRACERING_READER_INIT, later_reader = TRACERING_READER_INIT;
    struct sigaction action = {.sa_handler = on_step};
    int32_t code;
    len = tracering_region_size(PAGES, SIZE);
    (void)tracering_new_in(&writer, &reader, 7, PAGES, SIZE, FORMER, region, len);
    for (uint64_t record = 0; record < 30; record++)
        (void)tracering_write(&writer, record, &record, sizeof record);
    (void)tracering_writer_free(&writer, NULL);
    (void)tracering_reader_free(&reader);
    memcpy(former, region, len);
    (void)sigaction(SIGTRAP, &action, NULL);
    __asm__ volatile("pushfq\n\torq $0x100, (%%rsp)\n\tpopfq" ::: "memory", "cc");
    code = tracering_new_in(&later, &later_reader, 9, PAGES - 1, SIZE, LATER, region, len);
    __asm__ volatile("pushfq\n\tandq $~0x100, (%%rsp)\n\tpopfq" ::: "memory", "cc");
    if (code != TRACERING_DONE || !of_former || !of_none || !of_later) {
        fprintf(stderr, "region: no ring is made, or not at each instruction\n");
        return 1;
    }
    (void)tracering_writer_free(&later, NULL);
    (void)tracering_reader_free(&later_reader);
    printf("%llu instructions that make a ring\n", (unsigned long long)steps);
    return 0;
}
