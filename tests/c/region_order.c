// Looks after each instruction of `tracering_write` at what it has stored: a record's bytes come first, then where the
// page ends, a word of the writer's own, and then the slot's commit; a record that begins a page is reserved first, and
// has its bytes before commit all the same. And where a page is begun, commit is zero before its fill, its first number
// and its data are stored. So at no instruction a killer finds a page whose commit is beyond its bytes. It is for
// x86-64, where a flag of the processor traps at each instruction, and is compiled with -mno-red-zone.
#define _GNU_SOURCE
#include "tracering_region.h"

#include <malloc.h>
#include <signal.h>
#include <stdio.h>
#include <stdlib.h>
#include <string.h>

enum { PAGES = 2, SIZE = 1024, RECORDS = 400, WORDS = 128 };
enum { FILL = 1, FIRST = 2, COMMIT = 5, SLOT_WORDS = (TRACERING_HEADER + SIZE) / 8 };

static struct tracering_writer writer = TRACERING_WRITER_INIT;
static struct tracering_reader reader = TRACERING_READER_INIT;
static uint64_t *slots, *own;
static size_t stride;

static uint64_t *slot_at(size_t slot)
{
    return slots + slot * stride;
}

// The slot that is written: of the newest fill that has something, or of which commit was zeroed.
static uint64_t *tail(void)
{
    uint64_t *found = slot_at(0);
    for (size_t slot = 1; slot <= PAGES; slot++)
        if (slot_at(slot)[COMMIT] && (slot_at(slot)[FILL] > found[FILL] || !found[COMMIT]))
            found = slot_at(slot);
    return found;
}

// ---- Where the writer's own words have the page's end: there they are as commit is, after each record.

static bool is_end[WORDS];

static size_t find_end(void)
{
    size_t count = 0, end = WORDS;
    for (size_t word = 0; word < WORDS; word++)
        if (is_end[word]) {
            count++;
            end = word;
        }
    return count == 1 ? end : WORDS;
}

static void rule_out(void)
{
    uint64_t commit = tail()[COMMIT];
    for (size_t word = 0; word < WORDS; word++)
        is_end[word] = is_end[word] && own[word] == commit;
}

// ---- The order, by the steps at which each was stored.

static uint64_t was[PAGES + 1][SLOT_WORDS], end_was, steps, data_at, end_at, commit_at, zero_at, begun_at;
static size_t end_word = WORDS;
static uint64_t records, fills, wrong;

static void look_at_slot(size_t slot)
{
    uint64_t *now = slot_at(slot), *before = was[slot];
    if (now[COMMIT] != before[COMMIT])
        *(now[COMMIT] ? &commit_at : &zero_at) = steps;
    if (now[FILL] != before[FILL] || now[FIRST] != before[FIRST]) {
        begun_at = begun_at ? begun_at : steps;
        wrong += now[COMMIT] != 0;
    }
    if (memcmp(now + 6, before + 6, SIZE))
        data_at = steps;
    memcpy(before, now, sizeof was[slot]);
}

static void on_step(int signal)
{
    (void)signal;
    steps++;
    for (size_t slot = 0; slot <= PAGES; slot++)
        look_at_slot(slot);
    if (own[end_word] != end_was) {
        end_at = steps;
        end_was = own[end_word];
    }
}

static __attribute__((noinline)) int32_t write_stepped(uint64_t moment, const void *bytes, size_t len)
{
    __asm__ volatile("pushfq\n\torq $0x100, (%%rsp)\n\tpopfq" ::: "memory", "cc");
    int32_t code = tracering_write(&writer, moment, bytes, len);
    __asm__ volatile("pushfq\n\tandq $~0x100, (%%rsp)\n\tpopfq" ::: "memory", "cc");
    return code;
}

static bool is_in_order(uint64_t number)
{
    unsigned char bytes[160];
    memset(bytes, (int)(number % 255) + 1, sizeof bytes);
    for (size_t slot = 0; slot <= PAGES; slot++)
        memcpy(was[slot], slot_at(slot), sizeof was[slot]);
    steps = data_at = end_at = commit_at = zero_at = begun_at = 0;
    end_was = own[end_word];
    uint64_t moment = number + (number % 13 ? 0 : number << 30);
    if (write_stepped(moment, bytes, 1 + number * 7 % sizeof bytes) != TRACERING_DONE)
        return false;
    records++;
    fills += begun_at != 0;
    bool is_begun_well = !begun_at || zero_at <= begun_at;
    // (A record that begins a page is reserved before it has its bytes.)
    bool is_end_last = begun_at || data_at < end_at;
    return is_begun_well && !wrong && data_at && is_end_last && data_at < commit_at && end_at < commit_at;
}

int main(void)
{
    struct sigaction action = {.sa_handler = on_step};
    size_t len = tracering_region_size(PAGES, SIZE);
    unsigned char *region = tracering_region_huge(len, NULL);
    if (!region || sigaction(SIGTRAP, &action, NULL)
        || tracering_new_in(&writer, &reader, 0, PAGES, SIZE, 1, region, len) != TRACERING_DONE)
        return 2;
    slots = (uint64_t *)(region + TRACERING_REGION_HEADER);
    stride = (len - TRACERING_REGION_HEADER) / (PAGES + 1) / 8;
    own = writer.held.at;
    for (size_t word = 0; word < WORDS && word < malloc_usable_size(own) / sizeof *own; word++)
        is_end[word] = true;
    for (uint64_t moment = 0; moment < 100; moment++) {
        (void)tracering_write(&writer, 0, "abcdefgh", moment % 9);
        rule_out();
    }
    end_word = find_end();
    if (end_word == WORDS) {
        fprintf(stderr, "region: the page's end isn't found among the writer's words\n");
        return 1;
    }
    for (uint64_t number = 1; number <= RECORDS; number++)
        if (!is_in_order(number)) {
            fprintf(stderr,
                "region: record %llu: data at step %llu, end at %llu, commit at %llu, zero at %llu, begun at %llu\n",
                (unsigned long long)number, (unsigned long long)data_at, (unsigned long long)end_at,
                (unsigned long long)commit_at, (unsigned long long)zero_at, (unsigned long long)begun_at);
            return 1;
        }
    printf("%llu records and %llu pages\n", (unsigned long long)records, (unsigned long long)fills);
    return fills < 10;
}
