// Interrupts calls of the header at each of their instructions. A handler that looks finds the handle marked as in a
// call whenever an export has begun and not ended; and of a handler that writes, and of what it interrupts, each record
// is written or counted as refused, whatever the refusal.
//
// The exports are this program's own, and the compiler sees what they do: so it may move that past a mark, unless the
// header forbids it. (Compiled by gcc with -O2, it does so if either of the header's two fences is gone.) It is for
// x86-64, where a flag of the processor traps at each instruction, and is compiled with -mno-red-zone.
#define _DEFAULT_SOURCE
#include "tracering.h"

#include <signal.h>
#include <stdio.h>
#include <string.h>

enum { CALLS = 100 };

static struct tracering_writer writer = TRACERING_WRITER_INIT;
// Which call has begun, and which has ended. It takes long to know that, so that a compiler which is free to choose has
// this store late, and the one that it depends on early.
static uint64_t begun, ended, divisor;
uint64_t *from;
// What the exports answer.
static int32_t answer;

// What writes of the program, and of the handler, are answered.
struct answers {
    uint64_t answer, busy, other;
};

static struct answers outer, inner;
static uint64_t steps, amid, unmarked;

static inline int32_t export(uint64_t call)
{
    begun = call;
    ended = *from * divisor / divisor;
    return answer;
}

int32_t tracering_raw_write(struct tracering_held *held, uint64_t moment, struct tracering_payload payload)
{
    (void)held, (void)payload;
    return export(moment);
}

int32_t tracering_raw_put(struct tracering_held *held, const uint8_t *bytes, size_t len)
{
    (void)held, (void)bytes;
    return export(len);
}

static void on_look(int signal)
{
    (void)signal;
    steps++;
    amid += writer.in_call != 0;
    unmarked += begun != ended && !writer.in_call;
}

static inline void count(struct answers *answers, int32_t code)
{
    *(code == answer ? &answers->answer : code == TRACERING_BUSY ? &answers->busy : &answers->other) += 1;
}

static void on_write(int signal)
{
    (void)signal;
    steps++;
    amid += writer.in_call != 0;
    count(&inner, tracering_write(&writer, steps, "", 0));
}

static __attribute__((noinline)) void write_often(void)
{
    for (uint64_t moment = 1; moment <= CALLS; moment++)
        count(&outer, tracering_write(&writer, moment, "", 0));
}

static __attribute__((noinline)) void put_often(void)
{
    static const uint8_t bytes[CALLS];
    for (size_t len = 1; len <= CALLS; len++)
        count(&outer, tracering_put(&writer, bytes, len));
}

// Each instruction of these calls is followed by a trap, and so by a call of the handler.
static bool is_trapped(void (*calls)(void), void (*handler)(int))
{
    struct sigaction action = {.sa_handler = handler};
    steps = amid = unmarked = 0;
    memset(&outer, 0, sizeof outer);
    memset(&inner, 0, sizeof inner);
    if (sigaction(SIGTRAP, &action, NULL))
        return false;
    __asm__ volatile("pushfq\n\torq $0x100, (%%rsp)\n\tpopfq" ::: "memory", "cc");
    calls();
    __asm__ volatile("pushfq\n\tandq $~0x100, (%%rsp)\n\tpopfq" ::: "memory", "cc");
    return steps > 10 * CALLS && amid > CALLS && outer.answer == CALLS && !outer.busy && !outer.other;
}

// The counts of a handle by the numbers of the answers.
static uint64_t count_of(const struct tracering_refused *counts, int32_t code)
{
    switch (code) {
    case TRACERING_BUSY: return counts->busy;
    case TRACERING_TOO_DEEP: return counts->too_deep;
    case TRACERING_TOO_LONG: return counts->too_long;
    case TRACERING_LATE_MOMENT: return counts->late_moment;
    case TRACERING_CROWDED: return counts->crowded;
    case TRACERING_WORN: return counts->worn;
    default: return 0;
    }
}

// A handler that writes is answered BUSY within a call and else what the export answers, and that many are counted.
static bool are_counted(int32_t code)
{
    struct tracering_refused counts;
    memset(&writer, 0, sizeof writer);
    answer = code;
    if (!is_trapped(write_often, on_write) || tracering_refused(&writer, &counts) != TRACERING_DONE)
        return false;
    uint64_t sum = 0, refused = code == TRACERING_DONE ? 0 : CALLS + inner.answer;
    for (int32_t each = TRACERING_DONE; each <= TRACERING_BUSY; each++)
        sum += count_of(&counts, each);
    return counts.busy == amid && inner.busy == amid && inner.answer == steps - amid
        && count_of(&counts, code) == refused && sum == amid + refused;
}

int main(int argc, char **argv)
{
    (void)argv;
    divisor = (uint64_t)argc + 2;
    from = &begun;
    bool good = true;
    static void (*const calls[])(void) = {write_often, put_often};
    for (size_t each = 0; each < sizeof calls / sizeof *calls; each++)
        if (!is_trapped(calls[each], on_look) || unmarked) {
            fprintf(stderr, "interrupted: of %llu steps %llu were unmarked\n", (unsigned long long)steps,
                (unsigned long long)unmarked);
            good = false;
        }
    for (int32_t code = TRACERING_DONE; code <= TRACERING_WORN; code++)
        if (!are_counted(code)) {
            fprintf(stderr, "interrupted: answers of %d are counted otherwise\n", code);
            good = false;
        }
    return !good;
}
