// The flight recorder: rings per CPU.
//
// A ring has one writer at a time. A thread may be taken from its CPU amid an event and go on elsewhere, and a record
// is too long for one of the kernel's restartable sequences. So who writes an event takes the slot of the CPU that it
// is on, by one exchange, which fails at once if another thread has it: that one was interrupted amid its event, or was
// moved here just now. Then it is a spare slot, or that of another CPU. A signal's handler that interrupts an event
// finds the slot to be its own thread's, and writes to the slot's next ring.
#define _GNU_SOURCE
#include "recorder.h"

#include <sched.h>

enum {
    MOST_SPARE = 8,
    EVENTS_BETWEEN = 1024 // how many events of a thread don't get their CPU's slot before it looks who has slots
};

uint32_t flight_cpu_slots(uint32_t *cpus)
{
    long configured = sysconf(_SC_NPROCESSORS_CONF);
    *cpus = configured > 0 && configured <= FILE_MOST_RINGS ? (uint32_t)configured : 1;
    return *cpus + (*cpus < MOST_SPARE ? *cpus : MOST_SPARE);
}

// Takes a slot if nobody has it.
static bool take(struct slot *slot, uint32_t thread)
{
    return load(&slot->owner) == NOBODY && exchange_if(&slot->owner, NOBODY, thread);
}

// Takes a slot whose thread ended amid an event, or gives it up, if that was amid events on all of its rings.
static bool take_left(struct slot *slot, uint32_t thread)
{
    uint32_t owner = load(&slot->owner);
    int before = errno;
    bool is_left = owner != NOBODY && owner != NOBODY_ANY_MORE && flight_is_gone(owner);
    errno = before;
    if (!is_left)
        return false;
    bool is_usable = flight_has_ring(slot);
    return exchange_if(&slot->owner, owner, is_usable ? thread : NOBODY_ANY_MORE) && is_usable;
}

// Whether the thread has a slot.
static bool has(struct slot *slot, uint32_t thread)
{
    return load(&slot->owner) == thread;
}

// The first slot with which this succeeds, or null. The spare ones come first.
static struct slot *first_that(bool (*try)(struct slot *slot, uint32_t thread), uint32_t thread)
{
    for (uint32_t tries = 0; tries < flight_recorder.ring_slots; tries++) {
        struct slot *slot = &flight_recorder.slots[(flight_recorder.cpus + tries) % flight_recorder.ring_slots];
        if (try(slot, thread))
            return slot;
    }
    return NULL;
}

// A slot for a thread that doesn't get that of its CPU. (It has one, if it interrupts an event of its own.)
static __attribute__((noinline, cold)) struct slot *take_other(uint32_t thread, bool *is_nested)
{
    struct slot *found = first_that(has, thread);
    *is_nested = found != NULL;
    if (!found && flight_mine.refusals++ % EVENTS_BETWEEN == 0)
        found = first_that(take_left, thread);
    return found ? found : first_that(take, thread);
}

struct slot *flight_take_cpu(bool *is_nested)
{
    uint32_t thread = flight_mine.thread;
    int cpu = sched_getcpu();
    struct slot *slot = &flight_recorder.slots[(cpu < 0 ? 0 : (uint32_t)cpu) % flight_recorder.cpus];
    *is_nested = false;
    if (__builtin_expect(take(slot, thread), true))
        return slot;
    return take_other(thread, is_nested);
}

void flight_give_cpu(struct slot *slot)
{
    __atomic_store_n(&slot->owner, NOBODY, __ATOMIC_RELEASE);
}
