// The flight recorder: the slots that threads get, and what is noted of them. No call here takes memory or waits for
// another thread, so one that is halted anywhere holds up none.
#define _GNU_SOURCE
#include "recorder.h"

#include <sys/prctl.h>

// How many slots are looked at for threads that ended, and how many events of a thread find none before it looks again.
enum { LOOKED_AT_ONCE = 1024, EVENTS_BETWEEN = 1024 };

// ---- Leases.

static void copy_words(uint64_t *to, const uint64_t *from, size_t words)
{
    for (size_t at = 0; at < words; at++)
        __atomic_store_n(&to[at], __atomic_load_n(&from[at], __ATOMIC_ACQUIRE), __ATOMIC_RELEASE);
}

// Whether a slot has rings.
static bool is_ring_slot(const struct slot *slot)
{
    return slot - flight_recorder.slots < flight_recorder.ring_slots;
}

// From which moment on a lease that comes after this one, if there is one, names its thread. (They don't fall.)
static uint64_t next_moment(const struct lease *before)
{
    uint64_t moment = flight_moment();
    return before && before->first[0] > moment ? before->first[0] : moment;
}

static struct lease new_lease(const struct slot *slot, const struct lease *before)
{
    struct lease lease = {.thread = this_thread()};
    if (!is_ring_slot(slot))
        lease.first[0] = next_moment(before);
    for (uint32_t level = 0; is_ring_slot(slot) && level < MOST_LEVELS; level++)
        lease.first[level] = records_of(&slot->rings[level]);
    char name[NAME_SIZE] = {0};
    if (flight_mine.name[0])
        memcpy(name, flight_mine.name, sizeof name);
    else
        (void)prctl(PR_GET_NAME, name);
    memcpy(lease.name, name, sizeof name);
    return lease;
}

// (A lease without a record gives way to the new one.)
void flight_begin_lease(struct slot *slot)
{
    struct noted *noted = slot->noted;
    uint64_t count = __atomic_load_n(&noted->leases.count, __ATOMIC_RELAXED), version = noted->version;
    const struct lease *before = count ? &noted->leases.of[(count - 1) % LEASES] : NULL;
    struct lease lease = new_lease(slot, before);
    if (before && is_ring_slot(slot) && !memcmp(before->first, lease.first, sizeof lease.first))
        count--;
    __atomic_store_n(&noted->version, changing_version(version, count % LEASES), __ATOMIC_SEQ_CST);
    copy_words((uint64_t *)&noted->leases.of[count % LEASES], (const uint64_t *)&lease, sizeof lease / 8);
    __atomic_store_n(&noted->leases.count, count + 1, __ATOMIC_RELAXED);
    __atomic_store_n(&noted->version, next_version(version), __ATOMIC_SEQ_CST);
    flight_stamp();
}

// Copies the leases of a slot. If its thread is halted while it changes them, they are as they are.
void flight_copy_leases(struct leases *to, const struct slot *slot)
{
    for (int tries = 0; tries < 10000; tries++) {
        uint64_t version = __atomic_load_n(&slot->noted->version, __ATOMIC_SEQ_CST);
        copy_words((uint64_t *)to, (const uint64_t *)&slot->noted->leases, LEASE_WORDS);
        if (!(version & 1) && version == __atomic_load_n(&slot->noted->version, __ATOMIC_SEQ_CST))
            return;
    }
}

// ---- Refusals.

// Notes how many events a ring refused for each reason. A handler that interrupts this may have noted more by then, and
// that stays: so what is noted never falls, and has each refused event whose call returned.
static void note_refused_by(const struct tracering_writer *ring, uint64_t *noted)
{
    struct tracering_refused refused;
    (void)tracering_refused(ring, &refused);
    const uint64_t counts[] = {refused.busy, refused.too_deep, refused.too_long, refused.late_moment, refused.crowded,
        refused.worn};
    for (size_t reason = 0; reason < SLOT_REASONS; reason++) {
        uint64_t found = __atomic_load_n(&noted[reason], __ATOMIC_RELAXED);
        while (found < counts[reason]
            && !__atomic_compare_exchange_n(&noted[reason], &found, counts[reason], false, __ATOMIC_RELAXED,
                __ATOMIC_RELAXED))
            ;
    }
}

void flight_note_refused(const struct slot *slot)
{
    for (uint32_t level = 0; slot && level < flight_recorder.config.levels; level++)
        note_refused_by(&slot->rings[level], slot->noted->refused[level]);
}

// The counts of events without a ring are several, so that threads which all have none don't wait for one line of the
// processors' caches.
static uint64_t *without_ring(uint32_t which)
{
    return flight_recorder.image + FILE_WITHOUT_RING + which % FILE_COUNTS * FILE_COUNT_WORDS;
}

void flight_count_without_ring(void)
{
    static _Thread_local __attribute__((tls_model("initial-exec"))) uint32_t which;
    which = which ? which : this_thread();
    if (!flight_recorder.image) // of a forked child that was amid this
        return;
    (void)__atomic_fetch_add(without_ring(which), 1, __ATOMIC_RELAXED);
}

uint64_t flight_without_ring(void)
{
    uint64_t all = 0;
    for (uint32_t which = 0; which < FILE_COUNTS; which++)
        all += __atomic_load_n(without_ring(which), __ATOMIC_RELAXED);
    return all;
}

// ---- The queue of free slots. Its first node has none: the next one has the first slot.

#define NO_NODE UINT32_MAX

static uint32_t node_of(uint64_t word)
{
    return (uint32_t)word;
}

// The word that comes after this one, with another node.
static uint64_t word_after(uint64_t word, uint32_t node)
{
    return ((word >> 32) + 1) << 32 | node;
}

static uint64_t word_at(const uint64_t *word)
{
    return __atomic_load_n(word, __ATOMIC_SEQ_CST);
}

static bool change_word(uint64_t *word, uint64_t from, uint32_t node)
{
    return __atomic_compare_exchange_n(word, &from, word_after(from, node), false, __ATOMIC_SEQ_CST, __ATOMIC_SEQ_CST);
}

// The first of the slots that threads get, of which there are as many as `threads` says.
static uint32_t first_free(void)
{
    return flight_recorder.slot_count - flight_recorder.config.threads;
}

void flight_fill_queue(void)
{
    struct queue *queue = &flight_recorder.queue;
    uint32_t threads = flight_recorder.config.threads;
    for (uint32_t at = 0; at <= threads; at++)
        queue->nodes[at] = (struct node){at < threads ? at + 1 : NO_NODE, first_free() + at - 1};
    queue->head = 0;
    queue->tail = threads;
}

// Takes the first slot of the queue, or null. The node that had none before is the slot's from now on.
static struct slot *take_first(void)
{
    struct queue *queue = &flight_recorder.queue;
    for (;;) {
        uint64_t head = word_at(&queue->head), tail = word_at(&queue->tail);
        uint64_t next = word_at(&queue->nodes[node_of(head)].next);
        if (head != word_at(&queue->head))
            continue;
        if (node_of(next) == NO_NODE)
            return NULL;
        if (node_of(head) == node_of(tail)) {
            (void)change_word(&queue->tail, tail, node_of(next));
            continue;
        }
        uint32_t number = __atomic_load_n(&queue->nodes[node_of(next)].slot, __ATOMIC_SEQ_CST);
        if (change_word(&queue->head, head, node_of(next))) {
            flight_recorder.slots[number].node = node_of(head);
            return &flight_recorder.slots[number];
        }
    }
}

static void put_last(struct slot *slot)
{
    struct queue *queue = &flight_recorder.queue;
    struct node *node = &queue->nodes[slot->node];
    __atomic_store_n(&node->slot, (uint32_t)(slot - flight_recorder.slots), __ATOMIC_SEQ_CST);
    __atomic_store_n(&node->next, word_after(word_at(&node->next), NO_NODE), __ATOMIC_SEQ_CST);
    uint32_t own = slot->node; // (Once it is in the queue, another thread may have the slot.)
    for (;;) {
        uint64_t tail = word_at(&queue->tail), next = word_at(&queue->nodes[node_of(tail)].next);
        if (tail != word_at(&queue->tail))
            continue;
        if (node_of(next) != NO_NODE)
            (void)change_word(&queue->tail, tail, node_of(next));
        else if (change_word(&queue->nodes[node_of(tail)].next, next, own)) {
            (void)change_word(&queue->tail, tail, own);
            return;
        }
    }
}

// ---- Claims.

void flight_hand_back(struct slot *slot)
{
    __atomic_store_n(&slot->owner, NOBODY, __ATOMIC_SEQ_CST);
    put_last(slot);
}

// (A thread may have ended in a call on each.)
bool flight_has_ring(const struct slot *slot)
{
    for (uint32_t level = 0; level < flight_recorder.config.levels; level++)
        if (!slot->rings[level].in_call)
            return true;
    return false;
}

bool flight_is_gone(uint32_t thread)
{
    return syscall(SYS_tgkill, getpid(), thread, 0) && errno == ESRCH;
}

// Takes a slot whose thread ended without giving it back: by a system call, or it got one in the last of its
// destructors. (One of the calling thread's number, which has no slot, was that of a thread before it.)
static struct slot *take_left(void)
{
    uint32_t threads = flight_recorder.config.threads, thread = this_thread();
    for (uint32_t tries = 0; tries < threads && tries < LOOKED_AT_ONCE; tries++) {
        uint32_t at = __atomic_fetch_add(&flight_recorder.looked, 1, __ATOMIC_RELAXED) % threads;
        struct slot *slot = &flight_recorder.slots[first_free() + at];
        uint32_t owner = load(&slot->owner);
        if (owner == NOBODY || owner == NOBODY_ANY_MORE || (owner != thread && !flight_is_gone(owner)))
            continue;
        if (exchange_if(&slot->owner, owner, flight_has_ring(slot) ? thread : NOBODY_ANY_MORE)
            && flight_has_ring(slot))
            return slot;
    }
    return NULL;
}

// (A thread that is to have none pays for two loads and its count.)
bool flight_may_claim(uint32_t running)
{
    uint64_t head = word_at(&flight_recorder.queue.head);
    if (flight_mine.refused_by != running) {
        flight_mine.refused_by = running;
        flight_mine.refusals = 0;
    }
    bool is_free = node_of(word_at(&flight_recorder.queue.nodes[node_of(head)].next)) != NO_NODE;
    return is_free || flight_mine.refusals++ % EVENTS_BETWEEN == 0;
}

struct slot *flight_claim(void)
{
    for (struct slot *slot; (slot = take_first());) {
        bool is_usable = flight_has_ring(slot);
        __atomic_store_n(&slot->owner, is_usable ? this_thread() : NOBODY_ANY_MORE, __ATOMIC_SEQ_CST);
        if (is_usable)
            return slot;
    }
    return take_left();
}
