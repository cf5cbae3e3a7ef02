// A plain writer whose code store-order reads as it reads the library's: it stores a record's payload, its page's end
// and the slot's commit in this order, and zeroes commit before the fill and the first number of a new page. Compiled
// with PLANT set to END, COMMIT or BEGUN it does one of these too early, which the tool has to find.
#include "tracering.h"

#include <string.h>

#define END 1
#define COMMIT 2
#define BEGUN 3
#ifndef PLANT
#define PLANT 0
#endif

struct writer {
    uint64_t last, room;
    uint8_t *body;
    uint64_t end, first, count, fill;
};

// So that the compiler leaves the stores in their order.
static inline void next_store(void)
{
    __atomic_signal_fence(__ATOMIC_SEQ_CST);
}

static inline void store(uint8_t *at, uint64_t value)
{
    next_store();
    memcpy(at, &value, sizeof value);
    next_store();
}

static __attribute__((noinline)) void begin_page(struct writer *w, uint8_t *body)
{
    if (PLANT != BEGUN)
        store(body + 40, 0);
    store(body + 8, ++w->fill);
    store(body + 16, w->first + w->count);
    if (PLANT == BEGUN)
        store(body + 40, 0);
    w->first += w->count;
    w->end = w->count = 0;
}

int32_t tracering_raw_write(struct tracering_held *held, uint64_t moment, struct tracering_payload payload)
{
    struct writer *w = held->at;
    if (payload.len > w->room)
        return TRACERING_TOO_LONG;
    if (w->end + payload.len > w->room)
        begin_page(w, w->body);
    uint64_t end = w->end + payload.len;
    if (PLANT == COMMIT)
        store(w->body + 40, end);
    if (PLANT == END)
        w->end = end;
    next_store();
    memcpy(w->body + 48 + end - payload.len, payload.bytes, payload.len);
    next_store();
    if (PLANT != END)
        w->end = end;
    w->count++;
    w->last = moment;
    if (PLANT != COMMIT)
        store(w->body + 40, end);
    return TRACERING_DONE;
}
