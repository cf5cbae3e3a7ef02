// Where the bodies of a ring's pages are: in malloc's memory, or in a region. That is decided when the library is
// linked, not by an allocator that types name: a dozen types of seven crates would have one more parameter.
//
// tracering-lib renames the calls of memory that the library's proved code makes to those below. While a thread makes a
// ring in a region, each body that it takes is the region's next slot; all else goes on to the kit's own calls. What is
// released is looked up among the regions that have bodies, if there is one: a plain program pays one load for that.
#include "heap.h"

#include <stdatomic.h>
#include <stdlib.h>
#include <string.h>

// The kit's own calls.
struct given rattle_alloc(size_t size, size_t align);
struct given rattle_realloc(void *at, size_t old_size, size_t size, size_t align);
void rattle_dealloc(void *at, size_t size, size_t align);

// A region that has bodies, or an entry that another one may use. Entries are never released, so that a thread which
// looks at them needs no lock. Of one that is being changed, or was, nobody holds a body.
struct used_region {
    struct used_region *next;
    _Atomic uint64_t changes; // odd during a change of the two below
    _Atomic uintptr_t begin, end;
    _Atomic size_t holders; // the bodies, and who is filling or holding the region; 0: the entry is free
    _Atomic bool is_held;   // it has room for several rings, of one owner
};

static _Atomic(struct used_region *) used_regions;
// How many regions have bodies.
static _Atomic size_t used_count;

static _Thread_local __attribute__((tls_model("initial-exec"))) struct filling *current;

// The stores are seen in this order.
static void set_bounds(struct used_region *region, uintptr_t begin, uintptr_t end)
{
    uint64_t changes = atomic_load_explicit(&region->changes, memory_order_relaxed);
    atomic_store_explicit(&region->changes, changes + 1, memory_order_relaxed);
    atomic_store_explicit(&region->begin, begin, memory_order_release);
    atomic_store_explicit(&region->end, end, memory_order_release);
    atomic_store_explicit(&region->changes, changes + 2, memory_order_release);
}

// Whether it has a byte between the two. Of an entry that is changed meanwhile it is not known, and no.
static bool touches(struct used_region *region, uintptr_t begin, uintptr_t end)
{
    uint64_t changes = atomic_load_explicit(&region->changes, memory_order_acquire);
    uintptr_t first = atomic_load_explicit(&region->begin, memory_order_acquire);
    uintptr_t after = atomic_load_explicit(&region->end, memory_order_acquire);
    bool is_stable = !(changes & 1) && atomic_load_explicit(&region->changes, memory_order_relaxed) == changes;
    return is_stable && first < end && begin < after;
}

static struct used_region *find(uintptr_t begin, uintptr_t end, const struct used_region *but)
{
    struct used_region *region = atomic_load_explicit(&used_regions, memory_order_acquire);
    while (region && (region == but || !touches(region, begin, end)))
        region = region->next;
    return region;
}

// An entry of which nobody else knows, held once.
static struct used_region *claim(void)
{
    struct used_region *region = atomic_load_explicit(&used_regions, memory_order_acquire);
    for (; region; region = region->next) {
        size_t none = 0;
        if (atomic_compare_exchange_strong(&region->holders, &none, 1))
            return region;
    }
    region = calloc(1, sizeof *region);
    if (!region)
        return NULL;
    atomic_init(&region->holders, 1);
    region->next = atomic_load(&used_regions);
    while (!atomic_compare_exchange_weak(&used_regions, &region->next, region)) {
    }
    return region;
}

// One holder less. The last one is alone with the entry.
static void leave(struct used_region *region)
{
    size_t holders = atomic_load(&region->holders);
    while (holders > 1)
        if (atomic_compare_exchange_weak(&region->holders, &holders, holders - 1))
            return;
    set_bounds(region, 0, 0);
    atomic_fetch_sub(&used_count, 1);
    atomic_store(&region->holders, 0);
}

bool tracering_heap_has_bodies(const void *begin, size_t len)
{
    return atomic_load(&used_count) && find((uintptr_t)begin, (uintptr_t)begin + len, NULL);
}

// An entry of this memory, held once.
static struct used_region *claim_for(void *begin, size_t len)
{
    struct used_region *region = claim();
    if (!region)
        return NULL;
    set_bounds(region, (uintptr_t)begin, (uintptr_t)begin + len);
    // (Of two threads that fill the same memory, the one that counts itself later sees the other.)
    atomic_fetch_add(&used_count, 1);
    return region;
}

bool tracering_heap_hold(void *begin, size_t len)
{
    struct used_region *region = claim_for(begin, len);
    if (region)
        atomic_store(&region->is_held, true);
    return region;
}

void tracering_heap_let_go(void *begin, size_t len)
{
    struct used_region *region = find((uintptr_t)begin, (uintptr_t)begin + len, NULL);
    if (!region)
        return;
    atomic_store(&region->is_held, false);
    leave(region);
}

int tracering_heap_begin(struct filling *filling, void *begin, size_t len)
{
    struct used_region *held = find((uintptr_t)begin, (uintptr_t)begin + len, NULL);
    if (held && atomic_load(&held->is_held)) {
        atomic_fetch_add(&held->holders, 1);
        filling->region = held;
        current = filling;
        return 1;
    }
    struct used_region *region = claim_for(begin, len);
    if (!region)
        return 0;
    if (find((uintptr_t)begin, (uintptr_t)begin + len, region)) {
        leave(region);
        return -1;
    }
    filling->region = region;
    current = filling;
    return 1;
}

void tracering_heap_end(struct filling *filling)
{
    current = NULL;
    leave(filling->region);
}

// The next slot, if a body is what is asked for. (Nothing else of one byte's alignment that is asked for meanwhile has
// exactly that length.)
static void *next_slot(size_t size, size_t align)
{
    struct filling *filling = current;
    if (!filling || align != 1 || size != filling->body || !filling->left)
        return NULL;
    void *slot = filling->next;
    filling->next += filling->stride;
    filling->left--;
    atomic_fetch_add(&filling->region->holders, 1);
    memset(slot, 0, filling->stride);
    return slot;
}

static struct used_region *region_of(const void *at)
{
    if (!atomic_load_explicit(&used_count, memory_order_relaxed))
        return NULL;
    return find((uintptr_t)at, (uintptr_t)at + 1, NULL);
}

struct given tracering_heap_alloc(size_t size, size_t align)
{
    void *slot = current ? next_slot(size, align) : NULL;
    return slot ? (struct given){1, slot} : rattle_alloc(size, align);
}

void tracering_heap_dealloc(void *at, size_t size, size_t align)
{
    struct used_region *region = region_of(at);
    if (region)
        leave(region);
    else
        rattle_dealloc(at, size, align);
}

// (No body grows. If one did, it would move to malloc's memory.)
struct given tracering_heap_realloc(void *at, size_t old_size, size_t size, size_t align)
{
    struct used_region *region = region_of(at);
    if (!region)
        return rattle_realloc(at, old_size, size, align);
    struct given moved = rattle_alloc(size, align);
    if (moved.is_given) {
        memcpy(moved.at, at, old_size < size ? old_size : size);
        leave(region);
    }
    return moved;
}
