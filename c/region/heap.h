// The memory that the library's proved code takes and releases, and the regions that some of it is in.
#ifndef REGION_HEAP_H
#define REGION_HEAP_H

#include <stdbool.h>
#include <stddef.h>
#include <stdint.h>

// What a call of memory answers: whether it was given, and where it is.
struct given {
    uint64_t is_given;
    void *at;
};

// A region that this thread is filling: its next slot, and how many are left.
struct filling {
    unsigned char *next;
    size_t stride; // how many bytes from slot to slot
    size_t body;   // how many bytes are asked for
    size_t left;
    struct used_region *region;
};

// From here on the thread's bodies are the slots of this memory: 1. 0: there is no memory to note that; -1: a ring is
// in it. After 1, tracering_heap_end is called by the same thread.
int tracering_heap_begin(struct filling *filling, void *begin, size_t len);
void tracering_heap_end(struct filling *filling);

// From here on all regions in this memory are as one, so that many take no longer to make and to free than one takes,
// until it is let go. Nobody else makes one there. False: there is no memory to note that.
bool tracering_heap_hold(void *begin, size_t len);
void tracering_heap_let_go(void *begin, size_t len);

// Whether a body is in this memory, or it is held.
bool tracering_heap_has_bodies(const void *begin, size_t len);

// What the proved code calls.
struct given tracering_heap_alloc(size_t size, size_t align);
struct given tracering_heap_realloc(void *at, size_t old_size, size_t size, size_t align);
void tracering_heap_dealloc(void *at, size_t size, size_t align);

#endif
