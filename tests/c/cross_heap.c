// Calls of memory for a machine of which the kit has none (c/cross/heap.c): each block is aligned as it is asked for,
// and keeps its bytes as it grows and shrinks; what cannot be given is refused, and leaves the block as it is. Ends with
// status 0 if all is so.
#include "../../c/region/heap.h"

#include <stdio.h>
#include <string.h>

struct given rattle_alloc(size_t size, size_t align);
struct given rattle_realloc(void *at, size_t old_size, size_t size, size_t align);
void rattle_dealloc(void *at, size_t size, size_t align);

enum { MOST_ALIGN = 4096 };

static bool is_given(struct given block, size_t align)
{
    return block.is_given == 1 && block.at && (uintptr_t)block.at % align == 0;
}

// Whether the block has the numbers from 1 on.
static bool has(const unsigned char *bytes, size_t size)
{
    for (size_t at = 0; at < size; at++)
        if (bytes[at] != (unsigned char)(at + 1))
            return false;
    return true;
}

static void fill(unsigned char *bytes, size_t size)
{
    for (size_t at = 0; at < size; at++)
        bytes[at] = (unsigned char)(at + 1);
}

// One block of this alignment, through these sizes.
static bool goes_well(size_t align)
{
    static const size_t sizes[] = {0, 1, 7, 64, 5000, 200000, 300, 16, 1};
    struct given block = rattle_alloc(sizes[0], align);
    bool is_well = is_given(block, align);
    for (size_t k = 1; is_well && k < sizeof sizes / sizeof *sizes; k++) {
        size_t before = sizes[k - 1], now = sizes[k];
        block = rattle_realloc(block.at, before, now, align);
        is_well = is_given(block, align) && has(block.at, before < now ? before : now);
        if (is_well)
            fill(block.at, now);
    }
    struct given refused = rattle_realloc(block.at, 1, SIZE_MAX / 2, align);
    is_well = is_well && refused.is_given == 0 && has(block.at, 1);
    rattle_dealloc(block.at, 1, align);
    return is_well && rattle_alloc(SIZE_MAX / 2, align).is_given == 0;
}

int main(void)
{
    for (size_t align = 1; align <= MOST_ALIGN; align *= 2)
        if (!goes_well(align)) {
            fprintf(stderr, "cross_heap: blocks of alignment %zu are otherwise\n", align);
            return 1;
        }
    return 0;
}
