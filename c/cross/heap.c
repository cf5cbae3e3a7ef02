// What the kit's own calls of memory are, for a machine of which it has none (`./tracering-lib --target`).
#define _POSIX_C_SOURCE 200809L
#include "../region/heap.h"

#include <stdlib.h>
#include <string.h>

// The greatest alignment that malloc gives by itself.
enum { MALLOC_ALIGN = 16 };

struct given rattle_alloc(size_t size, size_t align);
struct given rattle_realloc(void *at, size_t old_size, size_t size, size_t align);
void rattle_dealloc(void *at, size_t size, size_t align);

struct given rattle_alloc(size_t size, size_t align)
{
    void *at = NULL;
    if (align <= MALLOC_ALIGN)
        at = malloc(size ? size : 1);
    else if (posix_memalign(&at, align, size ? size : 1))
        at = NULL;
    return (struct given){at != NULL, at};
}

struct given rattle_realloc(void *at, size_t old_size, size_t size, size_t align)
{
    if (align <= MALLOC_ALIGN) {
        void *moved = realloc(at, size ? size : 1);
        return (struct given){moved != NULL, moved};
    }
    struct given given = rattle_alloc(size, align);
    if (given.is_given) {
        memcpy(given.at, at, old_size < size ? old_size : size);
        free(at);
    }
    return given;
}

void rattle_dealloc(void *at, size_t size, size_t align)
{
    (void)size;
    (void)align;
    free(at);
}
