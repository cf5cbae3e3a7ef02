// Where unpacked bytes go: a file, or memory.
#ifndef UNPACK_OUTPUT_H
#define UNPACK_OUTPUT_H

#include "packed.h"

struct output {
    int fd;         // -1: to `bytes` alone
    uint64_t len;   // of all that was put
    uint8_t *bytes; // what isn't written yet
    size_t held, room;
};

void put(const struct packed *file, struct output *to, const void *bytes, size_t len);
void put_zeros(const struct packed *file, struct output *to, uint64_t len);

// Writes what isn't written yet.
void flush(const struct packed *file, struct output *to);

// Puts what a chunk has been, which is as long as it states, or refuses the file.
void put_chunk(const struct packed *file, struct output *to, const struct chunk *chunk);

#endif
