// Bytes of the file, which stay where they were read, and numbers in them.
#ifndef FLIGHT_SHOW_BYTES_H
#define FLIGHT_SHOW_BYTES_H

#include <stddef.h>
#include <stdint.h>

struct bytes {
    const uint8_t *at;
    size_t len;
};

// The number that these bytes are, the lowest byte first; 8 of them at most.
static inline uint64_t number_at(const uint8_t *at, size_t len)
{
    uint64_t number = 0;
    for (size_t k = len; k > 0; k--)
        number = number << 8 | at[k - 1];
    return number;
}

static inline uint32_t number32_at(const uint8_t *at)
{
    return (uint32_t)number_at(at, 4);
}

static inline uint64_t number64_at(const uint8_t *at)
{
    return number_at(at, 8);
}

#endif
