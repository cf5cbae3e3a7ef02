// CRC-32C, the checksum of the sections of a dump (docs/formats/files.md, "Flight dump"), and of pieces of streams.
#ifndef FLIGHT_CHECKSUM_H
#define FLIGHT_CHECKSUM_H

#include <stddef.h>
#include <stdint.h>

// What was summed so far, of which the checksum is all bits turned; that of no bytes.
#define CHECKSUM_BEGIN UINT32_MAX

// What eight steps of the checksum make of each byte.
struct checksum_table {
    uint32_t of_byte[8][256]; // also with up to seven bytes of zeros after it
};

static inline void checksum_make(struct checksum_table *table)
{
    for (uint32_t byte = 0; byte < 256; byte++) {
        uint32_t sum = byte;
        for (int bit = 0; bit < 8; bit++)
            sum = sum >> 1 ^ (sum & 1 ? 0x82f63b78 : 0);
        table->of_byte[0][byte] = sum;
    }
    for (int zeros = 1; zeros < 8; zeros++)
        for (uint32_t byte = 0; byte < 256; byte++) {
            uint32_t before = table->of_byte[zeros - 1][byte];
            table->of_byte[zeros][byte] = before >> 8 ^ table->of_byte[0][before & 255];
        }
}

static inline uint32_t checksum_add(const struct checksum_table *table, uint32_t sum, const uint8_t *bytes, size_t len)
{
    for (; len >= 8; bytes += 8, len -= 8) {
        uint32_t next = 0;
        for (int at = 0; at < 8; at++)
            next ^= table->of_byte[7 - at][(uint8_t)(bytes[at] ^ (at < 4 ? sum >> 8 * at : 0))];
        sum = next;
    }
    while (len--)
        sum = sum >> 8 ^ table->of_byte[0][(uint8_t)(sum ^ *bytes++)];
    return sum;
}

#endif
