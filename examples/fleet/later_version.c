// For `test`: what a later version of the library might do. It reads version 2 of pieces, which here has the layout of
// version 1, and version 1 as before. (The linker puts this in front of the library's call.)
#include "fleet.h"

int32_t __real_tracering_raw_fleet_add(struct tracering_held *, const uint8_t *, size_t, size_t *,
    struct tracering_stream_fault *);
int32_t __wrap_tracering_raw_fleet_add(struct tracering_held *, const uint8_t *, size_t, size_t *,
    struct tracering_stream_fault *);

enum { VERSION_AT = 8 };

// CRC-32C, a bit at a time.
static uint64_t checksum(const uint8_t *bytes, size_t len)
{
    uint32_t remainder = UINT32_MAX;
    for (size_t at = 0; at < len; at++) {
        remainder ^= bytes[at];
        for (int bit = 0; bit < 8; bit++)
            remainder = remainder >> 1 ^ (remainder & 1 ? 0x82f63b78u : 0);
    }
    return remainder ^ UINT32_MAX;
}

int32_t __wrap_tracering_raw_fleet_add(struct tracering_held *fleet, const uint8_t *bytes, size_t len, size_t *used,
    struct tracering_stream_fault *at)
{
    static uint8_t piece[MOST_PIECE];
    uint64_t stated = len < LEAST_PIECE ? 0 : number_at(bytes, LENGTH_AT);
    bool is_later = stated >= LEAST_PIECE && stated <= MOST_PIECE && stated <= len && bytes[VERSION_AT] == 2
        && !memcmp(bytes, PIECE_LETTERS, 8);
    if (!is_later || number_at(bytes, stated - SUM_BYTES) != checksum(bytes, stated - SUM_BYTES))
        return __real_tracering_raw_fleet_add(fleet, bytes, len, used, at);
    memcpy(piece, bytes, stated);
    piece[VERSION_AT] = 1;
    put_number(piece, stated - SUM_BYTES, checksum(piece, stated - SUM_BYTES));
    return __real_tracering_raw_fleet_add(fleet, piece, stated, used, at);
}
