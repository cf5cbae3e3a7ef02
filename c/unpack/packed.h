// A compressed file of trace-cmd, version 7: what is read of it, and how it is refused.
#ifndef UNPACK_PACKED_H
#define UNPACK_PACKED_H

#include <stdbool.h>
#include <stddef.h>
#include <stdint.h>

enum status { DONE = 0, REFUSED = 1, USAGE = 2, NO_MEMORY = 3, FAILED = 4, NOT_RUN = 127 };

enum algorithm { ZSTD, ZLIB };

// An open file. Offsets count from `begin`, which isn't 0 if the first bytes of standard input were read.
struct packed {
    const char *name; // as it was given
    int fd;
    uint64_t begin, size;
    enum algorithm algorithm;
};

// Compressed bytes of the file, and how many they were before.
struct chunk {
    uint64_t at;
    uint32_t packed, plain;
};

// Whether a file begins as a compressed one does whose algorithm is known; `algorithm` is set then.
bool is_packed(struct packed *file);

// Says why the file can't be unpacked, and ends the program with status 1. `at` is where that is seen.
__attribute__((format(printf, 3, 4))) _Noreturn void refuse(const struct packed *file, uint64_t at, const char *format,
    ...);

// The same of a call that failed, by errno: status 4.
_Noreturn void fail(const struct packed *file);

// Ends the program with status 3.
_Noreturn void end_without_memory(void);

// Memory, or that end.
void *allocate(size_t len);

// The list with room for one thing more. `room` is how many it has room for, at first 0.
void *with_room(void *list, size_t count, size_t *room, size_t size);

// Reads `len` bytes, which are in the file.
void read_at(const struct packed *file, uint64_t at, void *bytes, size_t len);

// Unpacks the file into one without a name, and gives its descriptor, above that of standard error.
int unpack(const struct packed *file);

#endif
