// The files of a collector's log (docs/formats/files.md, "Log of a collector"): a folder with pieces in NNNNNN.log, and
// for each of these an index by moment and CPU, which is made from it.
#ifndef LOG_FILES_H
#define LOG_FILES_H

#include "page_words.h"

#include <dirent.h>

struct index_entry {
    uint64_t at, least, greatest; // where the piece begins, and the moments of its records
    uint64_t stream;
    uint32_t cpu, len;
    uint64_t sum; // of all that (FNV-1a)
};

enum { FILE_NAME = 64 };

static inline const char *log_name(char *name, uint64_t number, const char *suffix)
{
    (void)snprintf(name, FILE_NAME, "%06" PRIu64 ".%s", number, suffix);
    return name;
}

static inline uint64_t sum_of(const struct index_entry *entry)
{
    const uint8_t *bytes = (const void *)entry;
    uint64_t sum = UINT64_C(14695981039346656037);
    for (size_t k = 0; k < offsetof(struct index_entry, sum); k++)
        sum = (sum ^ bytes[k]) * UINT64_C(1099511628211);
    return sum;
}

// What the index says of a piece. A mark, and a parcel without a record, have all moments.
static inline struct index_entry entry_of(const uint8_t *piece, size_t len, uint64_t at)
{
    struct index_entry entry = {at, 0, UINT64_MAX, number_at(piece, STREAM_AT), (uint32_t)number_at(piece, CPU_AT),
        (uint32_t)len, 0};
    struct page_span span = {.count = 0};
    if (kind_of(piece) == KIND_PARCEL)
        span = span_of_piece(piece);
    if (span.count) {
        entry.least = span.least;
        entry.greatest = span.greatest;
    }
    entry.sum = sum_of(&entry);
    return entry;
}

// The number of a file's name with this suffix, or 0. (The first one is 1.)
static inline uint64_t number_of_name(const char *name, const char *suffix)
{
    char *end;
    uint64_t number = *name >= '0' && *name <= '9' ? strtoull(name, &end, 10) : 0;
    return number && *end == '.' && !strcmp(end + 1, suffix) ? number : 0;
}

static inline int by_number(const void *one, const void *two)
{
    uint64_t a = *(const uint64_t *)one, b = *(const uint64_t *)two;
    return (a > b) - (a < b);
}

// The numbers of all files of a folder with this suffix, rising; `count` is set. The caller frees them.
static inline uint64_t *numbers_of(const char *folder, const char *suffix, size_t *count)
{
    DIR *from = opendir(folder);
    uint64_t *numbers = NULL;
    *count = 0;
    if (!from)
        die(folder, strerror(errno));
    for (struct dirent *each; (each = readdir(from));) {
        uint64_t number = number_of_name(each->d_name, suffix);
        if (!number)
            continue;
        numbers = realloc(numbers, (*count + 1) * sizeof *numbers);
        if (!numbers)
            die("realloc", strerror(errno));
        numbers[(*count)++] = number;
    }
    (void)closedir(from);
    if (*count)
        qsort(numbers, *count, sizeof *numbers, by_number);
    return numbers;
}

// A file's bytes, to be read only; of an empty one null. The file stays open as `file`.
static inline const uint8_t *mapped_at(int folder, const char *name, int flags, int *file, size_t *len)
{
    struct stat is;
    *file = openat(folder, name, flags | O_CLOEXEC, 0644);
    if (*file < 0 || fstat(*file, &is))
        die(name, strerror(errno));
    *len = (size_t)is.st_size;
    void *bytes = *len ? mmap(NULL, *len, PROT_READ, MAP_PRIVATE, *file, 0) : NULL;
    if (bytes == MAP_FAILED)
        die(name, strerror(errno));
    return bytes;
}

static inline void unmap(const uint8_t *bytes, size_t len)
{
    if (len && munmap((void *)(uintptr_t)bytes, len))
        die("munmap", strerror(errno));
}

static inline FILE *opened_at(int folder, const char *name, int flags, const char *mode)
{
    int file = openat(folder, name, flags | O_CLOEXEC, 0644);
    FILE *opened = file < 0 ? NULL : fdopen(file, mode);
    if (!opened)
        die(name, strerror(errno));
    return opened;
}

static inline void write_all(FILE *file, const void *bytes, size_t len, const char *name)
{
    if (len && fwrite(bytes, len, 1, file) != 1)
        die(name, strerror(errno));
}

// Once it returns, what was written is lasting.
static inline void make_lasting(FILE *file, const char *name)
{
    if (fflush(file) || fdatasync(fileno(file)))
        die(name, strerror(errno));
}

static inline void rename_at(int folder, const char *from, const char *to)
{
    if (renameat(folder, from, folder, to) || fsync(folder))
        die(to, strerror(errno));
}
#endif
