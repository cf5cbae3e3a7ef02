#include "packed.h"

#include <errno.h>
#include <stdarg.h>
#include <stdio.h>
#include <stdlib.h>
#include <string.h>
#include <unistd.h>

void refuse(const struct packed *file, uint64_t at, const char *format, ...)
{
    va_list values;
    va_start(values, format);
    fprintf(stderr, "tracering: cannot unpack %s: ", file->name);
    vfprintf(stderr, format, values);
    fprintf(stderr, ": byte %llu\n", (unsigned long long)at);
    va_end(values);
    exit(REFUSED);
}

void fail(const struct packed *file)
{
    fprintf(stderr, "tracering: cannot unpack %s: %s\n", file->name, strerror(errno));
    exit(FAILED);
}

void end_without_memory(void)
{
    fputs("tracering: memory was refused\n", stderr);
    exit(NO_MEMORY);
}

void *allocate(size_t len)
{
    void *at = malloc(len ? len : 1);
    if (!at)
        end_without_memory();
    return at;
}

void *with_room(void *list, size_t count, size_t *room, size_t size)
{
    if (count < *room)
        return list;
    *room = 2 * *room + 16;
    list = *room > SIZE_MAX / size ? NULL : realloc(list, *room * size);
    if (!list)
        end_without_memory();
    return list;
}

void read_at(const struct packed *file, uint64_t at, void *bytes, size_t len)
{
    for (size_t done = 0; done < len;) {
        ssize_t more = pread(file->fd, (char *)bytes + done, len - done, (off_t)(file->begin + at + done));
        if (more < 0 && errno != EINTR)
            fail(file);
        if (more == 0)
            refuse(file, at + done, "the file got shorter meanwhile");
        done += more > 0 ? (size_t)more : 0;
    }
}

bool is_packed(struct packed *file)
{
    // The magic, the version, a little-endian machine and its words of eight bytes; then the size of a page.
    static const char front[] = "\x17\x08" "Dtracing" "7\0" "\0\x08", names[][5] = {[ZSTD] = "zstd", [ZLIB] = "zlib"};
    enum { FRONT = sizeof front - 1, NAME = FRONT + 4 };
    char bytes[NAME + sizeof *names];
    if (file->size < sizeof bytes)
        return false;
    read_at(file, 0, bytes, sizeof bytes);
    for (file->algorithm = ZSTD; file->algorithm < ZLIB && memcmp(bytes + NAME, names[file->algorithm], 5);)
        file->algorithm = ZLIB;
    return !memcmp(bytes, front, FRONT) && !memcmp(bytes + NAME, names[file->algorithm], sizeof *names);
}
