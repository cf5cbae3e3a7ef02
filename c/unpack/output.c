#include "output.h"

#include <errno.h>
#include <string.h>
#include <unistd.h>

void flush(const struct packed *file, struct output *to)
{
    size_t done = 0;
    while (done < to->held) {
        ssize_t written = write(to->fd, to->bytes + done, to->held - done);
        if (written < 0 && errno != EINTR)
            fail(file);
        done += written > 0 ? (size_t)written : 0;
    }
    to->held = 0;
}

void put(const struct packed *file, struct output *to, const void *bytes, size_t len)
{
    const uint8_t *at = bytes;
    to->len += len;
    while (len > 0) {
        if (to->held == to->room)
            flush(file, to);
        size_t part = len < to->room - to->held ? len : to->room - to->held;
        memcpy(to->bytes + to->held, at, part);
        to->held += part;
        at += part;
        len -= part;
    }
}

void put_zeros(const struct packed *file, struct output *to, uint64_t len)
{
    static const uint8_t zeros[4096];
    for (; len > sizeof zeros; len -= sizeof zeros)
        put(file, to, zeros, sizeof zeros);
    put(file, to, zeros, (size_t)len);
}
