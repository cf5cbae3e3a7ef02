// The flight recorder: the file that a dump writes. Whatever is at the path, the caller goes on: what the kernel would
// end it for is an error that is answered, and nothing is waited for longer than a while.
//
// After a write that fails nothing more is written. (The C library's open, write and close would end a thread that is
// to be cancelled, during the dump; its other calls here don't.)
#define _GNU_SOURCE
#include "recorder.h"

#include <fcntl.h>
#include <poll.h>
#include <stdio.h>

enum { OUTPUT_SIZE = 1 << 16, WRITE_WAIT_MS = 5000 };

static struct {
    int file, fault;
    size_t filled;
    uint8_t bytes[OUTPUT_SIZE];
} out;

// A pipe without a reader, or a terminal, isn't waited for.
static int open_file(const char *path, int flags)
{
    flags |= O_WRONLY | O_CLOEXEC | O_NONBLOCK | O_NOCTTY;
    return (int)syscall(SYS_openat, AT_FDCWD, path, flags, S_IRUSR | S_IWUSR);
}

// Waits until more can be written to a pipe or the like: 0, or why it isn't.
static int await_room(void)
{
    struct pollfd room = {.fd = out.file, .events = POLLOUT};
    struct timespec most = {.tv_sec = WRITE_WAIT_MS / 1000};
    long found = syscall(SYS_ppoll, &room, 1, &most, NULL, 0);
    return found > 0 || (found < 0 && errno == EINTR) ? 0 : found < 0 ? errno : ETIMEDOUT;
}

static void flush(void)
{
    for (size_t at = 0; at < out.filled && !out.fault;) {
        long wrote = syscall(SYS_write, out.file, out.bytes + at, out.filled - at);
        if (wrote > 0)
            at += (size_t)wrote;
        else if (wrote == 0)
            out.fault = EIO;
        else if (errno == EAGAIN)
            out.fault = await_room();
        else if (errno != EINTR)
            out.fault = errno;
    }
    out.filled = 0;
}

void flight_put_bytes(const void *bytes, size_t len)
{
    const uint8_t *at = bytes;
    while (len) {
        size_t part = sizeof out.bytes - out.filled;
        part = part < len ? part : len;
        memcpy(out.bytes + out.filled, at, part);
        out.filled += part;
        at += part;
        len -= part;
        if (out.filled == sizeof out.bytes)
            flush();
    }
}

bool flight_has_output_fault(void)
{
    return out.fault != 0;
}

void flight_fail_output(int fault)
{
    out.fault = out.fault ? out.fault : fault;
}

// Writes to this file, which is open.
static int write_to(int file, void (*put_all)(int signal), int signal)
{
    out.file = file;
    out.fault = 0;
    out.filled = 0;
    put_all(signal);
    flush();
    if (syscall(SYS_close, file) && !out.fault && errno != EINTR)
        out.fault = errno;
    return out.fault;
}

// Whether it is the file that the recorder's rings lie in.
static bool is_own_file(const struct stat *found)
{
    const struct stat *own = &flight_recorder.file_found;
    return flight_recorder.has_file && found->st_dev == own->st_dev && found->st_ino == own->st_ino;
}

// Writes a new file of another name, the path and a ~, which gets the path's name when it is whole. So what is at the
// path is whole, even if the process is killed meanwhile. One that isn't whole stays only if there is none at the path.
static int write_new(const char *path, bool has_file, void (*put_all)(int signal), int signal)
{
    static char other[PATH_MAX];
    struct stat found;
    size_t len = strnlen(path, sizeof other);
    if (len + 2 > sizeof other)
        return ENAMETOOLONG;
    memcpy(other, path, len);
    memcpy(other + len, "~", 2);
    if (!lstat(other, &found) && is_own_file(&found))
        return EEXIST;
    (void)unlink(other);
    int file = open_file(other, O_CREAT | O_EXCL);
    if (file < 0)
        return errno;
    int fault = write_to(file, put_all, signal);
    if (!fault && rename(other, path))
        fault = errno;
    if (fault && has_file)
        (void)unlink(other);
    return fault;
}

// A device, a pipe and other files that hold no bytes are written as they are.
static int write_path(const char *path, void (*put_all)(int signal), int signal)
{
    struct stat found;
    bool is_there = !stat(path, &found);
    if (is_there && is_own_file(&found))
        return EEXIST;
    if (!is_there || S_ISREG(found.st_mode))
        return write_new(path, is_there, put_all, signal);
    int file = open_file(path, 0);
    return file < 0 ? errno : write_to(file, put_all, signal);
}

// The signal that came with this error of a write, which all signals blocked keep pending: it would end the process.
static int signal_of(int fault)
{
    return fault == EPIPE ? SIGPIPE : fault == EFBIG ? SIGXFSZ : 0;
}

// Takes such a signal away again, unless one was pending before.
static void take_signal(int number, const sigset_t *before)
{
    sigset_t one;
    const struct timespec at_once = {0, 0};
    if (!number || sigismember(before, number))
        return;
    sigemptyset(&one);
    sigaddset(&one, number);
    while (sigtimedwait(&one, NULL, &at_once) < 0 && errno == EINTR)
        continue;
}

// Puts the digits of this process's number there, or nothing if there is no room: how many there are.
static size_t put_process(char *to, size_t room)
{
    char digits[16];
    size_t len = 0;
    for (uint32_t left = (uint32_t)getpid(); left; left /= 10)
        digits[len++] = (char)('0' + left % 10);
    for (size_t at = 0; len <= room && at < len; at++)
        to[at] = digits[len - 1 - at];
    return len;
}

bool flight_expand_path(char *to, const char *path)
{
    size_t len = 0;
    while (*path && len < PATH_MAX) {
        bool is_process = path[0] == '%' && path[1] == 'p';
        if (is_process)
            len += put_process(to + len, PATH_MAX - len);
        else
            to[len++] = *path;
        path += is_process ? 2 : 1;
    }
    if (len >= PATH_MAX)
        return false;
    to[len] = 0;
    return true;
}

// (One dump is made at a time.)
int flight_write_path(const char *path, void (*put_all)(int signal), int signal)
{
    static char expanded[PATH_MAX];
    sigset_t before;
    if (!flight_expand_path(expanded, path))
        return ENAMETOOLONG;
    sigemptyset(&before);
    (void)sigpending(&before);
    int fault = write_path(expanded, put_all, signal);
    take_signal(signal_of(fault), &before);
    return fault;
}
