// Memory for regions: files, shared memory, huge pages.
#define _GNU_SOURCE
#include "heap.h"
#include "tracering_region.h"

#include <errno.h>
#include <fcntl.h>
#include <pthread.h>
#include <signal.h>
#include <stdio.h>
#include <stdlib.h>
#include <string.h>
#include <sys/mman.h>
#include <sys/stat.h>
#include <time.h>
#include <unistd.h>

#ifndef MAP_HUGE_2MB
#define MAP_HUGE_2MB (21 << 26)
#endif
#define HUGE_PAGE ((size_t)2 << 20)

// What mmap answers, with null in place of its own answer to what fails.
static void *mapped(size_t len, int protection, int flags, int file)
{
    void *region = mmap(NULL, len, protection, flags, file, 0);
    return region == MAP_FAILED ? NULL : region;
}

// Takes away a signal that is pending, unless it was before. All signals are blocked.
static void take_signal(int number, const sigset_t *pending)
{
    sigset_t one;
    const struct timespec at_once = {0, 0};
    if (sigismember(pending, number))
        return;
    sigemptyset(&one);
    sigaddset(&one, number);
    while (sigtimedwait(&one, NULL, &at_once) < 0 && errno == EINTR)
        continue;
}

// Allocates the blocks of a file, with all signals blocked: a file system may answer EINTR where one has come, and
// begin again when it is asked again, so that a timer's signals would hold up a large file for ever. (The signal that
// comes with EFBIG would end the process.)
static int allocate(int file, size_t len)
{
    sigset_t all, before, pending;
    sigfillset(&all);
    (void)pthread_sigmask(SIG_SETMASK, &all, &before);
    sigemptyset(&pending);
    (void)sigpending(&pending);
    int fault = posix_fallocate(file, 0, (off_t)len);
    if (fault == EFBIG)
        take_signal(SIGXFSZ, &pending);
    (void)pthread_sigmask(SIG_SETMASK, &before, NULL);
    return fault;
}

// Allocates and maps a file that is new. It is closed in any case.
static void *map_new(int file, size_t len)
{
    void *region = NULL;
    int fault = len ? allocate(file, len) : EINVAL;
    if (!fault && !(region = mapped(len, PROT_READ | PROT_WRITE, MAP_SHARED, file)))
        fault = errno;
    close(file);
    errno = fault ? fault : errno;
    return region;
}

// Names a regular file PATH~, whatever has that name.
static int put_aside(const char *path)
{
    struct stat found;
    if (lstat(path, &found))
        return errno == ENOENT ? 0 : -1;
    if (!S_ISREG(found.st_mode)) {
        errno = EEXIST;
        return -1;
    }
    size_t room = strlen(path) + 2;
    char *aside = malloc(room);
    if (!aside)
        return -1;
    snprintf(aside, room, "%s~", path);
    int answer = rename(path, aside);
    if (answer && errno == ENOENT)
        answer = 0;
    free(aside);
    return answer;
}

// A file that wasn't there: others may make one of the same name meanwhile.
static int make_file(const char *path)
{
    for (;;) {
        int file = open(path, O_RDWR | O_CREAT | O_EXCL | O_CLOEXEC, S_IRUSR | S_IWUSR);
        if (file >= 0 || errno != EEXIST || put_aside(path))
            return file;
    }
}

void *tracering_region_file(const char *path, size_t len)
{
    if (!path || !len) {
        errno = EINVAL;
        return NULL;
    }
    int file = make_file(path);
    if (file < 0)
        return NULL;
    void *region = map_new(file, len);
    if (!region) {
        int fault = errno;
        unlink(path);
        errno = fault;
    }
    return region;
}

void *tracering_region_shared(const char *name, size_t len)
{
    if (!name || !len) {
        errno = EINVAL;
        return NULL;
    }
    int file = shm_open(name, O_RDWR | O_CREAT | O_EXCL, S_IRUSR | S_IWUSR);
    if (file < 0)
        return NULL;
    void *region = map_new(file, len);
    if (!region) {
        int fault = errno;
        shm_unlink(name);
        errno = fault;
    }
    return region;
}

static size_t in_huge_pages(size_t len)
{
    return len + (HUGE_PAGE - len % HUGE_PAGE) % HUGE_PAGE;
}

void *tracering_region_huge(size_t len, bool *is_huge)
{
    if (!len || len > SIZE_MAX - HUGE_PAGE) {
        errno = EINVAL;
        return NULL;
    }
    int flags = MAP_SHARED | MAP_ANONYMOUS, huge = MAP_HUGETLB | MAP_HUGE_2MB;
    void *region = mapped(in_huge_pages(len), PROT_READ | PROT_WRITE, flags | huge, -1);
    if (is_huge)
        *is_huge = region;
    return region ? region : mapped(len, PROT_READ | PROT_WRITE, flags, -1);
}

// Maps a file that is open.
static const void *map_found(int file, size_t *len)
{
    struct stat found;
    if (fstat(file, &found))
        return NULL;
    if (!S_ISREG(found.st_mode) || found.st_size <= 0) {
        errno = EINVAL;
        return NULL;
    }
    const void *region = mapped((size_t)found.st_size, PROT_READ, MAP_SHARED, file);
    if (region)
        *len = (size_t)found.st_size;
    return region;
}

const void *tracering_region_open(const char *path, size_t *len)
{
    if (!path || !len) {
        errno = EINVAL;
        return NULL;
    }
    int file = open(path, O_RDONLY | O_CLOEXEC | O_NONBLOCK);
    if (file < 0)
        return NULL;
    const void *region = map_found(file, len);
    int fault = errno;
    close(file);
    errno = fault;
    return region;
}

int tracering_region_unmap(const void *region, size_t len)
{
    if (!region || !len) {
        errno = EINVAL;
        return -1;
    }
    if (tracering_heap_has_bodies(region, len)) {
        errno = EBUSY;
        return -1;
    }
    void *at = (void *)(uintptr_t)region;
    int answer = munmap(at, len);
    // (Huge pages are unmapped whole.)
    return answer && errno == EINVAL ? munmap(at, in_huge_pages(len)) : answer;
}
