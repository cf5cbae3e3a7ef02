/*
 * Preloaded by tests/program/ends: standard input and output that fail. ENDS has a way and the number of a call, from 1:
 *
 *   read-fails, write-fails             that call and all after it fail
 *   read-fails-once, write-fails-once   that call fails, and the others work
 *   write-none, write-none-once         the same, with a write that takes nothing for one that fails
 *
 * A call that works moves one byte. The file ENDS_SEEN, of two 8-byte numbers, gets how many calls of that end were
 * made, and how many of them after the first that failed or took nothing.
 */
#define _GNU_SOURCE
#include <errno.h>
#include <fcntl.h>
#include <stdlib.h>
#include <string.h>
#include <sys/mman.h>
#include <sys/syscall.h>
#include <unistd.h>

static char way[32];
static long number;
static long *seen;      /* the calls, and those after the first failure */

__attribute__((constructor)) static void begin(void)
{
	const char *ends = getenv("ENDS"), *space = ends ? strchr(ends, ' ') : NULL;
	int file = open(getenv("ENDS_SEEN"), O_RDWR);

	if (!space || file < 0)
		abort();
	memcpy(way, ends, space - ends);
	number = atol(space);
	seen = mmap(NULL, 2 * sizeof(long), PROT_READ | PROT_WRITE, MAP_SHARED, file, 0);
	if (seen == MAP_FAILED)
		abort();
	close(file);
}

/* Whether this call of the end, "read" or "write", fails. */
static int is_refused(const char *end)
{
	long call;

	if (strncmp(way, end, strlen(end)))
		return 0;
	call = ++seen[0];
	if (call > number)
		seen[1]++;
	return strstr(way, "once") ? call == number : call >= number;
}

ssize_t read(int from, void *to, size_t size)
{
	if (from == 0 && is_refused("read")) {
		errno = EIO;
		return -1;
	}
	return syscall(SYS_read, from, to, from == 0 && size ? 1 : size);
}

ssize_t write(int to, const void *from, size_t size)
{
	if (to == 1 && is_refused("write")) {
		if (strstr(way, "none"))
			return 0;
		errno = EIO;
		return -1;
	}
	return syscall(SYS_write, to, from, to == 1 && size ? 1 : size);
}

ssize_t __write(int to, const void *from, size_t size)
{
	return write(to, from, size);
}
