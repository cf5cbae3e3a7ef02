/*
 * Preloaded by tests/program/between: stops a program between two readings of its files, and has reads fail. The
 * environment has numbers, from 1, or lacks them:
 *
 *   STOPPED    the program is stopped, by SIGSTOP, when so many times a file was set back to its start
 *   UNREAD     since then the read of a file of that number fails, and those after it
 */
#define _GNU_SOURCE
#include <errno.h>
#include <signal.h>
#include <stdlib.h>
#include <sys/syscall.h>
#include <unistd.h>

static long stopped, unread, rewinds, reads;

static long number_of(const char *name)
{
	const char *text = getenv(name);

	return text ? atol(text) : 0;
}

__attribute__((constructor)) static void begin(void)
{
	stopped = number_of("STOPPED");
	unread = number_of("UNREAD");
}

off_t lseek(int file, off_t offset, int whence)
{
	off_t at = syscall(SYS_lseek, file, offset, whence);

	if (at == 0 && whence == SEEK_SET && ++rewinds == stopped)
		raise(SIGSTOP);
	return at;
}

ssize_t read(int file, void *to, size_t size)
{
	if (file > 2 && unread && stopped && rewinds >= stopped && ++reads >= unread) {
		errno = EIO;
		return -1;
	}
	return syscall(SYS_read, file, to, size);
}
