/*
 * Preloaded by tests/program/files: a file system of another kind. FILES has words:
 *
 *   falling, rising    the entries of each folder come in that order of their names
 *   inode              each file has the inode 7
 *   device             a path with /other/ in it leads to another device
 */
#define _GNU_SOURCE
#include <dirent.h>
#include <dlfcn.h>
#include <stdlib.h>
#include <string.h>
#include <sys/stat.h>
#include <sys/syscall.h>
#include <unistd.h>

#define MOST 512

static int is_asked(const char *word)
{
	const char *words = getenv("FILES");

	return words && strstr(words, word);
}

static int by_rising_name(const void *one, const void *two)
{
	const struct dirent64 *const *a = one, *const *b = two;

	return strcmp((*a)->d_name, (*b)->d_name);
}

/* The entries that were read are put in another order: in one call, as the folders of the test are small. */
ssize_t getdents64(int folder, void *entries, size_t size)
{
	ssize_t length = syscall(SYS_getdents64, folder, entries, size);
	struct dirent64 *all[MOST];
	char *copy, *to = entries;
	int count = 0;

	if (length <= 0 || !(is_asked("falling") || is_asked("rising")))
		return length;
	copy = malloc(length);
	memcpy(copy, entries, length);
	for (ssize_t at = 0; at < length && count < MOST; at += all[count++]->d_reclen)
		all[count] = (struct dirent64 *)(copy + at);
	qsort(all, count, sizeof *all, by_rising_name);
	for (int at = 0; at < count; at++) {
		struct dirent64 *entry = all[is_asked("falling") ? count - 1 - at : at];

		memcpy(to, entry, entry->d_reclen);
		to += entry->d_reclen;
	}
	free(copy);
	return length;
}

int statx(int folder, const char *path, int flags, unsigned mask, struct statx *found)
{
	int status = syscall(SYS_statx, folder, path, flags, mask, found);

	if (status == 0 && is_asked("inode"))
		found->stx_ino = 7;
	if (status == 0 && is_asked("device")) {
		found->stx_dev_major = 9;
		found->stx_dev_minor = strstr(path, "/other/") ? 2 : 1;
	}
	return status;
}
