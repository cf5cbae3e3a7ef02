/*
 * Preloaded by tests/program/refuse: the growth with the number in REFUSED, from 1, is refused, and all that come after it if
 * REFUSED_ON is there. A growth is a call of malloc, realloc, posix_memalign or aligned_alloc that the program makes
 * itself, not the C library for it. With REFUSED_OF only those of the thread `main`, or of the `others`, are counted.
 *
 * The thread with the number in UNSTARTED, from 1, isn't started, nor any after it if REFUSED_ON is there; the one with
 * the number in LATE begins when LATE_TIME is over.
 *
 * The file REFUSED_SEEN, of four 8-byte numbers, gets how many growths there were, how many of them were refused, how
 * many blocks the program has and has not freed, and how many threads it asked for.
 */
#define _GNU_SOURCE
#include <dlfcn.h>
#include <errno.h>
#include <fcntl.h>
#include <link.h>
#include <pthread.h>
#include <stdbool.h>
#include <stdint.h>
#include <stdlib.h>
#include <string.h>
#include <sys/mman.h>
#include <unistd.h>

/* In microseconds: a thread that waits meanwhile makes some thousand tries. */
#define LATE_TIME 20000

void *__libc_malloc(size_t);
void *__libc_realloc(void *, size_t);
void *__libc_memalign(size_t, size_t);
void __libc_free(void *);

static uintptr_t low, high;     /* where the program's own code is */
static long refused, unstarted, late;
static bool and_on;
static const char *of;
static pthread_t main_thread;
static long unseen[4], *seen = unseen;

static long number_in(const char *name)
{
	const char *number = getenv(name);

	return number ? atol(number) : 0;
}

static int find_program(struct dl_phdr_info *info, size_t size, void *none)
{
	(void)size;
	(void)none;
	for (int at = 0; at < info->dlpi_phnum; at++) {
		const ElfW(Phdr) *part = &info->dlpi_phdr[at];

		if (part->p_type == PT_LOAD && part->p_flags & PF_X) {
			low = info->dlpi_addr + part->p_vaddr;
			high = low + part->p_memsz;
		}
	}
	return 1;       /* the first one is the program */
}

__attribute__((constructor)) static void begin(void)
{
	const char *name = getenv("REFUSED_SEEN");
	int file = name ? open(name, O_RDWR) : -1;
	void *shared = MAP_FAILED;

	if (file >= 0)
		shared = mmap(NULL, sizeof unseen, PROT_READ | PROT_WRITE, MAP_SHARED, file, 0);
	if (shared != MAP_FAILED)
		seen = shared;
	dl_iterate_phdr(find_program, NULL);
	main_thread = pthread_self();
	and_on = getenv("REFUSED_ON");
	of = getenv("REFUSED_OF");
	unstarted = number_in("UNSTARTED");
	late = number_in("LATE");
	refused = number_in("REFUSED");
}

static bool is_own(void *caller)
{
	uintptr_t at = (uintptr_t)caller;

	return low <= at && at < high;
}

/* Whether the growths of this thread are counted. */
static bool is_counted(void)
{
	return !of || !strcmp(of, "main") == !!pthread_equal(pthread_self(), main_thread);
}

static bool refuse(void *caller)
{
	long growth;

	if (!refused || !is_own(caller) || !is_counted())
		return false;
	growth = __atomic_add_fetch(&seen[0], 1, __ATOMIC_SEQ_CST);
	if (growth != refused && !(and_on && growth > refused))
		return false;
	__atomic_add_fetch(&seen[1], 1, __ATOMIC_SEQ_CST);
	errno = ENOMEM;
	return true;
}

/* Counts one more or one fewer of the program's blocks. */
static void count(void *caller, bool counts, long change)
{
	if (counts && is_own(caller))
		__atomic_add_fetch(&seen[2], change, __ATOMIC_SEQ_CST);
}

#define CALLER __builtin_return_address(0)

static void *aligned(void *caller, size_t align, size_t size)
{
	void *new = refuse(caller) ? NULL : __libc_memalign(align, size);

	count(caller, new, 1);
	return new;
}

void *malloc(size_t size)
{
	void *new = refuse(CALLER) ? NULL : __libc_malloc(size);

	count(CALLER, new, 1);
	return new;
}

void *realloc(void *old, size_t size)
{
	void *new = refuse(CALLER) ? NULL : __libc_realloc(old, size);

	count(CALLER, new && !old, 1);
	return new;
}

void free(void *old)
{
	count(CALLER, old, -1);
	__libc_free(old);
}

void *aligned_alloc(size_t align, size_t size)
{
	return aligned(CALLER, align, size);
}

int posix_memalign(void **out, size_t align, size_t size)
{
	void *new = aligned(CALLER, align, size);

	if (!new)
		return ENOMEM;
	*out = new;
	return 0;
}

/* What a thread that begins late runs. */
struct job {
	void *(*run)(void *);
	void *with;
};

static void *run_late(void *given)
{
	struct job job = *(struct job *)given;

	__libc_free(given);
	usleep(LATE_TIME);
	return job.run(job.with);
}

typedef int start(pthread_t *, const pthread_attr_t *, void *(*)(void *), void *);

int pthread_create(pthread_t *thread, const pthread_attr_t *how, void *(*run)(void *), void *with)
{
	start *next = (start *)dlsym(RTLD_NEXT, "pthread_create");
	long number = __atomic_add_fetch(&seen[3], 1, __ATOMIC_SEQ_CST);
	struct job *job;

	if (unstarted && (number == unstarted || (and_on && number > unstarted)))
		return EAGAIN;
	if (number != late)
		return next(thread, how, run, with);
	job = __libc_malloc(sizeof *job);
	if (!job)
		return EAGAIN;
	*job = (struct job){ run, with };
	return next(thread, how, run_late, job);
}
