/* Preloaded by tests/program/progress: each time that the clock is read, it is a second later. */
#define _GNU_SOURCE
#include <time.h>

int clock_gettime(clockid_t clock, struct timespec *now)
{
	static long seconds;

	(void)clock;
	now->tv_sec = ++seconds;
	now->tv_nsec = 0;
	return 0;
}
