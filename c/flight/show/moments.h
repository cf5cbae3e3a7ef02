// The time of a moment, by the two pairs of both clocks that a dump has.
#ifndef FLIGHT_SHOW_MOMENTS_H
#define FLIGHT_SHOW_MOMENTS_H

#include "dump.h"
#include "text.h"

__extension__ typedef __int128 nanoseconds; // from 1970 on, in UTC

// Whether moments have a time: those of a caller's clock have none.
static inline bool has_time(const struct process *process)
{
    return process->clock != CLOCK_OF_CALLER;
}

// The time of a moment, if moments have one.
nanoseconds time_of(const struct process *process, uint64_t moment);

// Adds the time of day, as in 13:45:07.123456789.
void add_time_of_day(struct text *text, nanoseconds time);

// Adds the date and the time, as in 2026-11-27T13:45:07.123456789Z, with these letters between and after. False: the
// time is beyond the years 1970 to 9999, and nothing was added.
bool add_date(struct text *text, nanoseconds time, const char *between, const char *behind);

#endif
