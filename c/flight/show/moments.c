#include "moments.h"

#include <time.h>

enum { SECOND = 1000000000, DAY = 86400 };

nanoseconds time_of(const struct process *process, uint64_t moment)
{
    nanoseconds after = (nanoseconds)moment - process->dump_moment;
    nanoseconds ticks = (nanoseconds)process->dump_moment - process->start_moment;
    nanoseconds passed = (nanoseconds)process->dump_time - process->start_time;
    nanoseconds most = (nanoseconds)1 << 62; // so that the product fits
    bool has_rate = process->clock == CLOCK_OF_TSC && ticks > 0 && passed > 0 && passed < most;
    if (!has_rate)
        return process->dump_time + after;
    // Rounded down before the dump, too, so that a later moment never has an earlier time.
    nanoseconds scaled = after * passed, whole = scaled / ticks;
    return process->dump_time + whole - (scaled % ticks < 0);
}

void add_time_of_day(struct text *text, nanoseconds time)
{
    nanoseconds day = (nanoseconds)DAY * SECOND;
    uint64_t of_day = (uint64_t)((time % day + day) % day);
    unsigned second = (unsigned)(of_day / SECOND);
    add_format(text, "%02u:%02u:%02u.%09u", second / 3600, second / 60 % 60, second % 60, (unsigned)(of_day % SECOND));
}

bool add_date(struct text *text, nanoseconds time, const char *between, const char *behind)
{
    static const nanoseconds year_10000 = (nanoseconds)253402300800 * SECOND;
    struct tm parts;
    if (time < 0 || time >= year_10000)
        return false;
    time_t seconds = (time_t)(time / SECOND);
    if (!gmtime_r(&seconds, &parts))
        return false;
    add_format(text, "%04d-%02d-%02d%s", parts.tm_year + 1900, parts.tm_mon + 1, parts.tm_mday, between);
    add_time_of_day(text, time);
    add_string(text, behind);
    return true;
}
