#include "filter.h"

#include <stdio.h>
#include <stdlib.h>
#include <string.h>

enum { MINUTE = 60, HOUR = 3600, DAY = 86400, SECOND = 1000000000, FRACTION = 9 };

// ---- Reading words.

// Reads exactly this many digits as a number of at most `most`.
static bool read_number(const char **at, int digits, int most, int *number)
{
    *number = 0;
    for (int k = 0; k < digits; k++, (*at)++) {
        if (**at < '0' || **at > '9')
            return false;
        *number = 10 * *number + (**at - '0');
    }
    return *number <= most;
}

static bool skip(const char **at, char letter)
{
    if (**at != letter)
        return false;
    (*at)++;
    return true;
}

// Reads up to nine digits after a second's point.
static bool read_fraction(const char **at, nanoseconds *time)
{
    nanoseconds unit = SECOND / 10;
    const char *begin = *at;
    for (; **at >= '0' && **at <= '9' && *at - begin < FRACTION; (*at)++, unit /= 10)
        *time += unit * (**at - '0');
    return *at > begin;
}

// Reads a time of day: hours and minutes, and seconds and a fraction of them if they are there.
static bool read_time_of_day(const char **at, nanoseconds *time)
{
    int hour, minute, second = 0;
    if (!read_number(at, 2, 23, &hour) || !skip(at, ':') || !read_number(at, 2, 59, &minute))
        return false;
    bool has_second = skip(at, ':');
    if (has_second && !read_number(at, 2, 59, &second))
        return false;
    *time = (nanoseconds)(hour * HOUR + minute * MINUTE + second) * SECOND;
    return !has_second || !skip(at, '.') || read_fraction(at, time);
}

// How many days there are from 1970 to the first day of a month.
static int64_t days_before(int year, int month)
{
    static const int days[] = {0, 31, 59, 90, 120, 151, 181, 212, 243, 273, 304, 334};
    bool is_leap = (year % 4 == 0 && year % 100 != 0) || year % 400 == 0;
    int64_t before = year - 1;
    return 365 * (int64_t)(year - 1970) + (before / 4 - before / 100 + before / 400 - 477) + days[month - 1]
        + (is_leap && month > 2);
}

static bool read_date(const char **at, nanoseconds *time)
{
    int year, month, day;
    if (!read_number(at, 4, 9999, &year) || !skip(at, '-') || !read_number(at, 2, 12, &month) || !skip(at, '-')
        || !read_number(at, 2, 31, &day) || year < 1970 || month < 1 || day < 1)
        return false;
    int64_t days = days_before(year, month) + day - 1;
    int64_t after = month == 12 ? days_before(year + 1, 1) : days_before(year, month + 1);
    *time = (nanoseconds)days * DAY * SECOND;
    return days < after;
}

static bool read_moment(struct filter *filter, const char *word)
{
    filter->moment = 0;
    for (; *word >= '0' && *word <= '9'; word++)
        if (__builtin_mul_overflow(filter->moment, (uint64_t)10, &filter->moment)
            || __builtin_add_overflow(filter->moment, (uint64_t)(*word - '0'), &filter->moment))
            return false;
    filter->since = SINCE_MOMENT;
    return !*word;
}

bool read_since(struct filter *filter, const char *word)
{
    nanoseconds date = 0, time = 0;
    const char *at = word;
    if (*word && strspn(word, "0123456789") == strlen(word))
        return read_moment(filter, word);
    bool has_date = strlen(word) > 4 && word[4] == '-';
    if (has_date && (!read_date(&at, &date) || (!skip(&at, 'T') && !skip(&at, ' '))))
        return false;
    if (!read_time_of_day(&at, &time))
        return false;
    (void)skip(&at, 'Z');
    filter->since = has_date ? SINCE_TIME : SINCE_TIME_OF_DAY;
    filter->time = date + time;
    return !*at;
}

bool read_level(struct filter *filter, const char *word)
{
    for (enum level level = LEVEL_ERROR; level < LEVELS; level++)
        if (!strcmp(word, level_name(level)) || !strcmp(word, level_key(level))) {
            filter->least = level;
            return true;
        }
    return false;
}

int read_pattern(struct filter *filter, const char *word)
{
    int fault = regcomp(&filter->text, word, REG_EXTENDED | REG_NOSUB);
    filter->has_text = !fault;
    return fault;
}

void settle_since(struct filter *filter, const struct dump *dumps, size_t count)
{
    nanoseconds last = 0, day = (nanoseconds)DAY * SECOND;
    if (filter->since != SINCE_TIME_OF_DAY)
        return;
    for (size_t k = 0; k < count; k++)
        if (last < dumps[k].process.dump_time)
            last = dumps[k].process.dump_time;
    filter->time += last / day * day;
    if (filter->time > last)
        filter->time -= day;
    filter->since = SINCE_TIME;
}

// ---- Comparing records.

static bool passes_thread(const struct filter *filter, const struct lease *lease)
{
    char number[16];
    if (!filter->thread)
        return true;
    if (!lease)
        return false;
    snprintf(number, sizeof number, "%u", lease->tid);
    size_t len = strlen(filter->thread);
    return !strcmp(filter->thread, number) || (lease->name.len == len && !memcmp(lease->name.at, filter->thread, len));
}

static bool passes_time(const struct filter *filter, const struct dump *dump, const struct record *record)
{
    if (filter->since == SINCE_MOMENT)
        return record->moment >= filter->moment;
    return filter->since == SINCE_ALWAYS || time_of(&dump->process, record->moment) >= filter->time;
}

// (The most severe level is the first one.)
static bool passes_level(const struct filter *filter, const struct record *record)
{
    enum level level = record->site ? record->site->level : LEVEL_NONE;
    return filter->least == LEVEL_NONE || (level != LEVEL_NONE && level <= filter->least);
}

// (The text is as it is shown: without control characters, so it has no zero.)
static bool passes_text(const struct filter *filter, const struct record *record)
{
    struct text shown = {NULL, 0, 0};
    if (!filter->has_text)
        return true;
    filter->formatted->len = 0;
    add_line_text(&shown, record, filter->formatted, filter->arguments);
    add_bytes(&shown, "", 1);
    bool has = !regexec(&filter->text, shown.at, 0, NULL, 0);
    free_text(&shown);
    return has;
}

bool passes(const struct filter *filter, const struct dump *dump, const struct record *record)
{
    return !filter || (passes_thread(filter, record->lease) && passes_time(filter, dump, record)
        && passes_level(filter, record) && passes_text(filter, record));
}

bool may_pass_thread(const struct filter *filter, const struct lease *lease)
{
    return !filter || !lease || passes_thread(filter, lease);
}

void free_filter(struct filter *filter)
{
    if (filter->has_text)
        regfree(&filter->text);
    if (filter->formatted)
        free_text(filter->formatted);
    free(filter->formatted);
    free(filter->arguments);
}
