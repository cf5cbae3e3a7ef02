// Which records are shown: by the thread that wrote them, their time, their level and their text.
#ifndef FLIGHT_SHOW_FILTER_H
#define FLIGHT_SHOW_FILTER_H

#include "arguments.h"
#include "listing.h"
#include "moments.h"

#include <regex.h>

// From when on records pass.
enum since { SINCE_ALWAYS, SINCE_MOMENT, SINCE_TIME, SINCE_TIME_OF_DAY };

struct filter {
    const char *thread; // its name, or its number; null: any
    enum since since;
    uint64_t moment;
    nanoseconds time; // from 1970 on, or of the day
    enum level least; // of this level or a more severe one; LEVEL_NONE: any, also without a level
    bool has_text;
    regex_t text;
    // What is made of a record to be compared.
    struct text *formatted;
    struct arguments *arguments;
};

// Reads a moment's number, a date and a time, or a time of day. False: it is none of them.
bool read_since(struct filter *filter, const char *word);

// Reads a level's name, as it is in lines or in objects. False: it is none.
bool read_level(struct filter *filter, const char *word);

// Reads a regular expression: 0, or regcomp's error.
int read_pattern(struct filter *filter, const char *word);

// A time of day is the last one before the newest of the dumps was made.
void settle_since(struct filter *filter, const struct dump *dumps, size_t count);

// Whether a record is shown. (A filter that is null lets all pass.)
bool passes(const struct filter *filter, const struct dump *dump, const struct record *record);

// Whether records of this thread may be shown, or of one that isn't known.
bool may_pass_thread(const struct filter *filter, const struct lease *lease);

void free_filter(struct filter *filter);

#endif
