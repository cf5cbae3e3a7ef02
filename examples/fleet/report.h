// What a program says while it runs: faults, on standard error, and counts, in Prometheus' text format: in a file that
// is replaced every few seconds (its node exporter's textfile collector reads it, if the file's name ends with .prom),
// and on a port (metrics_port.h).
#ifndef REPORT_H
#define REPORT_H

#include "words.h"

struct metric {
    const char *name, *type, *help; // `type` is counter or gauge
    atomic_uint_fast64_t value;
};

#define REPORT_WORDS \
    TEXT_WORD("metrics", NULL, "file for the counts in Prometheus' text format"), \
    NUMBER_WORD("metrics-every", "5", 1, A_BILLION, "seconds from one to the next"), \
    NUMBER_WORD("metrics-port", NULL, 0, UINT16_MAX, \
        "port of 127.0.0.1 that has them too, at /metrics; 0: any, which is said")

// ---- Faults: a text is said at once, and then once a minute as long as it comes again.

enum { FAULT_TEXT = 256, FAULT_TEXTS = 16 };

struct fault_text {
    char text[FAULT_TEXT];
    double said;
    uint64_t times;
};

static struct {
    pthread_mutex_t lock;
    struct fault_text texts[FAULT_TEXTS];
    char last[FAULT_TEXT];
    time_t moment; // of the last one
    uint64_t count;
} faults = {.lock = PTHREAD_MUTEX_INITIALIZER};

// The place of a text among those that were said: its own, or the one that was said the longest ago.
static inline struct fault_text *fault_place(const char *text)
{
    struct fault_text *oldest = &faults.texts[0];
    for (struct fault_text *each = faults.texts; each < faults.texts + FAULT_TEXTS; each++) {
        if (!strcmp(each->text, text))
            return each;
        if (each->said < oldest->said)
            oldest = each;
    }
    *oldest = (struct fault_text){.text = ""};
    return oldest;
}

// Any thread may call it.
static inline void report(const char *what, const char *why)
{
    char text[FAULT_TEXT];
    (void)snprintf(text, sizeof text, "%s: %s", what, why);
    text[strcspn(text, "\n")] = 0;
    pthread_mutex_lock(&faults.lock);
    struct fault_text *place = fault_place(text);
    double now = seconds_now();
    faults.count++;
    place->times++;
    faults.moment = time(NULL);
    memcpy(faults.last, text, sizeof text);
    if (!*place->text || now > place->said + 60) {
        if (place->times > 1)
            fprintf(stderr, "%s (%" PRIu64 " times)\n", text, place->times);
        else
            fprintf(stderr, "%s\n", text);
        memcpy(place->text, text, sizeof text);
        place->said = now;
        place->times = 0;
    }
    pthread_mutex_unlock(&faults.lock);
}

// ---- Counts.

static inline void print_metric(FILE *to, const char *name, const char *type, const char *help, uint64_t value)
{
    fprintf(to, "# HELP tracering_%s %s\n# TYPE tracering_%s %s\ntracering_%s %" PRIu64 "\n", name, help, name, type,
        name, value);
}

// The last fault, whose text is a label.
static inline void print_faults(FILE *to)
{
    pthread_mutex_lock(&faults.lock);
    print_metric(to, "faults_total", "counter", "Faults of the bus and of files.", faults.count);
    print_metric(to, "last_fault_seconds", "gauge", "When the last fault was, in seconds since 1970; 0: none.",
        (uint64_t)faults.moment);
    fprintf(to, "# HELP tracering_last_fault_info The last fault's text.\n# TYPE tracering_last_fault_info gauge\n"
        "tracering_last_fault_info{text=\"");
    for (const char *at = faults.last; *at; at++)
        fprintf(to, *at == '"' || *at == '\\' ? "\\%c" : "%c", (unsigned char)*at < ' ' ? ' ' : *at);
    fprintf(to, "\"} 1\n");
    pthread_mutex_unlock(&faults.lock);
}

static inline void print_metrics(FILE *to, const struct metric *metrics)
{
    for (const struct metric *each = metrics; each->name; each++)
        print_metric(to, each->name, each->type, each->help, each->value);
    print_faults(to);
}

// Replaces the file of counts. Who reads it meanwhile has the former one, or the new one whole.
static inline void write_metrics(const struct metric *metrics)
{
    const char *path = text_of("metrics");
    char made[4096];
    if (!path)
        return;
    if (snprintf(made, sizeof made, "%s~", path) >= (int)sizeof made)
        die(path, strerror(ENAMETOOLONG));
    FILE *to = fopen(made, "w");
    if (!to) {
        report(made, strerror(errno));
        return;
    }
    print_metrics(to, metrics);
    bool is_written = !ferror(to);
    if (fclose(to) || !is_written || rename(made, path))
        report(path, strerror(errno));
}

// Whether it is time to look at the counts again, and to write them.
static inline bool are_metrics_due(void)
{
    static double next;
    if (!(text_of("metrics") || text_of("metrics-port")) || seconds_now() < next)
        return false;
    next = seconds_now() + (double)number_of("metrics-every");
    return true;
}
#endif
