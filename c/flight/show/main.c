// tracering-flight show FILE.. [--json | --trace-events | --ctf DIR] [--last N] [--thread WHO] [--since TIME]
//     [--level LEVEL] [--grep PATTERN]: shows dumps of flight recorders, and their files.
// tracering-flight --version: prints the library's version.
#include "file.h"
#include "filter.h"
#include "viewers.h"

#include <errno.h>
#include <stdlib.h>
#include <string.h>

enum status { SHOWN = 0, REFUSED = 1, USAGE = 2, FAILED = 4 };

// What is asked for; of words that aren't given null.
struct words {
    const char **files;
    size_t count;
    const char *ctf, *last, *thread, *since, *level, *grep;
    bool json, trace_events;
    size_t most;
};

static int usage(void)
{
    fputs("usage: tracering-flight show FILE.. [--json | --trace-events | --ctf DIR] [--last N] [--thread WHO] "
          "[--since TIME] [--level LEVEL] [--grep PATTERN] | --version\n", stderr);
    return USAGE;
}

static bool read_last(const char *word, size_t *last)
{
    char *end;
    errno = 0;
    unsigned long long number = strtoull(word, &end, 10);
    *last = (size_t)number;
    return *word >= '0' && *word <= '9' && !*end && !errno;
}

// Where the word that follows an option goes, or null: it is none that has one.
static const char **place_of(struct words *words, const char *option)
{
    const struct {
        const char *name;
        const char **place;
    } options[] = {{"--ctf", &words->ctf}, {"--last", &words->last}, {"--thread", &words->thread},
        {"--since", &words->since}, {"--level", &words->level}, {"--grep", &words->grep}};
    for (size_t k = 0; k < sizeof options / sizeof *options; k++)
        if (!strcmp(option, options[k].name))
            return options[k].place;
    return NULL;
}

// Reads an option, or a file's name, at most once each. How many words it takes; 0: it is refused.
static int read_word(struct words *words, char **at, int left)
{
    bool *flag = !strcmp(*at, "--json") ? &words->json : !strcmp(*at, "--trace-events") ? &words->trace_events : NULL;
    const char **place = place_of(words, *at);
    if (flag) {
        bool is_first = !*flag;
        *flag = true;
        return is_first;
    }
    if (place) {
        bool is_first = !*place && left > 1;
        *place = is_first ? at[1] : *place;
        return is_first ? 2 : 0;
    }
    if (**at != '-')
        words->files[words->count++] = *at;
    return **at != '-';
}

static bool read_words(int count, char **at, struct words *words)
{
    *words = (struct words){.files = allocate((size_t)count, sizeof *words->files), .most = SIZE_MAX};
    if (count < 2 || strcmp(at[1], "show"))
        return false;
    for (int k = 2, taken; k < count; k += taken) {
        taken = read_word(words, at + k, count - k);
        if (!taken)
            return false;
    }
    if (words->last && !read_last(words->last, &words->most))
        return false;
    return words->count && words->json + words->trace_events + (words->ctf != NULL) <= 1
        && !(words->ctf && words->count > 1);
}

// Says what is wrong with a word.
static int refuse_word(const char *option, const char *word, const char *why)
{
    fprintf(stderr, "tracering-flight: %s %s: %s\n", option, word, why);
    return USAGE;
}

// Reads what records have to have to be shown.
static int read_filter(const struct words *words, struct filter *filter)
{
    char why[200];
    *filter = (struct filter){.thread = words->thread, .since = SINCE_ALWAYS};
    if (words->since && !read_since(filter, words->since))
        return refuse_word("--since", words->since, "neither HH:MM:SS, nor YYYY-MM-DDTHH:MM:SS, nor a moment");
    if (words->level && !read_level(filter, words->level))
        return refuse_word("--level", words->level, "none of error, warn, info, debug, trace");
    int fault = words->grep ? read_pattern(filter, words->grep) : 0;
    if (fault) {
        (void)regerror(fault, &filter->text, why, sizeof why);
        return refuse_word("--grep", words->grep, why);
    }
    filter->formatted = allocate(1, sizeof *filter->formatted);
    filter->arguments = allocate(1, sizeof *filter->arguments);
    return SHOWN;
}

// Copies a flight file that a program may be writing. False: it is none.
static bool copy_file(const char *name, struct text *file)
{
    size_t len;
    const void *mapped = tracering_region_open(name, &len);
    bool is_one = mapped && is_flight_file((struct bytes){mapped, len});
    if (is_one)
        copy_flight_file(mapped, len, file);
    if (mapped)
        (void)tracering_region_unmap(mapped, len);
    return is_one;
}

static bool read_file(const char *name, struct text *file)
{
    if (copy_file(name, file))
        return true;
    FILE *from = fopen(name, "rb");
    if (!from)
        return false;
    static char part[1 << 16];
    size_t len;
    while ((len = fread(part, 1, sizeof part, from)) > 0)
        add_bytes(file, part, len);
    bool is_read = !ferror(from);
    int number = errno;
    fclose(from);
    errno = number;
    return is_read;
}

static int report(const char *name)
{
    fprintf(stderr, "tracering-flight: %s: %s\n", name, strerror(errno));
    return FAILED;
}

static int show_version(void)
{
    puts("tracering-flight " TRACERING_VERSION);
    return fflush(stdout) || ferror(stdout) ? report("standard output") : SHOWN;
}

static int show_lines(struct dump *dumps, const struct words *words, const struct choice *choice)
{
    struct lines *lines = allocate(1, sizeof *lines);
    struct viewer viewer = words->json ? json_viewer(lines) : text_viewer(lines);
    if (words->trace_events)
        print_trace_events(dumps, words->count, choice);
    else
        list_dumps(dumps, words->count, choice, &viewer);
    free_lines(lines);
    free(lines);
    return fflush(stdout) || ferror(stdout) ? report("standard output") : SHOWN;
}

static int show_ctf(struct dump *dump, const struct words *words, const struct choice *choice)
{
    struct text path = {NULL, 0, 0};
    int status = write_ctf(dump, choice, words->ctf, &path) ? SHOWN : report(path.at ? path.at : words->ctf);
    free_text(&path);
    return status;
}

// Reads a file, whose bytes have to stay.
static int read_dump(struct dump *dump, const char *name, struct text *file)
{
    struct fault fault = {0, ""};
    if (!read_file(name, file))
        return report(name);
    struct bytes bytes = bytes_of(file);
    if (is_flight_file(bytes) ? read_flight_file(dump, bytes, &fault) : dump_read(dump, bytes, &fault))
        return SHOWN;
    fprintf(stderr, "tracering-flight: %s: %s: byte %zu\n", name, fault.text, fault.offset);
    return REFUSED;
}

// Whether the moments of these dumps can be compared with each other, and with what is asked for.
static int check_clocks(const struct dump *dumps, const struct words *words, const struct filter *filter)
{
    bool needs_time = filter->since == SINCE_TIME || filter->since == SINCE_TIME_OF_DAY;
    for (size_t k = 0; k < words->count; k++) {
        bool is_timed = has_time(&dumps[k].process), is_alike = is_timed == has_time(&dumps[0].process);
        const char *why = !is_alike ? "its moments have a time, or none, unlike those of the first file"
            : needs_time && !is_timed ? "its moments have no time, so --since has to be a moment" : NULL;
        if (!why)
            continue;
        fprintf(stderr, "tracering-flight: %s: %s\n", words->files[k], why);
        return REFUSED;
    }
    return SHOWN;
}

static int show_dumps(struct dump *dumps, const struct words *words, struct filter *filter)
{
    bool has_filter = words->thread || words->since || words->level || words->grep;
    struct choice choice = {words->most, has_filter ? filter : NULL};
    int status = check_clocks(dumps, words, filter);
    if (status != SHOWN)
        return status;
    settle_since(filter, dumps, words->count);
    return words->ctf ? show_ctf(dumps, words, &choice) : show_lines(dumps, words, &choice);
}

// Reads all files, and shows them if none is refused.
static int show_files(const struct words *words, struct filter *filter)
{
    struct dump *dumps = allocate(words->count, sizeof *dumps);
    struct text *files = allocate(words->count, sizeof *files);
    int status = SHOWN;
    size_t read = 0;
    for (; read < words->count && status == SHOWN; read++) {
        status = read_dump(&dumps[read], words->files[read], &files[read]);
        dumps[read].name = words->count > 1 ? words->files[read] : NULL;
    }
    if (status == SHOWN)
        status = show_dumps(dumps, words, filter);
    for (size_t k = 0; k < read; k++) {
        dump_free(&dumps[k]);
        free_text(&files[k]);
    }
    free(dumps);
    free(files);
    return status;
}

int main(int count, char **at)
{
    static char buffer[1 << 16];
    struct words words;
    struct filter filter = {.since = SINCE_ALWAYS};
    if (count == 2 && !strcmp(at[1], "--version"))
        return show_version();
    bool are_read = read_words(count, at, &words);
    int status = are_read ? read_filter(&words, &filter) : usage();
    (void)setvbuf(stdout, buffer, _IOFBF, sizeof buffer);
    if (status == SHOWN)
        status = show_files(&words, &filter);
    free_filter(&filter);
    free(words.files);
    return status;
}
