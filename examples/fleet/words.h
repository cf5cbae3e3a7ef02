// The words of a command. A program has a list of those that it knows, with what each means and stands for if it isn't
// given. It refuses with status 2 all others, a word that is given twice, an empty text and a number out of its range.
#ifndef WORDS_H
#define WORDS_H

#include "fleet.h"

#include <getopt.h>

// What a number of seconds, of milliseconds or of events is at most.
enum { A_BILLION = 1000000000 };

enum word_kind { FLAG, TEXT, TEXTS, NUMBER };

struct word {
    const char *name;
    enum word_kind kind;
    const char *value; // null: it isn't given, and nothing stands for it
    const char *help;
    uint64_t least, most; // of a number
    const char **all; // what was given: of TEXTS there may be many
    size_t count;
};

#define FLAG_WORD(name, help) {name, FLAG, NULL, help, 0, 0, NULL, 0}
#define TEXT_WORD(name, value, help) {name, TEXT, value, help, 0, 0, NULL, 0}
#define MANY_WORD(name, help) {name, TEXTS, NULL, help, 0, 0, NULL, 0}
#define NUMBER_WORD(name, value, least, most, help) {name, NUMBER, value, help, least, most, NULL, 0}
#define LAST_WORD {NULL, TEXT, NULL, NULL, 0, 0, NULL, 0}

static struct word *known_words; // the last one has no name

static inline void print_words(FILE *to, const char *about)
{
    fprintf(to, "%s\n", about);
    for (const struct word *each = known_words; each->name; each++)
        fprintf(to, "  --%-14s %s%s%s%s\n", each->name, each->help, each->value ? " (" : "",
            each->value ? each->value : "", each->value ? ")" : "");
}

static inline _Noreturn void refuse_words(const char *word, const char *why)
{
    fprintf(stderr, "%s: %s (--help lists the words)\n", word, why);
    exit(2);
}

static inline struct word *word_named(const char *name)
{
    for (struct word *each = known_words; each->name; each++)
        if (!strcmp(each->name, name))
            return each;
    die(name, "the program asks for a word that it doesn't know");
}

static inline void check_number(const struct word *word, const char *value)
{
    char *end, why[80];
    errno = 0;
    uint64_t number = strtoull(value, &end, 10);
    if (errno || *end || *value < '0' || *value > '9')
        refuse_words(word->name, "it is no number of 64 bits");
    (void)snprintf(why, sizeof why, "it is %" PRIu64 " to %" PRIu64, word->least, word->most);
    if (number < word->least || number > word->most)
        refuse_words(word->name, why);
}

static inline void give_word(struct word *word, const char *value)
{
    if (word->count && word->kind != TEXTS)
        refuse_words(word->name, "it is given twice");
    if (word->kind == NUMBER)
        check_number(word, value);
    else if (word->kind != FLAG && !*value)
        refuse_words(word->name, "it is empty");
    word->value = value;
    word->all = realloc(word->all, (word->count + 1) * sizeof *word->all);
    if (!word->all)
        die("realloc", strerror(errno));
    word->all[word->count++] = value;
}

// Reads the words of a command. `known` is what `text_of` and the others answer from now on.
static inline void read_words(struct word *known, int argc, char **argv, const char *about)
{
    size_t count = 0;
    known_words = known;
    while (known[count].name)
        count++;
    struct option *options = allocated(count + 2, sizeof *options);
    for (size_t k = 0; k < count; k++)
        options[k] = (struct option){known[k].name, known[k].kind == FLAG ? no_argument : required_argument, NULL, 0};
    options[count] = (struct option){"help", no_argument, NULL, 'h'};
    for (int found, at; (found = getopt_long(argc, argv, "", options, &at)) != -1;) {
        if (found == 'h') {
            print_words(stdout, about);
            exit(0);
        }
        if (found)
            exit(2); // (getopt_long has said which word it is)
        give_word(&known[at], optarg ? optarg : "");
    }
    if (optind < argc)
        refuse_words(argv[optind], "it is no word of this program");
    free(options);
}

// What was given, what stands for it, or null.
static inline const char *text_of(const char *name)
{
    return word_named(name)->value;
}

static inline bool is_given(const char *name)
{
    return word_named(name)->count;
}

static inline uint64_t number_of(const char *name)
{
    return strtoull(text_of(name), NULL, 10);
}
#endif
