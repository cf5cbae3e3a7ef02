// What a flight file has to have after its program was killed, or while that runs: the account of the tools that kill
// such programs. The file is read by the sources of `tracering-flight`, with a viewer of its own. Each event says which
// site it is, under which name its thread records, and the how manieth of the thread's own code or handlers it is.
#ifndef FLIGHT_FILE_ACCOUNT_H
#define FLIGHT_FILE_ACCOUNT_H

#include "../../c/flight/show/arguments.h"
#include "../../c/flight/show/file.h"
#include "../../c/flight/show/listing.h"
#include "tracering_flight.h"

#include <stdio.h>
#include <stdlib.h>
#include <string.h>

enum { SITES = 64, MOST_NAMES = 1 << 16, SHARED_NAME = 24 };

// What a program counts in memory that outlives it. A name is a thread, or a part of its life.
struct truth {
    uint64_t is_started;
    uint64_t begun, returned; // events of all threads
    uint64_t names;
    uint64_t own[MOST_NAMES]; // how many events of the thread's own code returned under this name
};

static struct truth *truth;

static inline void count(uint64_t *number)
{
    (void)__atomic_fetch_add(number, 1, __ATOMIC_SEQ_CST);
}

static inline uint64_t seen(const uint64_t *number)
{
    return __atomic_load_n(number, __ATOMIC_SEQ_CST);
}

static _Noreturn inline void bad(const char *what, uint64_t a, uint64_t b)
{
    fprintf(stderr, "flight-file: %s (%llu, %llu)\n", what, (unsigned long long)a, (unsigned long long)b);
    fflush(NULL);
    abort();
}

static inline void want(bool is_so, const char *what, uint64_t a, uint64_t b)
{
    if (!is_so)
        bad(what, a, b);
}

// ---- The sites.

#define SITE(n) \
    static __attribute__((noinline)) void site_##n(const char *who, const char *what, unsigned long number) \
    { \
        TRACE("site " #n " of %s: %s %lu, %u", who, what, number, n); \
    }
#define EIGHT(m, n) m(n##0) m(n##1) m(n##2) m(n##3) m(n##4) m(n##5) m(n##6) m(n##7)
#define EACH(m) EIGHT(m, 1) EIGHT(m, 2) EIGHT(m, 3) EIGHT(m, 4) EIGHT(m, 5) EIGHT(m, 6) EIGHT(m, 7) EIGHT(m, 8)
#define NAMED(n) site_##n,
EACH(SITE)
static void (*const sites[SITES])(const char *, const char *, unsigned long) = {EACH(NAMED)};

// ---- The account of one reading.

struct account {
    uint64_t listed, missing, unnamed, rings_written;
    uint64_t refused, lost;
    uint64_t next[CPUS];               // of a ring: the number after its last record
    uint64_t present[CPUS];
    uint64_t own[MOST_NAMES];          // of a name: the number after the last event of its own code that is listed
    struct text text;
    struct arguments arguments;
};

static void on_head(void *self, const struct dump *dump)
{
    (void)self;
    want(dump->process.is_file, "no flight file", 0, 0);
}

// A record's text is that of its site, and says the name that it is listed under.
static void on_record(void *self, const struct dump *dump, const struct record *record)
{
    (void)dump;
    struct account *account = (struct account *)self;
    char who[SHARED_NAME], what[8], name[SHARED_NAME] = "";
    unsigned site, same, at;
    unsigned long number;
    account->text.len = 0;
    format_record(&account->text, record, &account->arguments);
    add_bytes(&account->text, "", 1);
    account->listed++;
    int read = sscanf(account->text.at, "site %u of %23[^:]: %7s %lu, %u", &site, who, what, &number, &same);
    if (read != 5 || site != same) {
        fprintf(stderr, "flight-file: %s\n", account->text.at);
        bad("a wrong text", record->ring->number, record->number);
    }
    uint64_t *next = &account->next[record->ring->number];
    bool follows = !account->present[record->ring->number] || *next == record->number;
    want(follows, "a gap", *next, record->number);
    *next = record->number + 1;
    account->present[record->ring->number]++;
    if (!record->lease) {
        account->unnamed++;
        want(record->ring->lease_count >= SLOT_MOST_LEASES - 1, "a record without a name", record->number,
            record->ring->lease_count);
        return;
    }
    want(record->lease->name.len < sizeof name, "a name's length", record->lease->name.len, 0);
    memcpy(name, record->lease->name.at, record->lease->name.len);
    if (strcmp(name, who)) {
        fprintf(stderr, "flight-file: %s under the name %s\n", account->text.at, name);
        bad("another thread's name", record->ring->number, record->number);
    }
    if (strcmp(what, "own"))
        return;
    want(sscanf(name, "n%u", &at) == 1 && at < MOST_NAMES, "a name", 0, 0);
    follows = !account->own[at] || account->own[at] == number;
    want(follows, "an event of a thread lacks", account->own[at], number);
    account->own[at] = number + 1;
}

static void on_gap(void *self, const struct dump *dump, const struct gap *gap)
{
    (void)dump;
    struct account *account = (struct account *)self;
    account->missing += gap->last - gap->first + 1;
}

static void on_loss(void *self, const struct dump *dump, const struct loss *loss)
{
    (void)dump;
    struct account *account = (struct account *)self;
    switch (loss->kind) {
    case LOSS_OVERWRITTEN: account->lost += loss->count; break;
    case LOSS_REFUSED: account->refused += loss->count; break;
    case LOSS_NO_RING: account->refused += loss->count; break;
    default:
        fprintf(stderr, "flight-file: %s: %s: byte %zu\n", loss->what ? loss->what : "", loss->why ? loss->why : "",
            loss->offset);
        bad("a damage", loss->kind, loss->count);
    }
}

static void on_end(void *self, size_t losses)
{
    (void)self;
    (void)losses;
}

// Reads a file that is mapped, and answers whether it is one.
static bool holds(const void *mapped, size_t len, struct account *account)
{
    static struct dump dump;
    struct text copy = {NULL, 0, 0};
    struct fault fault = {0, ""};
    uint64_t returned = seen(&truth->returned);
    memset(account, 0, sizeof *account);
    if (!is_flight_file((struct bytes){(const uint8_t *)mapped, len}))
        return false;
    copy_flight_file((const uint8_t *)mapped, len, &copy);
    if (!read_flight_file(&dump, bytes_of(&copy), &fault)) {
        fprintf(stderr, "flight-file: %s: byte %zu\n", fault.text, fault.offset);
        bad("a file is refused", fault.offset, 0);
    }
    struct viewer viewer = {account, on_head, on_record, on_gap, on_loss, on_end};
    list_dumps(&dump, 1, &(struct choice){SIZE_MAX, NULL}, &viewer);
    for (size_t k = 0; k < dump.ring_count; k++)
        account->rings_written += dump.rings[k].written;
    uint64_t begun = seen(&truth->begun), there = account->rings_written + account->refused;
    want(account->missing == account->lost, "gaps that aren't counted", account->missing, account->lost);
    want(account->listed + account->missing == account->rings_written, "records that aren't counted", account->listed,
        account->rings_written);
    want(there >= returned, "an event that had returned isn't there", there, returned);
    want(there <= begun, "events that weren't", there, begun);
    dump_free(&dump);
    free_text(&copy);
    free_text(&account->text);
    return true;
}

#endif
