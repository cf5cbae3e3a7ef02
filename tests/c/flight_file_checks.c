// The checks of flight files: `flight_file_checks FOLDER`. Each case runs in a process of its own; its parent reads
// what that left by the sources of `tracering-flight`.
#define _GNU_SOURCE
#include "../../c/flight/show/arguments.h"
#include "../../c/flight/show/file.h"
#include "../../c/flight/show/listing.h"
#include "tracering_flight.h"

#include <errno.h>
#include <fcntl.h>
#include <pthread.h>
#include <signal.h>
#include <stdio.h>
#include <stdlib.h>
#include <string.h>
#include <sys/mman.h>
#include <sys/prctl.h>
#include <sys/resource.h>
#include <sys/stat.h>
#include <sys/syscall.h>
#include <sys/wait.h>
#include <unistd.h>

enum { MOST_TEXTS = 4000, TEXT_SIZE = 100 };

static char path[200], aside[201], dump_path[200];

static void want(bool is_so, const char *what, uint64_t at)
{
    if (is_so)
        return;
    fprintf(stderr, "flight-file: %s (%llu)\n", what, (unsigned long long)at);
    abort();
}

// ---- What a file has.

struct listed {
    struct dump dump;
    size_t count;
    char texts[MOST_TEXTS][TEXT_SIZE];
    uint64_t losses[LOSS_KINDS];
    struct text text, copy;
    struct arguments arguments;
};
static struct listed listed;

static void on_head(void *self, const struct dump *dump)
{
    (void)self;
    (void)dump;
}

static void on_record(void *self, const struct dump *dump, const struct record *record)
{
    (void)dump;
    (void)self;
    want(listed.count < MOST_TEXTS, "too many records", listed.count);
    listed.text.len = 0;
    format_record(&listed.text, record, &listed.arguments);
    snprintf(listed.texts[listed.count++], TEXT_SIZE, "%.*s", (int)listed.text.len, listed.text.at);
}

static void on_gap(void *self, const struct dump *dump, const struct gap *gap)
{
    (void)self;
    (void)dump;
    (void)gap;
}

static void on_loss(void *self, const struct dump *dump, const struct loss *loss)
{
    (void)dump;
    (void)self;
    listed.losses[loss->kind] += loss->count;
}

static void on_end(void *self, size_t losses)
{
    (void)self;
    (void)losses;
}

// Lists the file at this path, or answers that it is refused. What is listed stays until the next one is.
static bool list_or_refuse(const char *at)
{
    struct viewer viewer = {NULL, on_head, on_record, on_gap, on_loss, on_end};
    struct fault fault = {0, ""};
    size_t len;
    memset(&listed, 0, sizeof listed);
    const void *mapped = tracering_region_open(at, &len);
    want(mapped, "no file", (uint64_t)errno);
    if (!is_flight_file((struct bytes){mapped, len})) {
        snprintf(listed.texts[0], TEXT_SIZE, "no flight file");
        want(!tracering_region_unmap(mapped, len), "it isn't unmapped", (uint64_t)errno);
        return false;
    }
    copy_flight_file(mapped, len, &listed.copy);
    want(!tracering_region_unmap(mapped, len), "it isn't unmapped", (uint64_t)errno);
    bool is_read = read_flight_file(&listed.dump, bytes_of(&listed.copy), &fault);
    if (is_read)
        list_dumps(&listed.dump, 1, &(struct choice){SIZE_MAX, NULL}, &viewer);
    else
        snprintf(listed.texts[0], TEXT_SIZE, "%s: %zu", fault.text, fault.offset);
    dump_free(&listed.dump);
    free_text(&listed.copy);
    free_text(&listed.text);
    return is_read;
}

static void list(const char *at)
{
    want(list_or_refuse(at), listed.texts[0], 0);
}

static uint64_t lost(void)
{
    uint64_t all = 0;
    for (int kind = 0; kind < LOSS_KINDS; kind++)
        all += listed.losses[kind];
    return all;
}

static void want_text(size_t at, const char *text)
{
    if (at < listed.count && !strcmp(listed.texts[at], text))
        return;
    fprintf(stderr, "flight-file: %s, and not %s\n", text, at < listed.count ? listed.texts[at] : "none");
    abort();
}

// ---- Cases.

// (Not a part of a function whose thread is cancelled: AddressSanitizer keeps what it knows of that one's variables.)
static __attribute__((noinline)) void start(const char *file)
{
    struct flight_config config = {.file = file};
    int fault = flight_start(&config);
    want(!fault, "no start", (uint64_t)fault);
}

static int start_with(const char *file, uint32_t threads)
{
    struct flight_config config = {.file = file, .threads = threads};
    return flight_start(&config);
}

static void record(int from, int to)
{
    for (int number = from; number < to; number++)
        TRACE("event %d of %s", number, "it");
}

static int run(void (*body)(void))
{
    int status;
    fflush(NULL);
    pid_t child = fork();
    want(child >= 0, "no process", 0);
    if (!child) {
        (void)prctl(PR_SET_PDEATHSIG, SIGKILL);
        body();
        _exit(0);
    }
    want(waitpid(child, &status, 0) == child, "no end", 0);
    return status;
}

static void run_well(void (*body)(void))
{
    int status = run(body);
    want(WIFEXITED(status) && !WEXITSTATUS(status), "a case doesn't end well", (uint64_t)status);
}

static void begin_again_body(void)
{
    start(path);
    record(0, 3);
    (void)raise(SIGKILL);
}

static void stop_body(void)
{
    start(path);
    record(10, 14);
    list(path);
    want(listed.count == 4 && !lost() && !listed.dump.process.has_ended, "what runs", listed.count);
    want(!flight_stop(), "no stop", 0);
    list(path);
    want(listed.count == 4 && !lost() && listed.dump.process.has_ended, "a clean end", listed.count);
    // Sites keep their ids, so they are in the next file, too.
    start(path);
    record(20, 22);
    (void)raise(SIGKILL);
}

// A program that is begun again keeps what it left.
static void begin_again(void)
{
    struct stat found;
    (void)unlink(aside);
    (void)run(begin_again_body);
    want(!stat(path, &found) && (found.st_mode & 07777) == 0600, "the file's mode", found.st_mode);
    (void)run(stop_body);
    list(path);
    want(listed.count == 2 && !lost() && !listed.dump.process.has_ended, "the last file", listed.count);
    want_text(0, "event 20 of it");
    list(aside);
    want(listed.count == 4 && listed.dump.process.has_ended, "the file before", listed.count);
    (void)run(begin_again_body);
    list(aside);
    want(listed.count == 2, "the file before, once more", listed.count);
}

static void *start_and_end(void *given)
{
    want(!pthread_cancel(pthread_self()), "no request", 0);
    start(path);
    record(0, 6);
    want(!flight_stop(), "no stop", 0);
    pthread_testcancel();
    return given;
}

static void cancelled_body(void)
{
    pthread_t thread;
    void *end = NULL;
    want(!pthread_create(&thread, NULL, start_and_end, NULL) && !pthread_join(thread, &end), "no thread", 0);
    want(end == PTHREAD_CANCELED, "no end by the request", 0);
}

// A thread that is to be cancelled starts all the same.
static void cancelled(void)
{
    run_well(cancelled_body);
    list(path);
    want(listed.count == 6 && listed.dump.process.has_ended && !lost(), "its file", listed.count);
}

static void refusals_body(void)
{
    char folder[250];
    struct rlimit limit = {100000, 100000};
    sigset_t pending;
    snprintf(folder, sizeof folder, "%s.folder", path);
    (void)unlink(path);
    (void)unlink(aside);
    want(!mkdir(folder, 0777) || errno == EEXIST, "no folder", 0);
    want(start_with(folder, 0) == EEXIST && start_with("/no/such/folder/file", 0) == ENOENT, "a path that can't be", 0);
    want(!start_with("", 0) && !flight_stop(), "an empty path", 0);
    want(start_with(path, 65537) == EINVAL && access(path, F_OK), "a number out of its range", 0);
    want(!setrlimit(RLIMIT_FSIZE, &limit) && start_with(path, 0) == EFBIG && access(path, F_OK), "a file too long", 0);
    want(!rmdir(folder), "no folder", 0);
    // (The signal that the kernel sends with it would have ended the process.)
    want(!sigpending(&pending) && !sigismember(&pending, SIGXFSZ), "a signal that is pending", 0);
}

static void refusals(void)
{
    run_well(refusals_body);
}

static void dumps_body(void)
{
    start(path);
    record(0, 1200);
    want(flight_dump(path) == EEXIST, "a dump in the file's place", 0);
    want(!flight_dump(dump_path), "no dump", 0);
    list(path);
    want(listed.count + lost() == 1200 && lost() == listed.losses[LOSS_OVERWRITTEN], "after a dump", listed.count);
    record(1200, 4000);
    (void)raise(SIGKILL);
}

// A dump takes nothing: the file has what it had, and what was overwritten since is counted.
static void dumps(void)
{
    (void)run(dumps_body);
    list(path);
    want(listed.count + lost() == 4000 && lost() == listed.losses[LOSS_OVERWRITTEN], "after a dump", listed.count);
    want_text(listed.count - 1, "event 3999 of it");
}

static void *record_one(void *given)
{
    record(0, 1);
    return given;
}

static void *record_and_wait(void *given)
{
    record(0, 1);
    for (;;)
        (void)pause();
    return given;
}

static uint64_t tick(void)
{
    static uint64_t now;
    return __atomic_add_fetch(&now, 1, __ATOMIC_RELAXED);
}

static void counts_body(void)
{
    struct flight_config config = {.threads = 2, .levels = 1, .size = 64, .clock = FLIGHT_CALLER, .now = tick,
        .file = path};
    char text[100];
    pthread_t thread;
    want(!flight_start(&config), "no start", 0);
    memset(text, 'x', sizeof text);
    text[99] = 0;
    record(0, 1);
    for (int each = 0; each < 7; each++)
        TRACE("too long: %s", text);
    want(!pthread_create(&thread, NULL, record_and_wait, NULL), "no thread", 0);
    do {
        list(path);
    } while (listed.count < 2);
    want(!pthread_create(&thread, NULL, record_one, NULL) && !pthread_join(thread, NULL), "no thread", 0);
    (void)raise(SIGKILL);
}

// What was refused, and what had no ring, is counted in the file.
static void counts(void)
{
    (void)run(counts_body);
    list(path);
    want(listed.count == 2 && listed.losses[LOSS_REFUSED] == 7, "refused events", listed.losses[LOSS_REFUSED]);
    want(listed.losses[LOSS_NO_RING] == 1 && lost() == 8, "events without a ring", listed.losses[LOSS_NO_RING]);
}

// (Of this length and these letters, the words of a long record could be those of short ones.)
enum { LONG_EVENTS = 50, LONG_TEXT = 210, LETTER = ' ' };

static void long_body(void)
{
    char text[LONG_TEXT + 1];
    memset(text, LETTER, LONG_TEXT);
    text[LONG_TEXT] = 0;
    start(path);
    for (int each = 0; each < LONG_EVENTS; each++)
        TRACE("%d %s", each, text);
    (void)raise(SIGKILL);
}

// Long records state their length otherwise than short ones.
static void long_events(void)
{
    (void)run(long_body);
    list(path);
    want(listed.count == LONG_EVENTS && !lost(), "long events", listed.count);
}

static void stopped_body(void)
{
    struct flight_config config = {.threads = 2, .pages = 2, .size = 256, .file = path};
    want(!flight_start(&config), "no start", 0);
    record(0, 5);
    want(!flight_stop(), "no stop", 0);
}

static void flip(int file, size_t bit)
{
    uint8_t byte;
    off_t at = (off_t)(bit / 8);
    want(pread(file, &byte, 1, at) == 1, "no byte", bit / 8);
    byte ^= (uint8_t)(1 << bit % 8);
    want(pwrite(file, &byte, 1, at) == 1, "no byte", bit / 8);
}

// Of each bit that is flipped in the file of a recorder that was stopped is said.
static void flips(void)
{
    struct stat found;
    (void)run(stopped_body);
    list(path);
    want(listed.count == 5 && !lost(), "a file that was stopped", lost());
    int file = open(path, O_RDWR | O_CLOEXEC);
    want(file >= 0 && !fstat(file, &found), "no file", 0);
    size_t bits = 8 * (size_t)found.st_size, tried = 0;
    for (size_t bit = 0; bit < bits; bit += bit < 8 * 300 ? 7 : bits / 150 + 1, tried++) {
        flip(file, bit);
        bool is_said = !list_or_refuse(path) || listed.losses[LOSS_DAMAGED];
        want(is_said, "a bit is flipped, and that isn't said", bit);
        flip(file, bit);
    }
    list(path);
    want(tried > 300 && listed.count == 5 && !lost(), "the file as it was", tried);
    want(!close(file), "no file", 0);
}

static void full_body(void)
{
    enum { LONG = 60000, MANY = 20 };
    static struct flight_site sites[MANY];
    static char format[LONG];
    start(path);
    record(0, 1);
    memset(format, 'x', LONG - 1);
    for (int each = 0; each < MANY; each++) {
        sites[each] = (struct flight_site){.format = format, .file = "f", .format_len = LONG - 1, .file_len = 1,
            .line = (uint32_t)each};
        want(flight_register(&sites[each]), "no site", (uint64_t)each);
    }
    TRACE("short, so it has room: %d", 77);
    uint8_t event[8] = {0, 0, 0, 0, 1, 2, 3, 0xff};
    flight_record(&sites[MANY - 1], event, sizeof event);
    (void)raise(SIGKILL);
}

// A site for which there is no room costs only its text.
static void full(void)
{
    (void)run(full_body);
    list(path);
    want_text(0, "event 0 of it");
    want_text(1, "short, so it has room: 77");
    want_text(2, "<site 21 isn't in the file> 01 02 03 ff");
    want(listed.count == 3 && !lost(), "records of a full list", listed.count);
}

static char child_path[220];

static void fork_body(void)
{
    int status;
    start(path);
    record(0, 10);
    pid_t child = fork();
    want(child >= 0, "no process", 0);
    if (!child) {
        record(50, 60);
        start(child_path);
        record(70, 75);
        (void)raise(SIGKILL);
    }
    want(waitpid(child, &status, 0) == child && WIFSIGNALED(status) && WTERMSIG(status) == SIGKILL, "no end", 0);
    record(10, 12);
    want(!flight_stop(), "no stop", 0);
}

// A forked child has no part in the file, and may have its own.
static void forks(void)
{
    snprintf(child_path, sizeof child_path, "%s.child", path);
    run_well(fork_body);
    list(path);
    want(listed.count == 12 && !lost() && listed.dump.process.has_ended, "the parent's file", listed.count);
    want_text(11, "event 11 of it");
    list(child_path);
    want(listed.count == 5 && !lost(), "the child's file", listed.count);
    want_text(0, "event 70 of it");
}

// Children of which pthread_atfork's handlers know nothing: they record while their parent does.
static void unannounced_body(void)
{
    int status;
    start(path);
    record(0, 100);
    for (int each = 1; each < 10; each++) {
        pid_t made = (pid_t)syscall(SYS_clone, SIGCHLD, 0, 0, 0, 0);
        want(made >= 0, "no process", 0);
        if (!made) {
            record(5000, 6000);
            _exit(flight_dump(dump_path) != ENODEV);
        }
        record(100 * each, 100 * each + 100);
        want(waitpid(made, &status, 0) == made && !status, "a child's end", (uint64_t)status);
    }
    (void)raise(SIGKILL);
}

// Nor have such children a part in the file.
static void unannounced(void)
{
    (void)run(unannounced_body);
    list(path);
    want(listed.count + lost() == 1000 && listed.losses[LOSS_OVERWRITTEN] == lost(), "the parent's file", listed.count);
    want_text(listed.count - 1, "event 999 of it");
    for (size_t each = 1; each < listed.count; each++)
        want(atoi(listed.texts[each] + 6) == atoi(listed.texts[each - 1] + 6) + 1, "another event", each);
}

static pid_t child = -1;
static rlim_t most_data = RLIM_INFINITY; // of the child
static int wait_pipe[2];

// Forks within a TRACE, and both go on with that: the child when its parent has recorded all.
static uint64_t fork_amid(void)
{
    static uint64_t now;
    struct rlimit before, least;
    char byte;
    if (++now != 40)
        return now;
    want(!pipe(wait_pipe) && !getrlimit(RLIMIT_DATA, &before), "no pipe", 0);
    least = (struct rlimit){most_data, before.rlim_max};
    want(!setrlimit(RLIMIT_DATA, &least), "no limit", 0);
    child = fork();
    want(!setrlimit(RLIMIT_DATA, &before), "no limit any more", 0);
    if (!child)
        want(read(wait_pipe[0], &byte, 1) == 1, "no byte", 0);
    return now;
}

// How the child ends. (The file isn't stopped: that would commit once more what the parent recorded.)
static int amid_ends(void)
{
    struct flight_config config = {.clock = FLIGHT_CALLER, .now = fork_amid, .file = path};
    int status;
    want(!flight_start(&config), "no start", 0);
    for (int each = 0; each < 100; each++)
        record(each, each + 1);
    if (!child)
        _exit(0);
    want(write(wait_pipe[1], "", 1) == 1 && waitpid(child, &status, 0) == child, "no end", (uint64_t)child);
    return status;
}

static void amid_body(void)
{
    want(!amid_ends(), "no good end", 0);
}

// (A child without memory for its stores dies of them. Valgrind gives it the memory all the same.)
static void amid_without_memory_body(void)
{
    most_data = 4096;
    (void)amid_ends();
}

static void amid(void)
{
    static void (*const bodies[])(void) = {amid_body, amid_without_memory_body};
    for (size_t each = 0; each < sizeof bodies / sizeof *bodies; each++) {
        run_well(bodies[each]);
        list(path);
        want(listed.count == 100 && !lost(), "the parent's file", listed.count);
        want_text(99, "event 99 of it");
    }
}

static pid_t parent;

static void record_in_child(int signal)
{
    (void)signal;
    if (getpid() != parent)
        TRACE("a handler of a child");
}

// Sends the signal to all of a group without an end.
static pid_t start_sender(pid_t group)
{
    pid_t sender = fork();
    if (sender)
        return sender;
    (void)prctl(PR_SET_PDEATHSIG, SIGKILL);
    want(!setpgid(0, 0), "no group", 0);
    for (;;)
        (void)kill(-group, SIGUSR1);
}

static void signalled_body(void)
{
    struct sigaction action = {.sa_handler = record_in_child, .sa_flags = SA_RESTART};
    parent = getpid();
    want(!setpgid(0, 0) && !sigaction(SIGUSR1, &action, NULL), "no group", 0);
    start(path);
    record(0, 10);
    pid_t sender = start_sender(parent);
    want(sender > 0, "no process", 0);
    for (int each = 0; each < 100; each++) {
        int status;
        pid_t forked = fork();
        want(forked >= 0, "no process", (uint64_t)each);
        if (!forked)
            _exit(0);
        want(waitpid(forked, &status, 0) == forked && !status, "no end", (uint64_t)each);
    }
    (void)kill(sender, SIGKILL);
    want(waitpid(sender, NULL, 0) == sender && !flight_stop(), "no stop", 0);
}

// A signal that is there when a child begins is handled when the child has left the file.
static void signalled(void)
{
    run_well(signalled_body);
    list(path);
    want(listed.count == 10 && !lost() && listed.dump.process.has_ended, "the parent's file", listed.count);
}

static void own_aside_body(void)
{
    start(aside);
    record(0, 3);
    want(flight_dump(path) == EEXIST && !access(aside, F_OK), "a dump beside the file", 0);
    (void)raise(SIGKILL);
}

// A dump that would be written in the file's place, before it gets its own name.
static void own_aside(void)
{
    (void)run(own_aside_body);
    list(aside);
    want(listed.count == 3 && !lost(), "the file", listed.count);
}

static void crash_body(void)
{
    start(path);
    record(0, 5);
    abort();
}

// No handler is needed for what a crash leaves.
static void crash(void)
{
    int status = run(crash_body);
    want(WIFSIGNALED(status) && WTERMSIG(status) == SIGABRT, "another end", (uint64_t)status);
    list(path);
    want(listed.count == 5 && !lost(), "events before a crash", listed.count);
}

int main(int argc, char **argv)
{
    static void (*const cases[])(void) = {begin_again, cancelled, refusals, dumps, own_aside, counts, long_events,
        flips, full, forks, unannounced, amid, signalled, crash};
    want(argc == 2, "usage: flight_file_checks FOLDER", 0);
    struct rlimit none = {0, 0};
    (void)setrlimit(RLIMIT_CORE, &none);
    snprintf(path, sizeof path, "%s/checked.flight", argv[1]);
    snprintf(aside, sizeof aside, "%s~", path);
    snprintf(dump_path, sizeof dump_path, "%s/checked.dump", argv[1]);
    for (size_t each = 0; each < sizeof cases / sizeof *cases; each++)
        cases[each]();
    printf("%zu checks\n", sizeof cases / sizeof *cases);
    return 0;
}
