// Goes through a program that records in a flight file, instruction by instruction, and reads the file whenever it has
// changed: what is there is what a kill at that instruction leaves. `flight_file_steps FOLDER ROUNDS SEED`. At random
// instructions the program gets a signal, whose handler records too, at the site that is next. Its threads have a ring
// in one round and two in the next. While as many events stand as a thread has rings, or one more, signals come often:
// then handlers are refused, and interrupt the noting of a refusal.
#define _GNU_SOURCE
#include "flight_file_account.h"

#include <errno.h>
#include <signal.h>
#include <sys/mman.h>
#include <sys/prctl.h>
#include <sys/ptrace.h>
#include <sys/wait.h>
#include <unistd.h>

enum { THREADS = 2, NAMES = 11, LOOKED = 8192 };

static char path[200];
static uint64_t random_state;
static uint32_t levels; // how many rings a thread has in this round
static uint64_t readings, steps, signals;
static volatile bool *is_summing; // whether the program is within a checksum

static uint64_t next_random(void)
{
    random_state ^= random_state << 13;
    random_state ^= random_state >> 7;
    random_state ^= random_state << 17;
    return random_state * 0x2545f4914f6cdd1d;
}

// ---- The program.

uint32_t __real_flight_checksum(const void *bytes, size_t len);
uint32_t __wrap_flight_checksum(const void *bytes, size_t len);

// A checksum stores nothing in the file, and would be most of all instructions: so it is one step.
uint32_t __wrap_flight_checksum(const void *bytes, size_t len)
{
    *is_summing = true;
    uint32_t sum = __real_flight_checksum(bytes, len);
    *is_summing = false;
    (void)raise(SIGTRAP);
    return sum;
}

static char who[SHARED_NAME] = "n0";
static unsigned site;
static volatile sig_atomic_t is_naming;

static void record(const char *what, unsigned long number)
{
    count(&truth->begun);
    sites[site](who, what, number);
    count(&truth->returned);
}

static void on_signal(int signal)
{
    static unsigned long number;
    (void)signal;
    if (!is_naming)
        record("handler", number++);
}

// The first name is the one that the kernel has; each further name has one event more, and a site more.
static void live(void)
{
    for (unsigned name = 0; name < NAMES; name++) {
        is_naming = true;
        snprintf(who, sizeof who, "n%u", name);
        want(!name || !flight_name(who), "no name", 0, 0);
        is_naming = false;
        for (unsigned long number = 0; number < 1 + name % 3; number++) {
            record("own", number);
            count(&truth->own[name]);
        }
        site++;
    }
}

static _Noreturn void be_followed(void)
{
    struct sigaction action = {.sa_handler = on_signal, .sa_flags = SA_NODEFER};
    struct flight_config config = {.threads = THREADS, .levels = levels, .pages = 2, .size = 1024, .file = path};
    want(!sigaction(SIGUSR1, &action, NULL), "no handler", 0, 0);
    want(!ptrace(PTRACE_TRACEME, 0, NULL, NULL), "it can't be followed", 0, 0);
    want(!prctl(PR_SET_NAME, "n0"), "no name", 0, 0);
    want(!flight_start(&config), "no start", 0, 0);
    (void)raise(SIGSTOP);
    live();
    want(!flight_stop(), "no stop", 0, 0);
    (void)raise(SIGSTOP);
    _exit(0);
}

// ---- Whoever follows it.

static size_t file_len;
static const uint8_t *mapped;

// What may change of the file: its header, its slots, the first sites, and the rings, which are all small.
static bool has_changed(void)
{
    static uint8_t last[LOOKED * 4];
    size_t sites_at = (size_t)number64_at(mapped + 8 * FILE_SITES);
    size_t rings_at = (size_t)number64_at(mapped + 8 * FILE_RINGS);
    size_t rings = file_len - rings_at;
    struct bytes parts[] = {{mapped, LOOKED}, {mapped + sites_at, LOOKED / 2},
        {mapped + rings_at, rings < 2 * LOOKED ? rings : 2 * LOOKED}};
    bool is_same = true;
    size_t at = 0;
    for (size_t part = 0; part < sizeof parts / sizeof *parts; part++) {
        is_same = is_same && !memcmp(last + at, parts[part].at, parts[part].len);
        memcpy(last + at, parts[part].at, parts[part].len);
        at += parts[part].len;
    }
    return !is_same;
}

static void look(void)
{
    static struct account account;
    if (!has_changed())
        return;
    want(holds(mapped, file_len, &account), "no file", 0, 0);
    readings++;
    for (unsigned name = 0; name < NAMES; name++)
        want(account.own[name] >= truth->own[name] || account.lost || account.unnamed, "an event of a name",
            account.own[name], truth->own[name]);
    want(!account.unnamed || truth->own[SLOT_MOST_LEASES - 1], "a record without a name", account.unnamed, 0);
}

// Goes on to the next instruction, or to the end of a checksum, with this signal: the one that stops it there. (A
// signal that the program blocks is kept, and stops it when it doesn't any more.)
static int step(pid_t child, int signal)
{
    int status = 0;
    want(!ptrace(*is_summing ? PTRACE_CONT : PTRACE_SINGLESTEP, child, NULL, (void *)(uintptr_t)signal), "no step",
        (uint64_t)errno, 0);
    want(waitpid(child, &status, 0) == child && WIFSTOPPED(status), "another end", (uint64_t)status, steps);
    steps++;
    return WSTOPSIG(status);
}

// Whether a signal comes before the next instruction. While as many events stand as a thread has rings, or one more, it
// often does. (If still more stand it seldom does, so that handlers don't nest ever deeper.)
static bool is_interrupted(void)
{
    uint64_t standing = truth->begun - truth->returned;
    return next_random() % (standing == levels || standing == levels + 1 ? 400 : 2000) == 0;
}

static void follow(pid_t child)
{
    int status = 0, stop;
    want(waitpid(child, &status, 0) == child && WIFSTOPPED(status) && WSTOPSIG(status) == SIGSTOP, "no start",
        (uint64_t)status, 0);
    mapped = tracering_region_open(path, &file_len);
    want(mapped != NULL, "no file", 0, 0);
    for (int signal = 0; (stop = step(child, signal)) != SIGSTOP;) {
        want(stop == SIGTRAP || stop == SIGUSR1, "another stop", (uint64_t)stop, steps);
        look();
        signal = stop == SIGUSR1 || is_interrupted() ? SIGUSR1 : 0;
        signals += signal != 0;
    }
    want(number64_at(mapped + 8 * FILE_ENDED) == 1, "no end", 0, 0);
    (void)kill(child, SIGKILL);
    (void)waitpid(child, &status, 0);
    (void)tracering_region_unmap(mapped, file_len);
}

int main(int argc, char **argv)
{
    want(argc == 4, "usage: flight_file_steps FOLDER ROUNDS SEED", 0, 0);
    uint64_t rounds = strtoull(argv[2], NULL, 10);
    random_state = strtoull(argv[3], NULL, 10) * 2654435761u + 1;
    truth = mmap(NULL, sizeof *truth, PROT_READ | PROT_WRITE, MAP_SHARED | MAP_ANONYMOUS, -1, 0);
    is_summing = mmap(NULL, sizeof *is_summing, PROT_READ | PROT_WRITE, MAP_SHARED | MAP_ANONYMOUS, -1, 0);
    want(truth != MAP_FAILED && is_summing != MAP_FAILED, "no memory", 0, 0);
    snprintf(path, sizeof path, "%s/stepped.flight", argv[1]);
    for (uint64_t round = 0; round < rounds; round++) {
        memset(truth, 0, sizeof *truth);
        levels = 1 + round % 2;
        fflush(NULL);
        pid_t child = fork();
        want(child >= 0, "no process", 0, 0);
        if (!child)
            be_followed();
        follow(child);
    }
    printf("%llu instructions with %llu signals, after %llu of which the file had changed\n", (unsigned long long)steps,
        (unsigned long long)signals, (unsigned long long)readings);
    return 0;
}
