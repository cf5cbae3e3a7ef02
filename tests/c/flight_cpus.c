// Programs that record by rings per CPU: `flight_cpus CASE FILE [COUNTS]`. Each but `killed` dumps to FILE, and prints
// how many events each of its threads made, with its number and its name: tests/c/flight-cpus compares.
#define _GNU_SOURCE
#include "tracering_flight.h"

#include <errno.h>
#include <fcntl.h>
#include <pthread.h>
#include <sched.h>
#include <signal.h>
#include <stdio.h>
#include <stdlib.h>
#include <string.h>
#include <sys/mman.h>
#include <sys/syscall.h>
#include <sys/time.h>
#include <time.h>
#include <unistd.h>

enum { THREADS = 24, EVENTS = 2000, MOST_HELD = 1024 };

// What a thread made: events of its own, and of handlers that interrupted it. Of those of its own, how many it began.
struct made {
    uint64_t tid, begun, done, handled;
};
static struct made made_here[THREADS + 1], *made = made_here;
static _Thread_local struct made *own;

static void ensure(bool is_so, const char *what)
{
    if (is_so)
        return;
    fprintf(stderr, "flight_cpus: %s\n", what);
    _exit(1);
}

static void pin(size_t cpu)
{
    cpu_set_t set;
    CPU_ZERO(&set);
    CPU_SET(cpu, &set);
    ensure(!sched_setaffinity(0, sizeof set, &set), "no affinity");
}

// The CPUs that this process may run on, from the first one on.
static size_t cpu_of(uint64_t which)
{
    static cpu_set_t allowed;
    static int count;
    if (!count) {
        ensure(!sched_getaffinity(getpid(), sizeof allowed, &allowed), "no affinity");
        count = CPU_COUNT(&allowed);
    }
    size_t left = which % (uint64_t)count, cpu = 0;
    while (!CPU_ISSET(cpu, &allowed) || left--)
        cpu++;
    return cpu;
}

static void nap(void)
{
    struct timespec time = {0, 100000};
    (void)nanosleep(&time, NULL);
}

static uint64_t seen(const uint64_t *number)
{
    return __atomic_load_n(number, __ATOMIC_SEQ_CST);
}

static void add_one(uint64_t *number)
{
    (void)__atomic_add_fetch(number, 1, __ATOMIC_SEQ_CST);
}

static void begin(struct made *mine)
{
    mine->tid = (uint64_t)syscall(SYS_gettid);
    __atomic_signal_fence(__ATOMIC_SEQ_CST);
    own = mine;
}

static void record(void)
{
    uint64_t number = own->begun;
    add_one(&own->begun);
    TRACE("own %lu of %lu", number, own->tid);
    add_one(&own->done);
}

static void start(struct flight_config config)
{
    config.per_cpu = true;
    ensure(!flight_start(&config), "the recorder isn't started");
}

// Prints what all threads made.
static void report(const char *file)
{
    ensure(!flight_dump(file), "no dump");
    for (size_t each = 0; each <= THREADS; each++)
        if (made[each].tid)
            printf("%lu %lu %lu %zu\n", made[each].tid, made[each].done, made[each].handled, each);
}

// ---- Threads that move from CPU to CPU, and are interrupted.

static void on_timer(int number)
{
    int before = errno;
    (void)number;
    if (own) {
        TRACE("handled %lu of %lu", own->handled, own->tid);
        add_one(&own->handled);
    }
    errno = before;
}

static void *move(void *given)
{
    char name[32];
    bool is_endless = made != made_here;
    begin(given);
    snprintf(name, sizeof name, "worker-%zu", (size_t)(own - made));
    (void)flight_name(name);
    for (uint64_t each = 0; is_endless || each < EVENTS; each++) {
        if (each % 16 == 0)
            pin(cpu_of(each / 16 + (uint64_t)(own - made)));
        record();
    }
    return NULL;
}

static void move_all(void)
{
    pthread_t threads[THREADS];
    sigset_t alarms;
    struct sigaction action = {.sa_handler = on_timer, .sa_flags = SA_RESTART};
    struct itimerval often = {{0, 500}, {0, 500}}, never = {{0, 0}, {0, 0}};
    (void)cpu_of(0);
    ensure(!sigaction(SIGALRM, &action, NULL) && !setitimer(ITIMER_REAL, &often, NULL), "no timer");
    for (size_t each = 0; each < THREADS; each++)
        ensure(!pthread_create(&threads[each], NULL, move, &made[each]), "no thread");
    // (The signals are for those.)
    sigemptyset(&alarms);
    sigaddset(&alarms, SIGALRM);
    (void)pthread_sigmask(SIG_BLOCK, &alarms, NULL);
    for (size_t each = 0; each < THREADS; each++)
        (void)pthread_join(threads[each], NULL);
    (void)setitimer(ITIMER_REAL, &never, NULL);
}

static void run_moved(const char *file)
{
    start((struct flight_config){.pages = 1024, .threads = THREADS});
    move_all();
    report(file);
}

// With a ring that is soon full, and fewer names than threads.
static void run_small(const char *file)
{
    start((struct flight_config){.pages = 2, .threads = 8, .clock = FLIGHT_TSC});
    move_all();
    report(file);
}

static void run_killed(const char *file, const char *counts)
{
    int shared = open(counts, O_RDWR);
    void *mapped = mmap(NULL, sizeof made_here, PROT_READ | PROT_WRITE, MAP_SHARED, shared, 0);
    ensure(shared >= 0 && mapped != MAP_FAILED, "no counts");
    made = mapped;
    start((struct flight_config){.pages = 16, .threads = THREADS, .file = file});
    move_all();
}

// ---- A clock at which threads are held, once they have a slot. They are on one CPU.

static _Thread_local enum { GO_ON, HOLD, NEST, LEAVE } at_clock;
static uint64_t held, released, moments;

static uint64_t now(void)
{
    int wanted = at_clock;
    at_clock = GO_ON;
    if (wanted == HOLD) {
        (void)raise(SIGUSR1);
        add_one(&held);
        while (!seen(&released))
            nap();
    }
    if (wanted == NEST)
        (void)raise(SIGUSR1);
    if (wanted == LEAVE)
        syscall(SYS_exit, 0);
    return __atomic_add_fetch(&moments, 1, __ATOMIC_SEQ_CST);
}

static void on_signal(int number)
{
    (void)number;
    TRACE("handled %lu of %lu", own->handled, own->tid);
    add_one(&own->handled);
}

static void start_by_clock(uint32_t threads)
{
    struct sigaction action = {.sa_handler = on_signal};
    ensure(!sigaction(SIGUSR1, &action, NULL), "no handler");
    pin(cpu_of(0));
    start((struct flight_config){.threads = threads, .pages = 64, .clock = FLIGHT_CALLER, .now = now});
    begin(&made[THREADS]);
    record();
}

static void *hold(void *given)
{
    struct made mine = {0};
    (void)given;
    begin(&mine);
    record();
    at_clock = HOLD;
    record();
    return NULL;
}

// How many slots with rings there are.
static size_t count_slots(void)
{
    size_t cpus = (size_t)sysconf(_SC_NPROCESSORS_CONF);
    return cpus + (cpus < 8 ? cpus : 8);
}

// All slots are held, each after an event of a handler in it: a further event has none. Then they are free again.
static void run_held(const char *file)
{
    static pthread_t threads[MOST_HELD];
    size_t slots = count_slots();
    ensure(slots <= MOST_HELD, "too many CPUs");
    start_by_clock((uint32_t)slots);
    for (size_t each = 0; each < slots; each++) {
        ensure(!pthread_create(&threads[each], NULL, hold, NULL), "no thread");
        while (seen(&held) == each)
            nap();
    }
    TRACE("without a ring");
    __atomic_store_n(&released, 1, __ATOMIC_SEQ_CST);
    for (size_t each = 0; each < slots; each++)
        (void)pthread_join(threads[each], NULL);
    record();
    report(file);
    printf("slots %zu\n", slots);
}

static void *leave(void *given)
{
    begin(given);
    record();
    at_clock = LEAVE;
    record();
    return NULL;
}

// Has a thread end amid an event, and waits until the kernel says so.
static void end_amid_event(void)
{
    pthread_t thread;
    ensure(!pthread_create(&thread, NULL, leave, &made[0]), "no thread");
    (void)pthread_join(thread, NULL);
    while (!syscall(SYS_tgkill, getpid(), made[0].tid, 0))
        nap();
}

// The slot of a thread that ended amid an event is found again.
static void run_left(const char *file)
{
    start_by_clock(4);
    end_amid_event();
    for (size_t each = 0; each < 3000; each++)
        record();
    report(file);
}

// The same of a spare slot, while that of the CPU is held.
static void run_left_spare(const char *file)
{
    pthread_t holds;
    start_by_clock(4);
    ensure(!pthread_create(&holds, NULL, hold, NULL), "no thread");
    while (!seen(&held))
        nap();
    end_amid_event();
    for (size_t each = 0; each < 10; each++)
        record();
    __atomic_store_n(&released, 1, __ATOMIC_SEQ_CST);
    (void)pthread_join(holds, NULL);
    report(file);
}

// ---- Handlers that interrupt an event at each of its instructions.

static void set_steps(bool are_wanted)
{
#if defined(__x86_64__)
    if (are_wanted)
        __asm__ volatile("sub $128, %%rsp; pushfq; orq $0x100, (%%rsp); popfq; add $128, %%rsp" ::: "cc", "memory");
    else
        __asm__ volatile("sub $128, %%rsp; pushfq; andq $~0x100, (%%rsp); popfq; add $128, %%rsp" ::: "cc", "memory");
#else
    (void)are_wanted;
#endif
}

static void run_stepped(const char *file)
{
    struct sigaction step = {.sa_handler = on_signal};
    start((struct flight_config){.pages = 64, .size = 65520, .threads = 4});
    begin(&made[0]);
    ensure(!sigaction(SIGTRAP, &step, NULL), "no handler");
    record();
    for (size_t each = 0; each < 20; each++) {
        set_steps(true);
        record();
        set_steps(false);
    }
    report(file);
}

// A handler within the clock, where the slot is taken and no ring is in a call.
static void run_nested(const char *file)
{
    start_by_clock(4);
    for (size_t each = 0; each < 100; each++) {
        at_clock = NEST;
        record();
    }
    report(file);
}

// ---- Names, and numbers that are too large.

static void run_named(const char *file)
{
    struct flight_config most = {.per_cpu = true, .levels = 1, .threads = 65536};
    ensure(flight_start(&most) == EINVAL, "too many slots are taken");
    start((struct flight_config){.threads = 1});
    begin(&made[0]);
    for (size_t each = 0; each < 3; each++) {
        char name[] = {'n', 'a', 'm', 'e', '-', (char)('0' + each), 0};
        ensure(!flight_name(name), "no name");
        record();
    }
    report(file);
    ensure(!flight_stop(), "it isn't stopped");
    ensure(!flight_start(NULL), "it isn't started with rings of threads");
    TRACE("beside rings of threads");
    ensure(!flight_stop(), "it isn't stopped");
}

int main(int count, char **words)
{
    static const struct {
        const char *name;
        void (*run)(const char *file);
    } cases[] = {{"moved", run_moved}, {"small", run_small}, {"held", run_held}, {"left", run_left},
        {"left_spare", run_left_spare}, {"stepped", run_stepped}, {"nested", run_nested}, {"named", run_named}};
    ensure(count >= 3, "a case and a file are expected");
    if (count == 4)
        run_killed(words[2], words[3]);
    for (size_t at = 0; at < sizeof cases / sizeof *cases; at++)
        if (!strcmp(words[1], cases[at].name))
            cases[at].run(words[2]);
    return 0;
}
