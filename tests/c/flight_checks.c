// The checks of the flight recorder: `flight_checks FOLDER SCALE [CASE..]`.
#define _GNU_SOURCE
#include "flight_cases.h"

#include <semaphore.h>
#include <sys/resource.h>

// ---- Four threads, and a crash by each signal. All but the one that crashes are idle by then.

enum { EVENTS = 3000 };
static volatile int *nowhere = (volatile int *)4096;

static void crash(int signal)
{
    if (signal == SIGSEGV)
        *nowhere = 1;
    else if (signal == SIGABRT)
        abort();
    else
        (void)kill(getpid(), signal);
    idle();
}

static int crash_signal;

static void *work_and_crash(void *given)
{
    uint64_t which = (uintptr_t)given;
    name_worker(which);
    for (int each = 0; each < EVENTS; each++)
        record(which);
    count(&truth->ready);
    if (which == 2) {
        wait_for(&truth->ready, 4);
        crash(crash_signal);
    }
    idle();
    return NULL;
}

static void crash_body(uint64_t signal)
{
    crash_signal = (int)signal;
    start(NULL);
    want(!flight_dump_on_crash(path), "no handlers", 0);
    for (uint64_t which = 0; which < 4; which++)
        let_go(work_and_crash, which);
    idle();
}

static void crashes(void)
{
    static const int signals[] = {SIGSEGV, SIGABRT, SIGTERM, SIGBUS, SIGFPE, SIGILL};
    for (size_t at = 0; at < sizeof signals / sizeof *signals; at++) {
        int status = run(crash_body, (uint64_t)signals[at]);
        want(WIFSIGNALED(status) && WTERMSIG(status) == signals[at], "another end", (uint64_t)status);
        struct read_dump *dump = open_dump(path);
        want(dump->signal == (uint32_t)signals[at] && !dump->without_ring, "another signal", dump->signal);
        for (uint64_t which = 0; which < 4; which++) {
            const struct read_ring *ring = ring_of_worker(dump, which);
            check_worker(dump, ring, which);
            want(overwritten(ring), "no event is overwritten", which);
            want(ring->written == EVENTS && truth->counted[which] == EVENTS, "an event isn't counted", which);
        }
        free_dump(dump);
    }
}

// ---- A crash while three threads go on.

static void *work_for_ever(void *given)
{
    uint64_t which = (uintptr_t)given;
    name_worker(which);
    for (;;)
        record(which);
    return NULL;
}

static void busy_body(uint64_t signal)
{
    start(NULL);
    want(!flight_dump_on_crash(path), "no handlers", 0);
    for (uint64_t which = 0; which < 3; which++)
        let_go(work_for_ever, which);
    for (uint64_t which = 0; which < 3; which++)
        wait_for(&truth->counted[which], 2000 + 777 * which);
    for (uint64_t which = 0; which < 3; which++)
        truth->at_crash[which] = seen(&truth->counted[which]);
    crash((int)signal);
}

static void busy(void)
{
    for (int round = 0; round < 10; round++) {
        int status = run(busy_body, SIGSEGV);
        want(WIFSIGNALED(status) && WTERMSIG(status) == SIGSEGV, "another end", (uint64_t)status);
        struct read_dump *dump = open_dump(path);
        for (uint64_t which = 0; which < 3; which++) {
            const struct read_ring *ring = ring_of_worker(dump, which);
            check_worker(dump, ring, which);
            want(ring->written >= truth->at_crash[which], "events before the crash", ring->written);
            want(ring->written <= truth->counted[which] + 1, "events that weren't", ring->written);
        }
        free_dump(dump);
    }
}

// ---- Two threads are hit at once, while others are idle: one dump, and it is whole.

static void *hit_together(void *given)
{
    uint64_t which = (uintptr_t)given;
    name_worker(which);
    for (int each = 0; each < 100; each++)
        record(which);
    count(&truth->ready);
    while (seen(&truth->ready) < 4)
        continue;
    nowhere[16 * which] = 1;
    return NULL;
}

static void together_body(uint64_t unused)
{
    (void)unused;
    start(NULL);
    want(!flight_dump_on_crash(path), "no handlers", 0);
    for (uint64_t which = 0; which < 4; which++)
        let_go(hit_together, which);
    idle();
}

static void together(void)
{
    for (int round = 0; round < 20; round++) {
        int status = run(together_body, 0);
        want(WIFSIGNALED(status) && WTERMSIG(status) == SIGSEGV, "another end", (uint64_t)status);
        struct read_dump *dump = open_dump(path);
        for (uint64_t which = 0; which < 4; which++) {
            const struct read_ring *ring = ring_of_worker(dump, which);
            check_worker(dump, ring, which);
            want(ring->count == 100, "events of a thread that is hit, too", ring->count);
        }
        free_dump(dump);
    }
}

// ---- The same in a program with a handler of its own, which lets the fault happen again: the first dump stays.

static void let_die(int signal_number)
{
    want(signal(signal_number, SIG_DFL) != SIG_ERR, "no action", 0);
}

static void *hit_beside(void *given)
{
    uint64_t which = (uintptr_t)given;
    name_worker(which);
    for (int each = 0; each < 3000; each++)
        record(which);
    count(&truth->ready);
    while (seen(&truth->ready) < 8)
        continue;
    nowhere[16 * which] = 1;
    return NULL;
}

static void beside_body(uint64_t unused)
{
    (void)unused;
    let_die(SIGSEGV);
    want(signal(SIGSEGV, let_die) != SIG_ERR, "no handler", 0);
    start(NULL);
    want(!flight_dump_on_crash(path), "no handlers", 0);
    for (uint64_t which = 0; which < 8; which++)
        let_go(hit_beside, which);
    idle();
}

static void beside(void)
{
    for (int round = 0; round < 40; round++) {
        int status = run(beside_body, 0);
        want(WIFSIGNALED(status) && WTERMSIG(status) == SIGSEGV, "another end", (uint64_t)status);
        struct read_dump *dump = open_dump(path);
        for (uint64_t which = 0; which < 8; which++)
            check_worker(dump, ring_of_worker(dump, which), which);
        free_dump(dump);
    }
}

// ---- A fault that wouldn't happen again: the process dies by it all the same.

static char *unmapped;

static void *hit_unmapped(void *given)
{
    record((uintptr_t)given);
    count(&truth->ready);
    *(volatile char *)unmapped = 1;
    bad("a thread goes on after its fault", 0);
    return NULL;
}

// The clock, which the dump reads: when that is done, the page is mapped.
static uint64_t map_meanwhile(void)
{
    if (seen(&truth->ready))
        (void)mprotect(unmapped, 4096, PROT_READ | PROT_WRITE);
    count(&truth->number);
    return seen(&truth->number);
}

static void gone_body(uint64_t unused)
{
    struct flight_config config = {.clock = FLIGHT_CALLER, .now = map_meanwhile};
    (void)unused;
    unmapped = mmap(NULL, 4096, PROT_NONE, MAP_PRIVATE | MAP_ANONYMOUS, -1, 0);
    want(unmapped != MAP_FAILED, "no page", 0);
    start(&config);
    want(!flight_dump_on_crash(path), "no handlers", 0);
    let_go(hit_unmapped, 1);
    idle();
}

static void gone_faults(void)
{
    int status = run(gone_body, 0);
    want(WIFSIGNALED(status) && WTERMSIG(status) == SIGSEGV, "another end", (uint64_t)status);
    free_dump(open_dump(path));
}

// ---- A thread that is to be cancelled dumps, and ends only afterwards.

static void *dump_and_end(void *given)
{
    record((uintptr_t)given);
    want(!pthread_cancel(pthread_self()) && !flight_dump(path), "no dump", 0);
    count(&truth->ready);
    pthread_testcancel();
    return NULL;
}

static void cancelled_body(uint64_t unused)
{
    void *end;
    (void)unused;
    start(NULL);
    want(!pthread_join(thread(dump_and_end, 0), &end) && end == PTHREAD_CANCELED && truth->ready == 1, "no end", 0);
    want(!flight_dump(second_path) && !flight_stop(), "no dump afterwards", 0);
}

static void cancelled(void)
{
    run_well(cancelled_body, 0);
    struct read_dump *dump = open_dump(path), *later = open_dump(second_path);
    want(dump->rings[0].count == 1 && later->rings[0].count == 1, "its event", dump->rings[0].count);
    free_dump(dump);
    free_dump(later);
}

// ---- A dump that fails leaves what is at its path as it is; one that succeeds replaces it. Nothing stays beside it.

static void replaced_body(uint64_t has_file)
{
    struct rlimit limit = {1000, 1000};
    start(NULL);
    for (int each = 0; each < 100; each++)
        record(0);
    if (has_file) {
        FILE *file = fopen(second_path, "w");
        want(file && !fclose(file) && !chmod(second_path, 0644) && !symlink(second_path, path), "no file", 0);
        want(!flight_dump(path), "no dump", 0);
    }
    want(signal(SIGXFSZ, SIG_IGN) != SIG_ERR && !setrlimit(RLIMIT_FSIZE, &limit), "no limit", 0);
    want(flight_dump(path) == EFBIG, "a dump that is too long", 0);
}

static void replaced(void)
{
    char other[sizeof path + 1];
    struct stat found;
    snprintf(other, sizeof other, "%s~", path);
    run_well(replaced_body, true);
    struct read_dump *dump = open_dump(path);
    want(dump->rings[0].count == 100, "the dump before", dump->rings[0].count);
    free_dump(dump);
    want(!lstat(path, &found) && (found.st_mode & 07777) == 0600 && S_ISREG(found.st_mode), "its mode", found.st_mode);
    want(!stat(second_path, &found) && !found.st_size, "a link is followed", (uint64_t)found.st_size);
    want(access(other, F_OK) != 0, "a file beside it", 0);
    run_well(replaced_body, false);
    want(access(path, F_OK) != 0 && !stat(other, &found) && found.st_size == 1000, "a dump that is cut", 0);
    want(!unlink(other), "no file", 0);
}

// ---- A crash whose file can't be made, since that is busy: it isn't taken for another dump, which is waited for.

// (The linker has the recorder call this one.)
int __real_rename(const char *from, const char *to);
int __wrap_rename(const char *from, const char *to);
static bool is_busy;
static _Thread_local bool is_held_in_dump;

int __wrap_rename(const char *from, const char *to)
{
    if (is_held_in_dump) {
        is_held_in_dump = false;
        count(&truth->ready);
        wait_for(&truth->other, 1);
    }
    if (!is_busy)
        return __real_rename(from, to);
    is_busy = false;
    errno = EBUSY;
    return -1;
}

static void count_signal(int signal)
{
    (void)signal;
    count(&truth->number);
}

static void refused_body(uint64_t unused)
{
    (void)unused;
    want(signal(SIGTERM, count_signal) != SIG_ERR, "no handler", 0);
    start(NULL);
    want(!flight_dump_on_crash(path), "no handlers", 0);
    record(0);
    is_busy = true;
    want(!raise(SIGTERM) && seen(&truth->number) == 1, "no signal", seen(&truth->number));
}

static void refused(void)
{
    run_well(refused_body, 0);
    want(access(path, F_OK) != 0, "a second dump", 0);
}

// ---- A dump that is made goes to the path that there was, though others are given meanwhile.

// The clock, which the dump reads.
static uint64_t move_meanwhile(void)
{
    if (seen(&truth->ready) == 1) {
        count(&truth->ready);
        wait_for(&truth->other, 1);
    }
    return 1;
}

static void *give_paths(void *unused)
{
    (void)unused;
    wait_for(&truth->ready, 2);
    want(!flight_dump_on_crash(second_path) && !flight_dump_on_crash("/nowhere/at/all"), "another path", 0);
    count(&truth->other);
    return NULL;
}

static void moved_body(uint64_t unused)
{
    struct flight_config config = {.clock = FLIGHT_CALLER, .now = move_meanwhile};
    (void)unused;
    want(signal(SIGTERM, count_signal) != SIG_ERR, "no handler", 0);
    start(&config);
    want(!flight_dump_on_crash(path), "no handlers", 0);
    record(0);
    let_go(give_paths, 0);
    count(&truth->ready);
    want(!raise(SIGTERM) && seen(&truth->other), "no signal", 0);
    want(!flight_dump_on_crash(path), "the first path again", 0);
}

static void moved(void)
{
    run_well(moved_body, 0);
    struct read_dump *dump = open_dump(path);
    want(dump->rings[0].count == 1 && dump->signal == SIGTERM, "a dump", dump->signal);
    want(access(second_path, F_OK) != 0, "a dump to another path", 0);
    free_dump(dump);
}

// ---- Idle threads: each record is there. One has ended.

static void *work_a_little(void *given)
{
    uint64_t which = (uintptr_t)given;
    name_worker(which);
    for (uint64_t each = 0; each < 3 + which; each++)
        record(which);
    count(&truth->ready);
    if (which != 1)
        idle();
    return NULL;
}

static void idle_body(uint64_t unused)
{
    (void)unused;
    start(NULL);
    for (uint64_t which = 0; which < 8; which++)
        let_go(work_a_little, which);
    wait_for(&truth->ready, 8);
    want(!flight_dump(path), "no dump", 0);
}

static void idle_threads(void)
{
    run_well(idle_body, 0);
    struct read_dump *dump = open_dump(path);
    for (uint64_t which = 0; which < 8; which++) {
        const struct read_ring *ring = ring_of_worker(dump, which);
        check_worker(dump, ring, which);
        want(ring->count == 3 + which, "an idle thread's events", ring->count);
    }
    free_dump(dump);
}

// ---- A thread whose stack is used up dumps on its alternate stack: on one of its own that is barely large enough, or
// on the one that it gets in place of one that is too small.

// A stack for handlers, below which no byte can be reached.
static void have_stack(size_t size)
{
    char *pages = mmap(NULL, 4096 + size, PROT_READ | PROT_WRITE, MAP_PRIVATE | MAP_ANONYMOUS, -1, 0);
    stack_t stack = {.ss_sp = pages + 4096, .ss_size = size};
    want(pages != MAP_FAILED && !mprotect(pages, 4096, PROT_NONE), "no pages", 0);
    want(!sigaltstack(&stack, NULL), "no stack", size);
}

static uint64_t use_up(volatile char *above)
{
    volatile char part[1000];
    part[0] = above ? *above : 0;
    return seen(&truth->other) ? 0 : use_up(part) + (uint64_t)part[0];
}

static void *use_up_stack(void *size)
{
    have_stack((uintptr_t)size);
    want(!flight_dump_on_crash(path), "no handlers", 0);
    record(0);
    (void)use_up(NULL);
    return NULL;
}

static void used_up_body(uint64_t size)
{
    pthread_attr_t attributes;
    pthread_t made;
    want(!pthread_attr_init(&attributes) && !pthread_attr_setstacksize(&attributes, 1 << 17), "no attributes", 0);
    start(NULL);
    let_go(work_a_little, 3);
    wait_for(&truth->ready, 1);
    want(!pthread_create(&made, &attributes, use_up_stack, (void *)(uintptr_t)size), "no thread", 0);
    idle();
}

static void used_up(void)
{
    // (A sanitizer's own functions take more of a stack, and so do larger registers.)
    const bool are_large = MINSIGSTKSZ > 4096;
    const size_t sizes[] = {4096, scale > 1 || are_large ? 65536 : 16384};
    for (int each = are_large; each < 2; each++) {
        int status = run(used_up_body, sizes[each]);
        want(WIFSIGNALED(status) && WTERMSIG(status) == SIGSEGV, "another end", (uint64_t)status);
        struct read_dump *dump = open_dump(path);
        const struct read_ring *ring = ring_of_worker(dump, 3);
        check_worker(dump, ring, 3);
        want(ring->count == 6 && dump->rings[2].count == 1, "events", dump->rings[2].count);
        free_dump(dump);
    }
}

// ---- Threads that block all signals: a dump has their events at once. No thread's call is interrupted.

enum { BLOCKING = 50 };
static sem_t go_on;

static void *block_and_work(void *given)
{
    sigset_t blocked;
    uint64_t which = (uintptr_t)given;
    sigfillset(&blocked);
    want(!pthread_sigmask(SIG_SETMASK, &blocked, NULL), "no mask", 0);
    name_worker(which);
    for (uint64_t each = 0; each < 100; each++)
        TRACE("blocking %u event %u", (unsigned)which, (unsigned)each);
    count(&truth->ready);
    while (sem_wait(&go_on))
        continue;
    return NULL;
}

static void *nap_long(void *unused)
{
    struct timespec time = {1, 0};
    (void)unused;
    TRACE("a thread that %s", "naps");
    count(&truth->ready);
    want(!nanosleep(&time, NULL), "a call is interrupted", (uint64_t)errno);
    return NULL;
}

static void blocked_body(uint64_t unused)
{
    (void)unused;
    struct flight_config config = {.threads = BLOCKING + 2};
    start(&config);
    want(!sem_init(&go_on, 0, 0), "no semaphore", 0);
    pthread_t naps = thread(nap_long, 0);
    for (uint64_t which = 0; which < BLOCKING; which++)
        let_go(block_and_work, which);
    wait_for(&truth->ready, BLOCKING + 1);
    for (int each = 0; each < 20; each++)
        want(!flight_dump(path), "no dump", 0);
    want(!pthread_join(naps, NULL), "no end", 0);
}

static void blocked(void)
{
    run_well(blocked_body, 0);
    struct read_dump *dump = open_dump(path);
    for (uint64_t which = 0; which < BLOCKING; which++)
        want(ring_of_worker(dump, which)->count == 100, "events of a thread that blocks signals", which);
    free_dump(dump);
}

// ---- A thread is hit anywhere, also where it turns a page: its newest events are there.

static void hit_body(uint64_t round)
{
    struct flight_config config = {.pages = 2, .size = 256};
    struct sigevent event = {.sigev_notify = SIGEV_SIGNAL, .sigev_signo = SIGTERM};
    struct itimerspec once = {{0, 0}, {0, 20000 + (long)round * 1310 % 60000}};
    timer_t hit;
    start(&config);
    want(!flight_dump_on_crash(path), "no handlers", 0);
    name_worker(0);
    for (int each = 0; each < 100; each++)
        record(0);
    want(!timer_create(CLOCK_MONOTONIC, &event, &hit) && !timer_settime(hit, 0, &once, NULL), "no timer", 0);
    for (;;)
        record(0);
}

static void hit_anywhere(void)
{
    for (uint64_t round = 0; round < 300 / scale; round++) {
        int status = run(hit_body, round);
        want(WIFSIGNALED(status) && WTERMSIG(status) == SIGTERM, "another end", (uint64_t)status);
        struct read_dump *dump = open_dump(path);
        const struct read_ring *ring = ring_of_worker(dump, 0);
        check_worker(dump, ring, 0);
        want(ring->count >= 3, "newest events", ring->count);
        want(ring->written == truth->counted[0] || ring->written == truth->counted[0] + 1, "events", ring->written);
        free_dump(dump);
    }
}

// ---- Threads that end: a slot's leases, by name.

static void *work_and_end(void *given)
{
    uint64_t which = (uintptr_t)given;
    if (which != 3)
        name_worker(which);
    for (uint64_t each = 0; each < 10 + which; each++)
        TRACE("thread %d", (int)which);
    return NULL;
}

static void ended_body(uint64_t threads)
{
    struct flight_config config = {.threads = 1};
    (void)prctl(PR_SET_NAME, "as kernel has it");
    start(&config);
    for (uint64_t which = 0; which < threads; which++)
        want(!pthread_join(thread(work_and_end, which), NULL), "no end", which);
    want(!flight_dump(path), "no dump", 0);
}

static void ended(void)
{
    run_well(ended_body, 11);
    struct read_dump *dump = open_dump(path);
    const struct read_ring *ring = &dump->rings[0];
    want(ring->is_there && ring->leases == 8 && !dump->without_ring, "the leases", ring->leases);
    want(ring->count == 11 * 10 + 55, "the events of threads that ended", ring->count);
    for (uint32_t each = 0; each < 8; each++) {
        uint64_t which = 3 + each, first = ring->lease[each].first;
        char name[32];
        snprintf(name, sizeof name, "worker-%llu", (unsigned long long)which);
        want(!strcmp(ring->lease[each].name, which == 3 ? "as kernel has i" : name), "a name", which);
        want(argument_number(dump, &ring->records[first], 0) == which, "a lease's first record", first);
        want(argument_number(dump, &ring->records[first - 1], 0) == which - 1, "the one before it", first);
    }
    free_dump(dump);
}

// ---- No slot is free.

static void *work_beside(void *given)
{
    uint64_t which = (uintptr_t)given;
    for (int each = 0; each < 50; each++)
        record(which);
    count(&truth->ready);
    while (seen(&truth->ready) < 4)
        nap(100);
    return NULL;
}

static void crowded_body(uint64_t unused)
{
    (void)unused;
    struct flight_config config = {.threads = 2, .levels = 1};
    pthread_t threads[4];
    start(&config);
    for (uint64_t which = 0; which < 4; which++)
        threads[which] = thread(work_beside, which);
    for (int which = 0; which < 4; which++)
        want(!pthread_join(threads[which], NULL), "no end", 0);
    // All have ended, so there is room again.
    want(!pthread_join(thread(work_beside, 5), NULL), "no end", 0);
    want(!flight_dump(path), "no dump", 0);
}

static void crowded(void)
{
    run_well(crowded_body, 0);
    struct read_dump *dump = open_dump(path);
    uint64_t all = dump->rings[0].count + dump->rings[1].count;
    want(dump->without_ring == 100 && all == 150, "events without a ring", dump->without_ring);
    free_dump(dump);
}

// ---- Handlers that record, within events of the thread that they interrupt.

static void on_timer(int signal)
{
    (void)signal;
    TRACE("handler %lu", (unsigned long)truth->other);
    truth->other++;
}

static timer_t timer;

static void start_timer(void (*handler)(int), long ns, long first)
{
    struct sigaction action = {.sa_handler = handler, .sa_flags = SA_RESTART};
    struct sigevent event = {.sigev_notify = SIGEV_SIGNAL, .sigev_signo = SIGUSR1};
    struct itimerspec times = {{0, ns}, {0, first}};
    want(!sigaction(SIGUSR1, &action, NULL) && !timer_create(CLOCK_MONOTONIC, &event, &timer)
            && !timer_settime(timer, 0, &times, NULL),
        "no timer", 0);
}

static uint64_t now_and_interrupted(void)
{
    struct timespec time;
    (void)clock_gettime(CLOCK_MONOTONIC, &time);
    return (uint64_t)time.tv_sec * 1000000000 + (uint64_t)time.tv_nsec;
}

static void handlers_body(uint64_t levels)
{
    struct flight_config config = {.levels = (uint32_t)levels, .clock = FLIGHT_CALLER, .now = now_and_interrupted};
    sigset_t of_timer;
    start(&config);
    name_worker(0);
    start_timer(on_timer, 23000, 23000);
    for (uint64_t each = 0; each < 3000000 / scale || truth->other < 2000 / scale; each++)
        record(0);
    sigemptyset(&of_timer);
    sigaddset(&of_timer, SIGUSR1);
    want(!sigprocmask(SIG_BLOCK, &of_timer, NULL), "no mask", 0);
    want(!flight_dump(path), "no dump", 0);
}

static void handlers(void)
{
    for (uint64_t levels = 1; levels <= 3; levels++) {
        run_well(handlers_body, levels);
        struct read_dump *dump = open_dump(path);
        uint64_t written = 0, refused = 0, amid = 0;
        for (uint32_t level = 0; level < levels; level++) {
            const struct read_ring *ring = ring_named(dump, "worker-0", level);
            written += ring->written;
            refused += sum(ring->refused, 6);
            amid += level ? ring->written : 0;
            want(sum(ring->refused + 1, 5) == 0, "another refusal", level);
        }
        want(written + refused == truth->counted[0] + truth->other, "an event isn't counted", written);
        want(levels == 1 || !refused, "an event is refused", refused);
        want(levels == 1 || amid || scale > 1, "no event was amid another", 0);
        free_dump(dump);
    }
}

// ---- A handler that records while its thread's first event gets the thread a slot: the thread gets one alone.

static void first_body(uint64_t rounds)
{
    start_timer(on_timer, 0, 0);
    for (uint64_t round = 0; round < rounds; round++) {
        struct itimerspec once = {{0, 0}, {0, 1000 + (long)(round * 97 % 20000)}};
        truth->other = 0;
        start(NULL);
        want(!timer_settime(timer, 0, &once, NULL), "no timer", 0);
        for (truth->counted[0] = 0; truth->counted[0] < 3 || !truth->other;)
            record(0);
        want(!flight_dump(path) && !flight_stop(), "no dump", 0);
        struct read_dump *dump = open_dump(path);
        want(dump->rings[0].is_there && dump->rings[1].is_there && !dump->rings[2].is_there, "two slots", round);
        want(dump->rings[0].written + dump->rings[1].written == truth->counted[0] + 1, "an event", round);
        free_dump(dump);
    }
}

static void first_events(void)
{
    run_well(first_body, 400 / scale);
}

// ---- Two dumps, one after the other: the second one has what the first had, as far as the rings have it.

static void two_dumps_body(uint64_t unused)
{
    struct flight_config config = {.threads = 3, .levels = 1, .pages = 4, .size = 256};
    (void)unused;
    start(&config);
    name_worker(0);
    for (int each = 0; each < 40; each++)
        record(0);
    let_go(work_a_little, 4);
    wait_for(&truth->ready, 1);
    want(!flight_dump(path), "no dump", 0);
    for (int each = 0; each < 5; each++)
        record(0);
    want(!flight_dump(second_path), "no dump", 0);
}

// Each record that both have is the same one in both.
static void check_same(const struct read_ring *first, const struct read_ring *second)
{
    for (size_t each = 0; each < first->count; each++) {
        const struct read_record *before = &first->records[each], *after;
        if (before->number < second->first || !second->count)
            continue;
        after = &second->records[before->number - second->first];
        want(after->number == before->number && after->moment == before->moment && after->len == before->len
                && !memcmp(after->payload, before->payload, after->len),
            "a record is another one in the second dump", before->number);
    }
}

static void two_dumps(void)
{
    run_well(two_dumps_body, 0);
    struct read_dump *dump = open_dump(path), *later = open_dump(second_path);
    for (uint64_t which = 0; which <= 4; which += 4) {
        check_worker(dump, ring_of_worker(dump, which), which);
        check_worker(later, ring_of_worker(later, which), which);
        check_same(ring_of_worker(dump, which), ring_of_worker(later, which));
    }
    const struct read_ring *ring = ring_of_worker(dump, 0), *of_later = ring_of_worker(later, 0);
    want(ring->written == 40 && of_later->written == 45, "the second dump", of_later->written);
    want(of_later->first <= ring->first + 10, "a dump takes records away", of_later->first);
    want(ring_of_worker(later, 4)->count == 7, "an idle thread's events in both", 4);
    free_dump(dump);
    free_dump(later);
}

// ---- Events that are switched on and off.

static void switched_event(int which)
{
    if (which == 0)
        TRACE("switched: open [%d]", which);
    else if (which == 1)
        TRACE("switched: close {%d}", which);
    else
        TRACE("switched: read %d%%", which);
}

static void switch_to(const char *pattern, bool on)
{
    want(!flight_switch(pattern, on), "no switch", on);
    for (int which = 0; which < 3; which++)
        switched_event(which);
    TRACE("| %s", pattern);
}

static void switches_body(uint64_t unused)
{
    (void)unused;
    want(!flight_switch("*close*", false), "no switch", 0);
    start(NULL);
    switch_to("*nothing*", false);
    switch_to("*open \\[%?\\]", false);
    switch_to("*flight_checks.c:[0-9]* switched: *", true);
    switch_to("*: [a-or]* ?[d%]d*", false);
    switch_to("*close*", true);
    switch_to("*[!c]lose*", false);
    switch_to("*close {%d}", false);
    switch_to("", false);
    switch_to("*switched*", true);
    want(!flight_dump(path), "no dump", 0);
}

static void switches(void)
{
    static const char *const wanted = "02|2|012|2|12|12|2|2|012|";
    run_well(switches_body, 0);
    struct read_dump *dump = open_dump(path);
    const struct read_ring *ring = &dump->rings[0];
    char got[64] = "";
    for (size_t each = 0; each < ring->count && each < sizeof got - 1; each++)
        got[each] = *site_of(dump, &ring->records[each])->format == '|'
            ? '|'
            : (char)('0' + argument_number(dump, &ring->records[each], 0));
    if (strcmp(got, wanted))
        fprintf(stderr, "flight: %s\n", got);
    want(!strcmp(got, wanted), "other events are on", ring->count);
    free_dump(dump);
}

// ---- Named fields and levels.

static void record_levels(void)
{
    TRACE_ERROR("an error", "id", -1, "name", "one");
    TRACE_WARNING("a warning");
    TRACE_INFO("some", "a", (unsigned char)1, "b", 2l, "c", 3.5, "d", (void *)16, "e", 'x', "f", 6u, "g", "seven", "1h",
        8ull);
    TRACE_DEBUG("detail", "n", 5);
    FLIGHT_TRACE_FIELDS("none", "n", 6);
}

static void levels_body(uint64_t unused)
{
    (void)unused;
    start(NULL);
    record_levels();
    want(!flight_switch("*:* DEBUG *", false), "no switch", 0);
    record_levels();
    want(!flight_switch("*:* INFO *", false) && !flight_switch("*:* WARN *", false), "no switch", 0);
    record_levels();
    want(!flight_dump(path), "no dump", 0);
}

// The levels of the events: of a site of fields its second four bits.
static void levels(void)
{
    static const uint32_t wanted[] = {1, 2, 3, 4, 0, 1, 2, 3, 0, 1, 0};
    static const char names[] = "some\0a\0b\0c\0d\0e\0f\0g\0001h";
    static const uint8_t kinds[] = {0x11, 8, 0x28, 0x38, 4, 0x14, 0x40, 0x18};
    run_well(levels_body, 0);
    struct read_dump *dump = open_dump(path);
    const struct read_ring *ring = &dump->rings[0];
    want(ring->count == sizeof wanted / sizeof *wanted, "other events", ring->count);
    for (size_t at = 0; at < ring->count; at++)
        want(site_of(dump, &ring->records[at])->style == (wanted[at] << 4 | 2), "another level", at);
    const struct read_site *site = site_of(dump, &ring->records[2]);
    want(!memcmp(site->format, names, sizeof names) && !memcmp(site->kinds, kinds, sizeof kinds), "the names", 0);
    want(site->count == 8 && argument_number(dump, &ring->records[2], 7) == 8, "the values", site->count);
    free_dump(dump);
}

// ---- Workers that are forked: each starts a recorder as its parent's, by one call, and has files of its own.

static char workers_path[208], workers_file[216];

static void end_worker(int which)
{
    char name[32];
    snprintf(name, sizeof name, "worker-%d", which);
    want(!flight_start_in_child() && flight_start_in_child() == EALREADY && !flight_name(name), "no start", 0);
    for (int each = 0; each < 10 + which; each++)
        record((uint64_t)which);
    (void)raise(SIGSEGV);
}

static void workers_body(uint64_t has_file)
{
    struct flight_config config = {.threads = 3, .file = has_file ? workers_file : NULL};
    want(flight_start_in_child() == ENODEV, "this is no child", 0);
    start(&config);
    want(!flight_dump_on_crash(workers_path) && flight_start_in_child() == EALREADY, "no handlers", 0);
    config.file = path; // which isn't what it was started with
    for (int which = 0; which < 2; which++) {
        int status;
        pid_t child = fork();
        if (!child)
            end_worker(which);
        want(waitpid(child, &status, 0) == child && WIFSIGNALED(status) && WTERMSIG(status) == SIGSEGV, "an end", 0);
        truth->at_crash[which] = (uint64_t)child;
    }
    record(2);
    want(!flight_dump(workers_path) && !flight_stop() && flight_start_in_child() == ENODEV, "no dump", 0);
    truth->number = (uint64_t)getpid();
    config.file = second_path;
    start(&config);
    pid_t child = fork();
    if (!child) {
        want(flight_start_in_child() == EEXIST, "a parent's file", 0);
        _exit(0);
    }
    int status;
    want(waitpid(child, &status, 0) == child && !status && !flight_stop(), "a child", (uint64_t)status);
}

// The dump of this process, which isn't wanted any more.
static struct read_dump *dump_of(uint64_t process)
{
    char own[300];
    snprintf(own, sizeof own, "%.*s%llu", (int)strlen(workers_path) - 2, workers_path, (unsigned long long)process);
    struct read_dump *dump = open_dump(own);
    want(!unlink(own) && dump->process == process, "another process", process);
    return dump;
}

static void workers(void)
{
    snprintf(workers_path, sizeof workers_path, "%s.%%p", path);
    snprintf(workers_file, sizeof workers_file, "%s.file.%%p", path);
    for (uint64_t has_file = 0; has_file < 2; has_file++) {
        run_well(workers_body, has_file);
        for (uint64_t which = 0; which < 2; which++) {
            struct read_dump *dump = dump_of(truth->at_crash[which]);
            const struct read_ring *ring = ring_of_worker(dump, which);
            want(ring->count == 10 + which && dump->signal == SIGSEGV, "a worker's events", ring->count);
            free_dump(dump);
        }
        struct read_dump *dump = dump_of(truth->number);
        want(dump->rings[0].count == 1 && !dump->signal, "the parent's events", dump->rings[0].count);
        free_dump(dump);
        uint64_t processes[] = {truth->number, truth->at_crash[0], truth->at_crash[1]};
        for (size_t at = 0; has_file && at < 3; at++) {
            char own[300];
            snprintf(own, sizeof own, "%s.file.%llu", path, (unsigned long long)processes[at]);
            want(!unlink(own), "no file of a process", at);
        }
    }
}

// ---- A fork: the child has no recorder, and can start one.

static void fork_body(uint64_t unused)
{
    int status;
    (void)unused;
    start(NULL);
    name_worker(0);
    let_go(work_a_little, 1);
    wait_for(&truth->ready, 1);
    record(0);
    pid_t child = fork();
    if (!child) {
        record(0);
        want(flight_dump(second_path) == ENODEV && flight_stop() == ENODEV, "a recorder in the child", 0);
        want(flight_dump_on_crash(second_path) == ENODEV, "a recorder in the child", 0);
        start(NULL);
        truth->counted[0] = 0;
        record(0);
        record(0);
        want(!flight_dump(second_path) && !flight_stop(), "no dump of the child", 0);
        _exit(0);
    }
    want(waitpid(child, &status, 0) == child && status == 0, "the child", (uint64_t)status);
    truth->counted[0] = 1;
    record(0);
    want(!flight_dump(path), "no dump", 0);
}

static void forked(void)
{
    run_well(fork_body, 0);
    struct read_dump *dump = open_dump(path), *of_child = open_dump(second_path);
    check_worker(dump, ring_of_worker(dump, 0), 0);
    check_worker(dump, ring_of_worker(dump, 1), 1);
    check_worker(of_child, ring_of_worker(of_child, 0), 0);
    want(ring_of_worker(dump, 0)->count == 2 && ring_of_worker(dump, 1)->count == 4, "the parent's events", 0);
    want(ring_of_worker(of_child, 0)->count == 2 && dump->process != of_child->process, "the child's events", 0);
    free_dump(dump);
    free_dump(of_child);
}

// ---- What is answered.

static void want_start(struct flight_config config, int answer)
{
    int got = flight_start(&config);
    want(got == answer, "another answer of flight_start", (uint64_t)got);
    want(got || !flight_stop(), "no stop", 0);
}

static void answers_body(uint64_t unused)
{
    char long_path[5000];
    (void)unused;
    memset(long_path, 'x', sizeof long_path - 1);
    long_path[sizeof long_path - 1] = 0;
    want_start((struct flight_config){.threads = 65537, .levels = 1, .pages = 2, .size = 32}, EINVAL);
    want_start((struct flight_config){.threads = 32769, .pages = 2, .size = 32}, EINVAL);
    want_start((struct flight_config){.threads = 257}, 0);
    want_start((struct flight_config){.levels = 5}, EINVAL);
    want_start((struct flight_config){.pages = 1}, EINVAL);
    want_start((struct flight_config){.pages = 1025}, EINVAL);
    want_start((struct flight_config){.size = 28}, EINVAL);
    want_start((struct flight_config){.size = 4081}, EINVAL);
    want_start((struct flight_config){.size = 65524}, EINVAL);
    want_start((struct flight_config){.clock = FLIGHT_CALLER}, EINVAL);
    want_start((struct flight_config){.now = now_and_interrupted}, EINVAL);
    want_start((struct flight_config){.threads = 1, .levels = 4, .pages = 2, .size = 32, .keep = 1, .signal = 9}, 0);
    want(flight_dump(path) == ENODEV && flight_stop() == ENODEV, "no recorder runs", 0);
    TRACE("nobody has %d", 1);
    start(NULL);
    TRACE("text of %d", 1);
    want(flight_start(NULL) == EALREADY && flight_dump(NULL) == EINVAL, "one runs", 0);
    want(flight_dump_on_crash(NULL) == EINVAL && flight_name(NULL) == EINVAL, "null", 0);
    want(flight_dump_on_crash(long_path) == ENAMETOOLONG && flight_switch(NULL, true) == EINVAL, "too long", 0);
    want(flight_dump("/nowhere/at/all") == ENOENT && flight_dump("/dev/full") == ENOSPC, "no file", 0);
    errno = 77;
    TRACE("text of %d", 2);
    want(!flight_dump(path) && errno == 77, "errno", (uint64_t)errno);
    want(!flight_stop(), "no stop", 0);
    TRACE("nobody has %d", 2);
    want(!flight_start(NULL), "no second start", 0);
    TRACE("text of %d", 3);
    want(!flight_dump(second_path) && !flight_stop(), "no second recorder", 0);
}

static void answers(void)
{
    run_well(answers_body, 0);
    struct read_dump *dump = open_dump(path), *later = open_dump(second_path);
    want(dump->rings[0].count == 2 && later->rings[0].count == 1, "the events of each recorder", 0);
    want(argument_number(later, &later->rings[0].records[0], 0) == 3, "the second one's event", 0);
    free_dump(dump);
    free_dump(later);
}

// ---- It stops while threads end.

// (The linker has the recorder's threads call this one when they give their slots back.)
struct slot;
void __real_flight_hand_back(struct slot *slot);
void __wrap_flight_hand_back(struct slot *slot);
static _Thread_local bool is_held;

void __wrap_flight_hand_back(struct slot *slot)
{
    if (is_held) {
        is_held = false;
        count(&truth->ready);
        wait_for(&truth->other, 1);
    }
    __real_flight_hand_back(slot);
}

static void *end_slowly(void *given)
{
    record((uintptr_t)given);
    is_held = true;
    return NULL;
}

static void *release_later(void *us)
{
    nap((long)(uintptr_t)us);
    count(&truth->other);
    return NULL;
}

static void *record_once(void *given)
{
    record((uintptr_t)given);
    count(&truth->ready);
    return NULL;
}

static void stop_in_rounds(uint64_t rounds)
{
    struct flight_config config = {.threads = 8, .pages = 2};
    for (uint64_t round = 0; round < rounds; round++) {
        pthread_t threads[4];
        truth->ready = 0;
        start(&config);
        for (uint64_t which = 0; which < 4; which++)
            threads[which] = thread(record_once, which);
        wait_for(&truth->ready, round % 4);
        want(!flight_dump(path), "no dump", round);
        while (seen(&truth->ready) < 4)
            continue;
        want(!flight_stop(), "no stop", round);
        for (uint64_t which = 0; which < 4; which++)
            want(!pthread_join(threads[which], NULL), "no end", which);
    }
}

// Starts, and has a thread that is held where it gives its slot back.
static void start_and_hold(void)
{
    __atomic_store_n(&truth->ready, 0, __ATOMIC_SEQ_CST);
    __atomic_store_n(&truth->other, 0, __ATOMIC_SEQ_CST);
    start(NULL);
    let_go(end_slowly, 1);
    wait_for(&truth->ready, 1);
}

static void stops_body(uint64_t rounds)
{
    stop_in_rounds(rounds);
    start_and_hold();
    let_go(release_later, 50000);
    want(!flight_stop(), "no stop", 0);
    want(seen(&truth->other), "a recorder that stops while a thread ends", 0);
    // A thread that is held for longer than it waits: it goes on.
    start_and_hold();
    want(!flight_name("main"), "no name", 0);
    record(0);
    errno = 77;
    want(flight_stop() == ETIMEDOUT && errno == 77, "another answer of flight_stop", (uint64_t)errno);
    record(0);
    want(!flight_dump(path), "no dump", 0);
    count(&truth->other);
    want(!flight_stop() && errno == 77, "no stop", (uint64_t)errno);
}

static void stops(void)
{
    run_well(stops_body, 400 / scale);
    struct read_dump *dump = open_dump(path);
    const struct read_ring *ring = ring_named(dump, "main", 0);
    want(ring->count == 2, "events of a recorder that goes on", ring->count);
    free_dump(dump);
}

// ---- A stop while another thread dumps: it stops nothing.

static void *dump_slowly(void *unused)
{
    is_held_in_dump = true;
    want(!flight_dump(path), "no dump", 0);
    return unused;
}

static void held_body(uint64_t unused)
{
    (void)unused;
    start(NULL);
    record(0);
    pthread_t dumping = thread(dump_slowly, 0);
    wait_for(&truth->ready, 1);
    want(flight_stop() == EBUSY && flight_dump(second_path) == EBUSY, "a stop amid a dump", 0);
    record(0);
    count(&truth->other);
    want(!pthread_join(dumping, NULL) && !flight_dump(second_path) && !flight_stop(), "no stop", 0);
}

static void held(void)
{
    run_well(held_body, 0);
    struct read_dump *dump = open_dump(path), *later = open_dump(second_path);
    want(dump->rings[0].count == 1 && later->rings[0].count == 2, "the events of both dumps", later->rings[0].count);
    free_dump(dump);
    free_dump(later);
}

// ---- Started and stopped again and again, the memory of a process stays as it is.

static size_t mapped_pages(void)
{
    size_t pages = 0;
    FILE *file = fopen("/proc/self/statm", "r");
    want(file && fscanf(file, "%zu", &pages) == 1 && !fclose(file), "no size of this process", 0);
    return pages;
}

static void again_body(uint64_t cycles)
{
    enum { MOST_GROWTH = 8192 };
    size_t before = 0;
    for (uint64_t each = 0; each < cycles; each++) {
        start(NULL);
        record(0);
        want(!flight_stop(), "no stop", each);
        before = each ? before : mapped_pages();
    }
    want(mapped_pages() < before + MOST_GROWTH, "the memory grows", mapped_pages() - before);
}

static void again(void)
{
    run_well(again_body, 40);
}

// ---- A fault whose signal was ignored before ends the process, as the kernel has it; one that is sent doesn't.

static uint64_t now_and_then(void)
{
    enum { MOST_CALLS = 1000 };
    count(&truth->number);
    if (seen(&truth->number) > MOST_CALLS)
        _exit(1); // the fault happens for ever
    return seen(&truth->number);
}

static void ignored_body(uint64_t is_sent)
{
    struct flight_config config = {.clock = FLIGHT_CALLER, .now = now_and_then};
    want(signal(SIGSEGV, SIG_IGN) != SIG_ERR, "no action", 0);
    start(&config);
    want(!flight_dump_on_crash(path), "no handlers", 0);
    record(0);
    if (is_sent)
        want(!raise(SIGSEGV), "no signal", 0);
    else
        *nowhere = 1;
}

static void ignored(void)
{
    run_well(ignored_body, true);
    free_dump(open_dump(path));
    int status = run(ignored_body, false);
    want(WIFSIGNALED(status) && WTERMSIG(status) == SIGSEGV, "another end", (uint64_t)status);
    struct read_dump *dump = open_dump(path);
    want(dump->rings[0].count == 1 && dump->signal == SIGSEGV, "its event", dump->rings[0].count);
    free_dump(dump);
}

// ---- Events that are too long, some of them of handlers that interrupt others: each is counted on its ring.

static volatile bool is_amid;

static void on_timer_long(int signal)
{
    static char text[100];
    (void)signal;
    memset(text, 'x', sizeof text - 1);
    truth->at_crash[0] += is_amid;
    TRACE("too long: %s", text);
    truth->other++;
}

static void too_long_body(uint64_t unused)
{
    struct flight_config config = {.size = 64};
    sigset_t of_timer;
    (void)unused;
    start(&config);
    name_worker(0);
    start_timer(on_timer_long, 23000, 23000);
    while (truth->at_crash[0] < 3000 / scale) {
        is_amid = true;
        record(0);
        is_amid = false;
    }
    sigemptyset(&of_timer);
    sigaddset(&of_timer, SIGUSR1);
    want(!sigprocmask(SIG_BLOCK, &of_timer, NULL) && !flight_dump(path), "no dump", 0);
}

static void too_long(void)
{
    enum { TOO_LONG = 2 };
    run_well(too_long_body, 0);
    struct read_dump *dump = open_dump(path);
    const struct read_ring *first = ring_named(dump, "worker-0", 0), *second = first + 1;
    want(second->is_there && second->level == 1 && second->slot == first->slot, "no second ring", first->slot);
    want(second->refused[TOO_LONG], "no event of a handler is refused on the second ring", truth->other);
    want(first->refused[TOO_LONG] + second->refused[TOO_LONG] == truth->other, "an event isn't counted", truth->other);
    free_dump(dump);
}

// ---- Arguments.

enum color { RED, GREEN = -7 };

// Bytes that end where no more can be read.
static char *at_edge(const char *bytes, size_t len)
{
    char *pages = mmap(NULL, 8192, PROT_READ | PROT_WRITE, MAP_PRIVATE | MAP_ANONYMOUS, -1, 0);
    want(pages != MAP_FAILED && !mprotect(pages + 4096, 4096, PROT_NONE), "no pages", 0);
    return memcpy(pages + 4096 - len, bytes, len);
}

// (clang has it that only a `void *` is for %p, and not any pointer to characters.)
#ifdef __clang__
#pragma clang diagnostic ignored "-Wformat-pedantic"
#endif

static void arguments_body(uint64_t unused)
{
    char long_text[400];
    unsigned char unsigned_text[] = "uns";
    signed char negative = -2;
    (void)unused;
    memset(long_text, 'y', sizeof long_text);
    long_text[399] = 0;
    start(NULL);
    TRACE("%d %u %ld %lu %lld %llu %hd %hu", -1, 2u, -3L, 4ul, -5LL, 6ull, (short)-7, (unsigned short)8);
    TRACE("%c %hhd %hhu %d %d %zu %f %f", 'c', negative, (unsigned char)250, (bool)true, GREEN, sizeof(int), 1.5, 2.5f);
    TRACE("%Lf %p %s|%s", 0.25L, (void *)16, "text", (const char *)unsigned_text);
    TRACE("%s %.3s %.*s", long_text, at_edge("abc", 3), 2, at_edge("de", 2));
    TRACE("%p %5.1f%% %-*s", at_edge("f", 1), 3.0, 9, "g");
    TRACE("%.300s %.*s %s", long_text, -1, "h", long_text + 399 - 255);
    TRACE("no argument");
    char *volatile none = NULL;
    TRACE("%s %.*s", none, 0, none);
    want(!flight_dump(path), "no dump", 0);
}

static void want_text(const struct read_dump *dump, size_t event, uint32_t index, const char *text, bool is_cut)
{
    size_t len;
    bool was_cut = false;
    const uint8_t *bytes = argument(dump, &dump->rings[0].records[event], index, &len, &was_cut);
    want(len == strlen(text) && !memcmp(bytes, text, len) && is_cut == was_cut, "a text", event);
}

static void want_number(const struct read_dump *dump, size_t event, uint32_t index, unsigned kind, uint64_t number)
{
    const struct read_record *record = &dump->rings[0].records[event];
    unsigned len = kind & 15, shift = 64 - 8 * len;
    want(site_of(dump, record)->kinds[index] == kind, "a kind", site_of(dump, record)->kinds[index]);
    want(argument_number(dump, record, index) == number << shift >> shift, "a number", event);
}

static void arguments(void)
{
    static const unsigned kinds[2][8] = {{4, 0x14, 8, 0x18, 8, 0x18, 2, 0x12}, {4, 1, 0x11, 0x11, 4, 0x18, 0x28, 0x24}};
    static const uint64_t numbers[2][8] = {{-1ull, 2, -3ull, 4, -5ull, 6, -7ull, 8},
        {'c', -2ull, 250, 1, -7ull, 4, 0x3ff8000000000000, 0x40200000}};
    run_well(arguments_body, 0);
    struct read_dump *dump = open_dump(path);
    char long_text[256];
    memset(long_text, 'y', 255);
    long_text[255] = 0;
    for (size_t event = 0; event < 2; event++)
        for (uint32_t index = 0; index < 8; index++)
            want_number(dump, event, index, kinds[event][index], numbers[event][index]);
    want_number(dump, 2, 0, 0x28, 0x3fd0000000000000);
    want_number(dump, 2, 1, 0x38, 16);
    want_text(dump, 2, 2, "text", false);
    want_text(dump, 2, 3, "uns", false);
    want_text(dump, 3, 0, long_text, true);
    want_text(dump, 3, 1, "abc", false);
    want_text(dump, 3, 3, "de", false);
    want(site_of(dump, &dump->rings[0].records[4])->kinds[0] == 0x38, "an address of characters", 4);
    want_number(dump, 4, 2, 4, 9);
    want_text(dump, 4, 3, "g", false);
    want_text(dump, 5, 0, long_text, true);
    want_text(dump, 5, 2, "h", false);
    want_text(dump, 5, 3, long_text, false);
    want(dump->rings[0].records[6].len == 4, "an event without an argument", 6);
    want_text(dump, 7, 0, "(null)", false);
    free_dump(dump);
}

// ---- What a signal did before it dumps, it does afterwards.

static void on_former(int signal, siginfo_t *info, void *context)
{
    sigset_t now;
    (void)context;
    want(signal == SIGTERM && info->si_pid == getpid(), "another signal", (uint64_t)signal);
    want(!pthread_sigmask(0, NULL, &now) && sigismember(&now, SIGUSR2) && !sigismember(&now, SIGUSR1), "the mask", 0);
    count(&truth->number);
}

static void former_body(uint64_t is_ignored)
{
    struct sigaction action = {.sa_sigaction = on_former, .sa_flags = SA_SIGINFO};
    sigemptyset(&action.sa_mask);
    sigaddset(&action.sa_mask, SIGUSR2);
    want(is_ignored ? signal(SIGTERM, SIG_IGN) != SIG_ERR : !sigaction(SIGTERM, &action, NULL), "no handler", 0);
    start(NULL);
    want(!flight_dump_on_crash(second_path) && !flight_dump_on_crash(path), "no handlers", 0);
    for (int each = 0; each < 3; each++) {
        record(0);
        want(!raise(SIGTERM), "no signal", 0);
    }
    want(!flight_stop(), "no stop", 0);
    if (!is_ignored)
        want(!raise(SIGTERM), "no signal", 0);
}

static void former_actions(void)
{
    for (uint64_t is_ignored = 0; is_ignored < 2; is_ignored++) {
        run_well(former_body, is_ignored);
        struct read_dump *dump = open_dump(path);
        want(dump->rings[0].count == 3 && dump->signal == SIGTERM, "the last dump", dump->rings[0].count);
        want(truth->number == (is_ignored ? 0 : 4), "calls of the former handler", truth->number);
        want(access(second_path, F_OK) != 0, "a dump to the former path", 0);
        free_dump(dump);
    }
}

// ---- A handler over those of the recorder, which stops, starts and gets them again: each is called once.

static struct sigaction below;

static void on_above(int signal, siginfo_t *info, void *context)
{
    count(&truth->number);
    want(seen(&truth->number) == 1 && (below.sa_flags & SA_SIGINFO), "the handler above", seen(&truth->number));
    below.sa_sigaction(signal, info, context);
}

static void chained_body(uint64_t starts)
{
    struct sigaction action = {.sa_sigaction = on_above, .sa_flags = SA_SIGINFO};
    start(NULL);
    want(!flight_dump_on_crash(path) && !sigaction(SIGABRT, &action, &below), "no handlers", 0);
    for (uint64_t each = 1; each < starts; each++) {
        want(!flight_stop() && !flight_start(NULL) && !flight_dump_on_crash(path), "no handlers", each);
        want(!sigaction(SIGTERM, NULL, &action) && (action.sa_flags & SA_SIGINFO), "a handler that isn't back", each);
    }
    record(0);
    abort();
}

static void chained(void)
{
    for (uint64_t starts = 1; starts < 4; starts++) {
        int status = run(chained_body, starts);
        want(WIFSIGNALED(status) && WTERMSIG(status) == SIGABRT, "another end", (uint64_t)status);
        struct read_dump *dump = open_dump(path);
        want(dump->rings[0].count == 1 && dump->signal == SIGABRT && truth->number == 1, "a dump", dump->signal);
        free_dump(dump);
    }
}

// ---- Dumps in handlers, some of which interrupt an event.

static void on_timer_dump(int signal)
{
    (void)signal;
    truth->at_crash[0] = truth->counted[0];
    want(!flight_dump(path), "no dump", 0);
    truth->ready = 1;
}

static void check_amid(void)
{
    struct read_dump *dump = open_dump(path);
    const struct read_ring *ring = &dump->rings[0];
    uint64_t counted = truth->at_crash[0];
    check_worker(dump, ring, 0);
    want(ring->written == counted || ring->written == counted + 1, "events", ring->written);
    want(ring->count, "no event", 0);
    truth->number++;
    free_dump(dump);
}

static void amid_body(uint64_t unused)
{
    (void)unused;
    start(NULL);
    name_worker(0);
    record(0);
    start_timer(on_timer_dump, 0, 200000);
    while (truth->number < 300 / scale) {
        record(0);
        if (!seen(&truth->ready))
            continue;
        check_amid();
        truth->ready = 0;
        struct itimerspec again = {{0, 0}, {0, 100000 + (long)truth->number * 37}};
        want(!timer_settime(timer, 0, &again, NULL), "no timer", 0);
    }
}

static void amid_calls(void)
{
    run_well(amid_body, 0);
}

// ---- Eight threads record as fast as they can, while a ninth dumps. The eighth is ever another one.

static void *work_until_told(void *given)
{
    uint64_t which = (uintptr_t)given;
    name_worker(which);
    do {
        for (int each = 0; each < 100; each++)
            record(which);
        if (scale > 1)
            nap(1);
    } while (!seen(&truth->other));
    return NULL;
}

// Threads that begin, record a little and end, one after the other.
static void *work_by_others(void *given)
{
    uint64_t which = (uintptr_t)given;
    while (!seen(&truth->other)) {
        want(!pthread_join(thread(work_and_end, which), NULL), "no end", which);
        count(&truth->counted[which]);
    }
    return NULL;
}

// What one ring of the last dump has is as it is in this one.
static void compare(const struct read_ring *last, const struct read_ring *now)
{
    want(last->written <= now->written, "counts fall", now->written);
    check_same(last, now);
}

static void hammer_body(uint64_t dumps)
{
    struct flight_config config = {.threads = 24, .clock = FLIGHT_TSC};
    pthread_t threads[8];
    struct read_dump *last = NULL;
    uint64_t begun = now_and_interrupted(), before[7];
    start(&config);
    for (uint64_t which = 0; which < 7; which++)
        threads[which] = thread(work_until_told, which);
    for (uint64_t which = 0; which < 7; which++)
        wait_for(&truth->counted[which], 1);
    // Only now, so that none of the seven gets a slot that one of these had: then its numbers wouldn't begin with 0.
    threads[7] = thread(work_by_others, 7);
    wait_for(&truth->counted[7], 1);
    // On a machine that is busy with other things it takes long: then it makes fewer dumps.
    for (uint64_t each = 0; each < dumps && now_and_interrupted() - begun < 10000000000; each++) {
        for (uint64_t which = 0; which < 7; which++)
            before[which] = seen(&truth->counted[which]);
        want(!flight_dump(path), "no dump", 0);
        count(&truth->ready);
        struct read_dump *dump = open_dump(path);
        for (uint64_t which = 0; which < 7; which++) {
            const struct read_ring *ring = ring_of_worker(dump, which);
            check_worker(dump, ring, which);
            want(ring->written >= before[which], "an event that had returned", which);
            if (last)
                compare(ring_of_worker(last, which), ring);
        }
        if (last)
            free_dump(last);
        last = dump;
    }
    count(&truth->other);
    for (uint64_t which = 0; which < 8; which++)
        want(!pthread_join(threads[which], NULL), "no end", which);
    want(!flight_dump(path), "no dump", 0);
    for (uint64_t which = 0; which < 7; which++)
        compare(ring_of_worker(last, which), ring_of_worker(open_dump(path), which));
}

static void hammer(void)
{
    run_well(hammer_body, 100 / scale);
    struct read_dump *dump = open_dump(path);
    for (uint64_t which = 0; which < 7; which++) {
        const struct read_ring *ring = ring_of_worker(dump, which);
        want(ring->written == truth->counted[which], "an event isn't counted", which);
    }
    printf("hammer: %llu events, %llu threads that ended, %llu dumps\n", (unsigned long long)sum(truth->counted, 7),
        (unsigned long long)truth->counted[7], (unsigned long long)truth->ready);
    free_dump(dump);
}

static const struct flight_case cases[] = {
    {"crashes", crashes}, {"busy", busy}, {"together", together}, {"beside", beside}, {"gone", gone_faults},
    {"cancelled", cancelled}, {"replaced", replaced}, {"refused", refused}, {"moved", moved}, {"idle", idle_threads},
    {"used_up", used_up}, {"blocked", blocked}, {"hit", hit_anywhere}, {"ended", ended}, {"crowded", crowded},
    {"handlers", handlers}, {"first", first_events}, {"two_dumps", two_dumps}, {"switches", switches},
    {"held", held}, {"again", again}, {"ignored", ignored}, {"too_long", too_long}, {"levels", levels},
    {"workers", workers}, {"forked", forked}, {"answers", answers}, {"stops", stops},
    {"arguments", arguments}, {"former", former_actions}, {"chained", chained}, {"amid", amid_calls},
    {"hammer", hammer}};

int main(int argc, char **argv)
{
    return carry_out(cases, sizeof cases / sizeof *cases, argc, argv);
}
