// The flight recorder among programs that mean it no good: `flight_hostile FOLDER SCALE [CASE..]`. Dumps to where they
// can't be written, or nobody reads; a file that is cut; threads that end without a word, and more than have a ring; an
// object that is unloaded (which is FOLDER/plugin.so).
#define _GNU_SOURCE
#include "flight_cases.h"

#include <dlfcn.h>
#include <fcntl.h>
#include <semaphore.h>
#include <sys/resource.h>
#include <sys/syscall.h>

static uint64_t milliseconds(void)
{
    struct timespec time;
    want(!clock_gettime(CLOCK_MONOTONIC, &time), "no clock", 0);
    return (uint64_t)time.tv_sec * 1000 + (uint64_t)time.tv_nsec / 1000000;
}

static void record_many(uint64_t which, int events)
{
    name_worker(which);
    for (int each = 0; each < events; each++)
        record(which);
}

// A dump that fails with this error, and loses nothing: the next one has all events.
static void fail_and_go_on(const char *at, int fault)
{
    int before = errno = 77, got = flight_dump(at);
    want(got == fault && errno == before, "another answer of flight_dump", (uint64_t)got);
    want(!flight_dump(second_path), "no dump after one that failed", 0);
}

static void check_second(uint64_t events)
{
    struct read_dump *dump = open_dump(second_path);
    const struct read_ring *ring = ring_of_worker(dump, 0);
    check_worker(dump, ring, 0);
    want(ring->count == events && ring->written == events, "an event isn't there", ring->count);
    free_dump(dump);
}

// ---- A limit of files' lengths, whose signal ends a process by default.

static void limited_body(uint64_t has_pending)
{
    struct rlimit before, limit;
    sigset_t one;
    start(NULL);
    record_many(0, 100);
    want(!getrlimit(RLIMIT_FSIZE, &before), "no limit", 0);
    limit = (struct rlimit){1000, before.rlim_max};
    sigemptyset(&one);
    sigaddset(&one, SIGXFSZ);
    // One that is pending from before is none of the dump's, and stays.
    want(!has_pending || (!pthread_sigmask(SIG_BLOCK, &one, NULL) && !raise(SIGXFSZ)), "no signal", 0);
    want(!setrlimit(RLIMIT_FSIZE, &limit) && flight_dump(path) == EFBIG, "a dump that is too long", 0);
    want(!setrlimit(RLIMIT_FSIZE, &before), "no limit", 0);
    want(!sigpending(&one) && sigismember(&one, SIGXFSZ) == (int)has_pending, "a signal that is pending", has_pending);
    fail_and_go_on("/nowhere/at/all", ENOENT);
}

static void limited(void)
{
    for (uint64_t has_pending = 0; has_pending < 2; has_pending++) {
        run_well(limited_body, has_pending);
        check_second(100);
        char other[sizeof path + 1];
        snprintf(other, sizeof other, "%s~", path);
        want(!unlink(other), "what was written isn't there", 0);
    }
}

// ---- A crash under such a limit: the process ends by its own signal.

static void limited_crash_body(uint64_t unused)
{
    struct rlimit limit = {1000, 1000};
    (void)unused;
    start(NULL);
    want(!flight_dump_on_crash(path) && !setrlimit(RLIMIT_FSIZE, &limit), "no handlers", 0);
    record_many(0, 100);
    abort();
}

static void limited_crash(void)
{
    int status = run(limited_crash_body, 0);
    want(WIFSIGNALED(status) && WTERMSIG(status) == SIGABRT, "another end", (uint64_t)status);
}

// ---- Pipes: closed, without a reader, of a reader that is slow, and of one that never reads.

static void name_pipe(void)
{
    (void)unlink(path);
    want(!mkfifo(path, 0600), "no pipe", 0);
}

static void *read_a_little(void *unused)
{
    char bytes[100];
    (void)unused;
    int file = open(path, O_RDONLY);
    want(file >= 0 && read(file, bytes, sizeof bytes) > 0, "no read", (uint64_t)file);
    nap(20000); // so that the pipe is full by then
    want(!close(file), "no close", 0);
    return NULL;
}

static void *read_slowly(void *unused)
{
    static char bytes[4096];
    (void)unused;
    int file = open(path, O_RDONLY), to = open(second_path, O_WRONLY | O_CREAT | O_TRUNC, 0600);
    want(file >= 0 && to >= 0, "no files", 0);
    for (ssize_t got; (got = read(file, bytes, sizeof bytes)) > 0; nap(1000))
        want(write(to, bytes, (size_t)got) == got, "no write", 0);
    want(!close(file) && !close(to), "no close", 0);
    return NULL;
}

// Has a reader wait for the pipe's other end, which this thread opens for so long.
static pthread_t start_reader(void *(*body)(void *), int *held)
{
    name_pipe();
    pthread_t reader = thread(body, 0);
    while ((*held = open(path, O_WRONLY | O_NONBLOCK)) < 0)
        nap(100);
    return reader;
}

static void *fill_ring(void *given)
{
    record_many((uintptr_t)given, 3000);
    return NULL;
}

// More events than a pipe holds.
static void fill_rings(void)
{
    for (uint64_t which = 0; which < 6; which++)
        want(!pthread_join(thread(fill_ring, which), NULL), "no thread", which);
}

static void pipes_body(uint64_t unused)
{
    int held;
    (void)unused;
    start(NULL);
    fill_rings();
    name_pipe();
    uint64_t begun = milliseconds();
    fail_and_go_on(path, ENXIO);
    want(milliseconds() - begun < 2000, "a pipe without a reader is waited for", milliseconds() - begun);
    pthread_t reader = start_reader(read_a_little, &held);
    want(flight_dump(path) == EPIPE, "a pipe that is closed", 0);
    want(!close(held) && !pthread_join(reader, NULL), "no end", 0);
    want(!unlink(second_path), "no dump", 0);
    reader = start_reader(read_slowly, &held);
    want(!flight_dump(path), "a pipe that is read slowly", 0);
    want(!close(held) && !pthread_join(reader, NULL), "no end", 0);
}

static void pipes(void)
{
    run_well(pipes_body, 0);
    struct read_dump *dump = open_dump(second_path);
    want(ring_of_worker(dump, 0)->written == 3000 && dump->len > 100000, "a dump through a pipe", dump->len);
    free_dump(dump);
}

static void never_read_body(uint64_t unused)
{
    (void)unused;
    start(NULL);
    fill_rings();
    name_pipe();
    int reader = open(path, O_RDONLY | O_NONBLOCK);
    want(reader >= 0, "no reader", 0);
    uint64_t begun = milliseconds();
    want(flight_dump(path) == ETIMEDOUT, "a pipe that nobody reads", 0);
    want(milliseconds() - begun < 20000, "it is waited for too long", milliseconds() - begun);
    want(!flight_dump(second_path), "no dump", 0);
}

static void never_read(void)
{
    run_well(never_read_body, 0);
}

// ---- The recorder's file is cut, or zeroed, by another process. (No thread records any more.)

static char file_path[300];

static void cut_body(uint64_t len)
{
    struct flight_config config = {.file = file_path};
    start(&config);
    record_many(0, 100);
    want(!flight_dump(second_path), "no dump of a whole file", 0);
    struct stat found;
    want(!stat(file_path, &found), "no file", 0);
    want(!truncate(file_path, (off_t)(len ? len : (uint64_t)found.st_size - 1)), "no cut", len);
    int got = flight_dump(path);
    want(got == (len ? EIO : 0), "a file that was cut", (uint64_t)got);
    want(!truncate(file_path, 0) && !truncate(file_path, found.st_size), "no cut", 0);
    want(flight_dump(path) == EIO, "a file of zeros", 0);
}

static void cut(void)
{
    snprintf(file_path, sizeof file_path, "%s.rings", path);
    for (uint64_t len = 0; len < 20000; len += 4096) {
        run_well(cut_body, len);
        check_second(100);
    }
    want(!unlink(file_path), "no file", 0);
}

// ---- Threads that end by a system call, or whose destructor records after the recorder's: their slots are found
// again.

static void *end_by_call(void *given)
{
    uint64_t which = (uintptr_t)given;
    TRACE("thread %u", (unsigned)which);
    count(&truth->counted[0]);
    (void)syscall(SYS_exit, 0);
    return NULL;
}

static pthread_key_t late_key;

static void record_late(void *given)
{
    TRACE("thread %u ends", (unsigned)(uintptr_t)given);
    count(&truth->counted[0]);
    (void)pthread_setspecific(late_key, given);
}

static void *end_late(void *given)
{
    want(!pthread_setspecific(late_key, given), "no key", 0);
    TRACE("thread %u", (unsigned)(uintptr_t)given);
    count(&truth->counted[0]);
    return NULL;
}

// A thread that ends by a call is never joined: the memory of its stack stays.
static void start_small(void *(*body)(void *), uint64_t which)
{
    pthread_attr_t attributes;
    pthread_t made;
    want(!pthread_attr_init(&attributes) && !pthread_attr_setstacksize(&attributes, 1 << 16), "no attributes", 0);
    want(!pthread_create(&made, &attributes, body, (void *)(uintptr_t)which), "no thread", which);
}

static void left_body(uint64_t is_late)
{
    struct flight_config config = {.threads = 4};
    start(&config);
    want(!pthread_key_create(&late_key, record_late), "no key", 0);
    for (uint64_t which = 1; which <= 200; which++) {
        uint64_t before = seen(&truth->counted[0]);
        if (is_late) {
            want(!pthread_join(thread(end_late, which), NULL), "no end", which);
            continue;
        }
        start_small(end_by_call, which);
        wait_for(&truth->counted[0], before + 1);
        nap(200); // so that the kernel has ended it
    }
    want(!flight_dump(path), "no dump", 0);
}

static void left(void)
{
    for (uint64_t is_late = 0; is_late < 2; is_late++) {
        run_well(left_body, is_late);
        struct read_dump *dump = open_dump(path);
        uint64_t written = 0;
        for (uint32_t ring = 0; ring < 8; ring++)
            written += dump->rings[ring].written;
        want(written + dump->without_ring == truth->counted[0], "an event isn't counted", written);
        want(!dump->without_ring, "an event without a ring", dump->without_ring);
        free_dump(dump);
    }
}

// ---- Many threads at once, each with a ring of its own, and one that has none.

static sem_t may_end;

static void *record_and_stay(void *given)
{
    uint64_t which = (uintptr_t)given;
    for (unsigned each = 0; each < 5; each++)
        TRACE("many %u event %u", (unsigned)which, each);
    count(&truth->ready);
    while (sem_wait(&may_end))
        continue;
    return NULL;
}

static void many_body(uint64_t threads)
{
    struct flight_config config = {.threads = (uint32_t)threads, .levels = 1, .pages = 2, .size = 256};
    pthread_attr_t attributes;
    pthread_t *made = calloc(threads + 1, sizeof *made);
    start(&config);
    want(!sem_init(&may_end, 0, 0), "no semaphore", 0);
    want(made && !pthread_attr_init(&attributes) && !pthread_attr_setstacksize(&attributes, 1 << 16), "no memory", 0);
    for (uint64_t which = 0; which <= threads; which++) {
        void *given = (void *)(uintptr_t)which;
        want(!pthread_create(&made[which], &attributes, record_and_stay, given), "no thread", which);
        wait_for(&truth->ready, which + 1);
    }
    want(!flight_dump(path), "no dump", 0);
    for (uint64_t which = 0; which <= threads; which++)
        want(!sem_post(&may_end), "no post", which);
    for (uint64_t which = 0; which <= threads; which++)
        want(!pthread_join(made[which], NULL), "no end", which);
    want(!flight_stop(), "no stop", 0);
    free(made);
}

static void many(void)
{
    const uint64_t threads = 700 / scale + 300;
    run_well(many_body, threads);
    struct read_dump *dump = open_dump(path);
    for (uint64_t which = 0; which < threads; which++) {
        const struct read_ring *ring = &dump->rings[which];
        want(ring->is_there && ring->count == 5, "a thread's events", which);
        for (size_t each = 0; each < 5; each++)
            want(argument_number(dump, &ring->records[each], 0) == which, "an event of another thread", which);
    }
    want(dump->without_ring == 5, "events without a ring", dump->without_ring);
    free_dump(dump);
}

// As many slots as there can be are made, used and released at once.
static void most_body(uint64_t unused)
{
    struct flight_config config = {.threads = 65536, .levels = 1, .pages = 2, .size = 32};
    uint64_t begun = milliseconds();
    (void)unused;
    start(&config);
    record_many(0, 1);
    want(!flight_dump(second_path) && !flight_stop(), "no dump", 0);
    want(milliseconds() - begun < 20000, "it takes too long", milliseconds() - begun);
}

static void most(void)
{
    run_well(most_body, 0);
    check_second(1);
}

// ---- An object with TRACE is unloaded: its events stay, and nothing reads it any more.

static char plugin[300];

static void unloaded_body(uint64_t loads)
{
    start(NULL);
    name_worker(0);
    for (uint64_t load = 0; load < loads; load++) {
        void *object = dlopen(plugin, RTLD_NOW);
        want(object != NULL, "no object", load);
        void (*trace)(int);
        *(void **)&trace = dlsym(object, "trace_one");
        want(trace != NULL, "no function", load);
        trace((int)load);
        want(!dlclose(object), "it stays", load);
        want(!dlopen(plugin, RTLD_NOW | RTLD_NOLOAD), "it is loaded still", load);
    }
    want(!flight_switch("*part one*", false) && !flight_switch("*part one*", true), "no switch", 0);
    want(!flight_dump(path) && !flight_stop() && !flight_start(NULL), "no dump", 0);
    record(0);
    want(!flight_dump(second_path), "no second dump", 0);
}

static void unloaded(void)
{
    const uint64_t loads = 100;
    run_well(unloaded_body, loads);
    struct read_dump *dump = open_dump(path);
    const struct read_ring *ring = ring_of_worker(dump, 0);
    want(ring->count == loads, "events of an object that is gone", ring->count);
    for (size_t each = 0; each < ring->count; each++) {
        const struct read_site *site = site_of(dump, &ring->records[each]);
        want(!strcmp(site->format, "part one %d"), "its format", each);
        want(!strcmp(site->file, "tests/c/flight_objects.c"), "its file", each);
        want(argument_number(dump, &ring->records[each], 0) == each, "its argument", each);
        want(site == site_of(dump, &ring->records[0]), "a site is known twice", each);
    }
    free_dump(dump);
}

static const struct flight_case cases[] = {{"limited", limited}, {"limited_crash", limited_crash}, {"pipes", pipes},
    {"never_read", never_read}, {"cut", cut}, {"left", left}, {"many", many}, {"most", most}, {"unloaded", unloaded}};

int main(int argc, char **argv)
{
    if (argc > 1)
        snprintf(plugin, sizeof plugin, "%s/plugin.so", argv[1]);
    return carry_out(cases, sizeof cases / sizeof *cases, argc, argv);
}
