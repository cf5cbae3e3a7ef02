// Kills programs that record in a flight file, at random instants, and reads what is there: `flight_file_kills FOLDER
// KILLS SEED [live]`. Their threads begin, record, change their names and end; handlers of two signals interrupt
// these and each other; sites are first reached all the time. With `live` the file is read while the program runs.
#define _GNU_SOURCE
#include "flight_file_account.h"

#include <errno.h>
#include <pthread.h>
#include <signal.h>
#include <sys/mman.h>
#include <sys/prctl.h>
#include <sys/wait.h>
#include <time.h>
#include <unistd.h>

enum { LANES = 4 };

static char path[200];
static uint64_t random_state;

static uint64_t next_random(uint64_t *state)
{
    *state ^= *state << 13;
    *state ^= *state >> 7;
    *state ^= *state << 17;
    return *state * 0x2545f4914f6cdd1d;
}

static void nap(uint64_t us)
{
    struct timespec time = {(time_t)(us / 1000000), (long)(us % 1000000 * 1000)};
    while (nanosleep(&time, &time) && errno == EINTR)
        continue;
}

// ---- The program.

struct person {
    unsigned name;
    char who[SHARED_NAME];
    uint64_t state;
    unsigned long own, handled;
};
static _Thread_local struct person *volatile me;

// The later it is, the more sites there are.
static unsigned pick_site(uint64_t number)
{
    uint64_t most = 1 + seen(&truth->begun) / 16;
    return (unsigned)(number % (most < SITES ? most : SITES));
}

static void on_signal(int signal)
{
    (void)signal;
    int before = errno;
    struct person *person = me;
    if (person) {
        unsigned long number = __atomic_fetch_add(&person->handled, 1, __ATOMIC_RELAXED);
        count(&truth->begun);
        sites[pick_site(number * 7)](person->who, "handler", number);
        count(&truth->returned);
    }
    errno = before;
}

// No handler records during a change of the name.
static void take_name(struct person *person)
{
    sigset_t all, former;
    sigfillset(&all);
    want(!pthread_sigmask(SIG_SETMASK, &all, &former), "no mask", 0, 0);
    person->name = (unsigned)__atomic_fetch_add(&truth->names, 1, __ATOMIC_SEQ_CST);
    want(person->name < MOST_NAMES, "too many names", person->name, 0);
    person->own = 0;
    snprintf(person->who, sizeof person->who, "n%u", person->name);
    want(!flight_name(person->who), "no name", 0, 0);
    want(!pthread_sigmask(SIG_SETMASK, &former, NULL), "no mask", 0, 0);
}

static void *live_once(void *given)
{
    struct person person = {.state = (uintptr_t)given};
    sigset_t signals;
    take_name(&person);
    me = &person;
    sigemptyset(&signals);
    sigaddset(&signals, SIGUSR1);
    sigaddset(&signals, SIGUSR2);
    (void)pthread_sigmask(SIG_UNBLOCK, &signals, NULL);
    for (uint64_t left = next_random(&person.state) % 300; left; left--) {
        count(&truth->begun);
        sites[pick_site(next_random(&person.state))](person.who, "own", person.own);
        count(&truth->returned);
        count(&truth->own[person.name]);
        person.own++;
        if (next_random(&person.state) % 64 == 0)
            take_name(&person);
    }
    (void)pthread_sigmask(SIG_BLOCK, &signals, NULL);
    me = NULL;
    return NULL;
}

static _Noreturn void *live_on(void *given)
{
    uint64_t state = (uintptr_t)given;
    for (;;) {
        pthread_t thread;
        void *seed = (void *)(uintptr_t)(next_random(&state) | 1);
        want(!pthread_create(&thread, NULL, live_once, seed), "no thread", 0, 0);
        want(!pthread_join(thread, NULL), "no end", 0, 0);
    }
}

static void start_timer(int signal, long ns)
{
    struct sigevent event = {.sigev_notify = SIGEV_SIGNAL, .sigev_signo = signal};
    struct itimerspec every = {{0, ns}, {0, ns}};
    struct sigaction action = {.sa_handler = on_signal};
    timer_t timer;
    want(!sigaction(signal, &action, NULL), "no handler", 0, 0);
    want(!timer_create(CLOCK_MONOTONIC, &event, &timer) && !timer_settime(timer, 0, &every, NULL), "no timer", 0, 0);
}

static _Noreturn void be_killed(uint64_t seed)
{
    static const enum flight_clock clocks[] = {FLIGHT_MONOTONIC, FLIGHT_TSC};
    struct flight_config config = {.threads = LANES + 1, .levels = 3, .pages = 2 + (uint32_t)(seed % 4),
        .size = 256 + (uint32_t)(seed % 3) * 512, .clock = clocks[seed % 2], .file = path};
    sigset_t signals;
    pthread_t thread;
    sigemptyset(&signals);
    sigaddset(&signals, SIGUSR1);
    sigaddset(&signals, SIGUSR2);
    want(!pthread_sigmask(SIG_BLOCK, &signals, NULL), "no mask", 0, 0);
    want(!flight_start(&config), "no start", 0, 0);
    count(&truth->is_started);
    start_timer(SIGUSR1, 70000);
    start_timer(SIGUSR2, 110000);
    for (uint64_t lane = 0; lane < LANES; lane++)
        want(!pthread_create(&thread, NULL, live_on, (void *)(uintptr_t)(next_random(&seed) | 1)), "no thread", 0, 0);
    for (;;)
        nap(1000000);
}

// ---- Whoever kills it.

static pid_t begin(void)
{
    memset(truth, 0, sizeof *truth);
    (void)unlink(path);
    uint64_t seed = next_random(&random_state);
    fflush(NULL);
    pid_t child = fork();
    want(child >= 0, "no process", 0, 0);
    if (!child) {
        (void)prctl(PR_SET_PDEATHSIG, SIGKILL);
        be_killed(seed);
    }
    return child;
}

static void end(pid_t child)
{
    int status;
    (void)kill(child, SIGKILL);
    want(waitpid(child, &status, 0) == child, "no end", 0, 0);
    want(WIFSIGNALED(status) && WTERMSIG(status) == SIGKILL, "another end", (uint64_t)status, 0);
}

// What was there under each name isn't lost, unless newer records are.
static void check_names(const struct account *account)
{
    for (unsigned name = 0; name < seen(&truth->names) && name < MOST_NAMES; name++)
        want(!account->own[name] || account->own[name] >= truth->own[name], "the newest event of a thread",
            account->own[name], truth->own[name]);
}

static struct {
    uint64_t readings, events, listed, names, unnamed, refused, overwritten, early;
} all;

static void add_up(const struct account *account)
{
    all.readings++;
    all.events += account->rings_written;
    all.listed += account->listed;
    all.unnamed += account->unnamed;
    all.refused += account->refused;
    all.overwritten += account->lost;
}

static void kill_once(void)
{
    static struct account account;
    pid_t child = begin();
    if (next_random(&random_state) % 8)
        while (!seen(&truth->is_started))
            nap(50);
    nap(next_random(&random_state) % 6000);
    end(child);
    size_t len = 0;
    const void *mapped = tracering_region_open(path, &len);
    bool is_one = mapped && holds(mapped, len, &account);
    want(is_one || !seen(&truth->is_started), "no file", 0, 0);
    if (is_one) {
        check_names(&account);
        add_up(&account);
    } else
        all.early++;
    all.names += seen(&truth->names);
    if (mapped)
        (void)tracering_region_unmap(mapped, len);
}

static void read_live(uint64_t readings)
{
    static struct account account;
    pid_t child = begin();
    size_t len = 0;
    while (!seen(&truth->is_started))
        nap(50);
    const void *mapped = tracering_region_open(path, &len);
    want(mapped != NULL, "no file", 0, 0);
    for (uint64_t each = 0; each < readings && seen(&truth->names) < MOST_NAMES - 1000; each++) {
        want(holds(mapped, len, &account), "no file", 0, 0);
        add_up(&account);
    }
    all.names += seen(&truth->names);
    end(child);
    (void)tracering_region_unmap(mapped, len);
}

int main(int argc, char **argv)
{
    want(argc >= 4, "usage: flight_file_kills FOLDER KILLS SEED [live]", 0, 0);
    uint64_t times = strtoull(argv[2], NULL, 10);
    random_state = strtoull(argv[3], NULL, 10) * 2654435761u + 1;
    truth = mmap(NULL, sizeof *truth, PROT_READ | PROT_WRITE, MAP_SHARED | MAP_ANONYMOUS, -1, 0);
    want(truth != MAP_FAILED, "no memory", 0, 0);
    snprintf(path, sizeof path, "%s/killed.flight", argv[1]);
    for (uint64_t each = 0; each < times; each++)
        if (argc > 4)
            read_live(100);
        else
            kill_once();
    printf("%llu %s: %llu of %llu events listed, %llu overwritten, %llu refused, under %llu names, "
           "%llu without one; %llu before the start's end\n",
        (unsigned long long)all.readings, argc > 4 ? "readings" : "kills", (unsigned long long)all.listed,
        (unsigned long long)all.events, (unsigned long long)all.overwritten, (unsigned long long)all.refused,
        (unsigned long long)all.names, (unsigned long long)all.unnamed, (unsigned long long)all.early);
    return 0;
}
