// Kills writers of rings in regions at random instants, and looks at what is left; and copies regions while they are
// written.
//
//     region_kills KILLS SEED [live]
//
// Each writer is a process of its own, which writes whole records, records by their parts, and closes of pages. Two
// levels of handlers, of a timer and of raise, interrupt it and write nested records; in some runs a thread of it takes
// pages and wishes for more. All records that were complete, with nothing begun, have to be there unless they were
// overwritten, which the fills of the pages show; of what a kill interrupts at most that; none is torn, has another
// number or is there twice; and the pages that were taken agree with what is left. With `live`, the parent copies the
// region all the time until it kills, and each copy has to hold as much.
#define _GNU_SOURCE
#include "region_account.h"

#include <pthread.h>
#include <signal.h>
#include <sys/mman.h>
#include <sys/time.h>
#include <sys/wait.h>
#include <time.h>
#include <unistd.h>

enum { TAKEN = 3000, CPU = 7, MOST_SIZE = 1024, CLAIMS = 4096 };

// What the writer reports to its parent.
struct told {
    uint64_t rest;   // all records below it were complete as nothing was begun
    uint64_t begun;  // no record has this number or one above
    uint64_t failed; // a call was answered as it must not be
    uint64_t taken;  // how many parcels were taken
    struct {
        size_t len;
        unsigned char bytes[TRACERING_HEADER + MOST_SIZE];
    } parcels[TAKEN];
};

// Numbers that are said to have been overwritten before anyone took them.
struct claim {
    uint64_t first, end;
};

struct plan {
    size_t pages, size;
    bool takes, wishes, handlers, is_file;
    uint64_t stream;
};

static struct told *told;
static void *region;
static size_t region_len;
static struct plan plan;
static struct tracering_writer writer = TRACERING_WRITER_INIT;
static struct tracering_reader reader = TRACERING_READER_INIT;
static uint64_t moment;
static uint32_t ids[SOURCES];
static uint64_t seed;
static struct claim claims[CLAIMS];
static size_t claim_count;

static uint64_t random_below(uint64_t bound)
{
    seed ^= seed << 13;
    seed ^= seed >> 7;
    seed ^= seed << 17;
    return seed % bound;
}

static uint64_t next_moment(void)
{
    uint64_t ticks = __atomic_add_fetch(&moment, 1, __ATOMIC_RELAXED);
    return ticks + (ticks / 97 << 28);
}

// ---- The writer's process.

// All that is written is complete, if nothing is begun.
static void note_rest(void)
{
    uint64_t written, rest = __atomic_load_n(&told->rest, __ATOMIC_RELAXED);
    if (tracering_depth(&writer) != 0 || tracering_written(&writer, &written) != TRACERING_DONE)
        return;
    while (written > rest && !__atomic_compare_exchange_n(&told->rest, &rest, written, false, __ATOMIC_RELEASE,
        __ATOMIC_RELAXED)) {
    }
}

// A record that is refused has no number, and its id is that of the source's next one.
static void note_refused(uint32_t source, int32_t code)
{
    __atomic_sub_fetch(&told->begun, 1, __ATOMIC_RELAXED);
    ids[source]--;
    if (code != TRACERING_BUSY && code != TRACERING_CROWDED && code != TRACERING_TOO_DEEP)
        __atomic_store_n(&told->failed, (uint64_t)code, __ATOMIC_RELAXED);
}

static size_t next_record(uint32_t source, unsigned char *bytes)
{
    __atomic_add_fetch(&told->begun, 1, __ATOMIC_RELAXED);
    return make_record(source, ids[source]++, plan.size, bytes);
}

static void write_whole(uint32_t source)
{
    unsigned char bytes[LONGEST];
    size_t len = next_record(source, bytes);
    int32_t code = tracering_write(&writer, next_moment(), bytes, len);
    if (code != TRACERING_DONE)
        note_refused(source, code);
    note_rest();
}

// A handler of a higher level may interrupt it between any two calls. Of one source's records none is nested in
// another.
static void write_by_parts(uint32_t source, int inner)
{
    unsigned char bytes[LONGEST];
    size_t len = next_record(source, bytes);
    int32_t depth = tracering_depth(&writer);
    int32_t code = tracering_begin(&writer, next_moment(), len);
    if (code == TRACERING_DONE) {
        if (inner)
            raise(inner);
        code = tracering_finish(&writer);
    }
    if (code != TRACERING_RESERVED) {
        if (tracering_depth(&writer) > depth)
            (void)tracering_finish(&writer);
        note_refused(source, code);
        return;
    }
    (void)tracering_put(&writer, bytes, len / 2 & ~(size_t)3);
    if (inner)
        raise(inner);
    (void)tracering_put(&writer, bytes, len);
    (void)tracering_end(&writer);
    if (inner)
        raise(inner);
    if (depth == 0)
        (void)tracering_finish(&writer);
    note_rest();
}

static void on_signal(int signal)
{
    uint32_t source = signal == SIGUSR2 ? 2 : 1;
    static uint32_t count;
    if (++count % 3)
        write_whole(source);
    else
        write_by_parts(source, source == 1 ? SIGUSR2 : 0);
}

static void *read_often(void *given)
{
    struct tracering_taken taken;
    uint64_t at;
    while ((at = told->taken) < TAKEN) {
        int32_t code = tracering_take(&reader, told->parcels[at].bytes, TRACERING_HEADER + MOST_SIZE, &taken);
        if (code == TRACERING_DONE) {
            told->parcels[at].len = taken.len;
            __atomic_store_n(&told->taken, at + 1, __ATOMIC_RELEASE);
        } else if (code == TRACERING_EMPTY && plan.wishes) {
            (void)tracering_wish(&reader);
        }
        for (volatile int pause = 0; pause < (plan.wishes ? 3000 : 300); pause++) {
        }
    }
    return given;
}

static void start_timer(void)
{
    struct sigaction action = {.sa_handler = on_signal, .sa_flags = SA_RESTART};
    struct itimerval often = {{0, 50}, {0, 50}};
    sigaddset(&action.sa_mask, SIGALRM);
    sigaddset(&action.sa_mask, SIGUSR1);
    sigaction(SIGALRM, &action, NULL);
    sigaction(SIGUSR1, &action, NULL);
    sigaddset(&action.sa_mask, SIGUSR2);
    sigaction(SIGUSR2, &action, NULL);
    setitimer(ITIMER_REAL, &often, NULL);
}

static void start_reader(void)
{
    sigset_t all, former;
    pthread_t thread;
    sigfillset(&all);
    pthread_sigmask(SIG_BLOCK, &all, &former);
    if (pthread_create(&thread, NULL, read_often, NULL))
        _exit(4);
    pthread_sigmask(SIG_SETMASK, &former, NULL);
}

static void close_page(void)
{
    if (tracering_begin_close(&writer) == TRACERING_DONE)
        (void)tracering_finish(&writer);
    note_rest();
}

static _Noreturn void write_forever(void)
{
    int32_t code = tracering_new_in(&writer, &reader, CPU, plan.pages, plan.size, plan.stream, region, region_len);
    if (code != TRACERING_DONE)
        _exit(3);
    if (plan.takes)
        start_reader();
    if (plan.handlers)
        start_timer();
    for (uint64_t turn = 1;; turn++) {
        if (turn % 501 == 0)
            close_page();
        else if (turn % 7 == 0)
            write_by_parts(0, plan.handlers && turn % 35 == 0 ? SIGUSR1 : 0);
        else
            write_whole(0);
    }
}

// ---- The parent.

static bool add_taken(struct tracering_collector *c)
{
    uint64_t count = __atomic_load_n(&told->taken, __ATOMIC_ACQUIRE);
    struct tracering_fault_at at = {0, 0};
    for (uint64_t k = 0; k < count; k++) {
        int32_t code = tracering_collector_add(c, told->parcels[k].bytes, told->parcels[k].len, &at);
        if (code > TRACERING_DONE)
            return fault("a parcel that was taken is refused", (uint64_t)code, at.number);
    }
    return true;
}

static void claim(uint64_t first, uint64_t end)
{
    if (first < end)
        claims[claim_count++ % CLAIMS] = (struct claim){first, end};
}

// What the pages of a region, and what it says was taken, say of losses.
static void note_claims(const struct found *found, uint64_t taken)
{
    if (found->count)
        claim(taken, found->pages[0].first);
    for (size_t at = 1; at < found->count; at++)
        claim(found->pages[at - 1].end, found->pages[at].first);
}

static uint64_t end_of(const unsigned char *parcel)
{
    uint64_t commit = account_word(parcel, 5) & 0x3fffffff;
    return account_word(parcel, 2) + (uint64_t)count_records(parcel + TRACERING_HEADER, commit);
}

// None of these numbers was ever taken. (What is taken rises.)
static bool is_lost(const struct claim *lost, uint64_t count)
{
    uint64_t below = 0, above = count;
    while (below < above) {
        uint64_t middle = (below + above) / 2;
        if (end_of(told->parcels[middle].bytes) <= lost->first)
            below = middle + 1;
        else
            above = middle;
    }
    return below == count || account_word(told->parcels[below].bytes, 2) >= lost->end
        || fault("what is said to be lost was taken", lost->first, lost->end);
}

static bool claims_hold(void)
{
    uint64_t count = __atomic_load_n(&told->taken, __ATOMIC_ACQUIRE);
    for (size_t at = 0; at < claim_count && at < CLAIMS; at++)
        if (!is_lost(&claims[at], count))
            return false;
    return true;
}

// `taken` of the region is the end of the last page that the reader says, or of the one after it.
static bool tells_taken(struct tracering_region *about)
{
    uint64_t count = __atomic_load_n(&told->taken, __ATOMIC_ACQUIRE);
    if (!count)
        return true;
    uint64_t end = end_of(told->parcels[count - 1].bytes);
    return about->taken >= end || fault("the region says that less was taken", about->taken, end);
}

// The fill after the last one that the reader was given.
static uint64_t passed_by_reader(void)
{
    uint64_t count = __atomic_load_n(&told->taken, __ATOMIC_ACQUIRE);
    return count ? account_word(told->parcels[count - 1].bytes, 1) + 1 : 0;
}

static bool holds_with(struct tracering_collector *c, struct found *found)
{
    struct tracering_region about;
    uint64_t rest = told->rest, begun = told->begun;
    if (told->failed)
        return fault("a call was answered otherwise", told->failed, 0);
    if (tracering_region_about(region, region_len, &about) != TRACERING_DONE)
        return fault("it is no region", 0, 0);
    if (about.pages != plan.pages || about.size != plan.size || about.cpu != CPU || about.stream != plan.stream
        || about.has_ended)
        return fault("the region says another ring", about.pages, about.size);
    if (!add_taken(c) || !tells_taken(&about) || !find_pages(region, region_len, c, found) || !are_in_order(found))
        return false;
    note_claims(found, about.taken);
    found->passed = passed_by_reader();
    return has_records(found, plan.pages, rest, begun) && lists_records(c, plan.size, &found->records) && claims_hold();
}

static bool holds(struct found *found)
{
    struct tracering_collector c = TRACERING_COLLECTOR_INIT;
    (void)tracering_collector_new(&c);
    bool answer = holds_with(&c, found);
    (void)tracering_collector_free(&c);
    return answer;
}

// A copy of the region as it is written: what was there before it is in it, unless it was overwritten meanwhile.
static bool copy_holds(void *copy, struct tracering_collector *c, uint64_t *records)
{
    struct found found;
    uint64_t begun, newest, later, rest = __atomic_load_n(&told->rest, __ATOMIC_ACQUIRE);
    look_at_fills(region, region_len, plan.pages, &begun, &newest);
    if (tracering_region_copy(region, region_len, copy, region_len) != TRACERING_DONE)
        return fault("no copy is made", 0, 0);
    look_at_fills(region, region_len, plan.pages, &begun, &later);
    if (!find_pages(copy, region_len, c, &found) || !are_in_order(&found)
        || !lists_records(c, plan.size, &found.records))
        return false;
    struct tracering_region about;
    (void)tracering_region_about(copy, region_len, &about);
    note_claims(&found, about.taken);
    *records += found.records;
    if (begun + 2 > newest + plan.pages)
        return true;
    if (found.end < rest && found.taken < rest)
        return fault("the newest record isn't in the copy", found.end, rest);
    found.passed = passed_by_reader();
    return !rest || has_fills(&found, plan.pages, begun, newest);
}

struct sums {
    uint64_t kills, records, written, taken, exact, more, copies, copied;
};

static bool copies_hold(void *copy, struct sums *sums, const struct timespec *until)
{
    struct timespec now;
    do {
        struct tracering_collector c = TRACERING_COLLECTOR_INIT;
        (void)tracering_collector_new(&c);
        bool is_held = copy_holds(copy, &c, &sums->copied);
        (void)tracering_collector_free(&c);
        sums->copies++;
        if (!is_held)
            return false;
        clock_gettime(CLOCK_MONOTONIC, &now);
    } while (now.tv_sec < until->tv_sec || (now.tv_sec == until->tv_sec && now.tv_nsec < until->tv_nsec));
    return true;
}

static struct timespec after(uint64_t nanoseconds)
{
    struct timespec now;
    clock_gettime(CLOCK_MONOTONIC, &now);
    uint64_t sum = (uint64_t)now.tv_nsec + nanoseconds;
    return (struct timespec){now.tv_sec + (time_t)(sum / 1000000000), (long)(sum % 1000000000)};
}

static void make_plan(bool is_live, uint64_t run)
{
    static const size_t sizes[] = {64, 128, 256, MOST_SIZE};
    plan.pages = 2 + random_below(7);
    plan.size = sizes[random_below(is_live ? 2 : 4)];
    plan.takes = run % 2;
    plan.wishes = random_below(2);
    plan.handlers = random_below(4);
    plan.is_file = run % 8 == 3;
    plan.stream = run;
    region_len = tracering_region_size(plan.pages, plan.size);
}

static void *shared(size_t len)
{
    void *at = mmap(NULL, len, PROT_READ | PROT_WRITE, MAP_SHARED | MAP_ANONYMOUS | MAP_NORESERVE, -1, 0);
    return at == MAP_FAILED ? NULL : at;
}

// (A writer begins when it is first scheduled.)
static bool has_begun(pid_t child)
{
    int status;
    while (!__atomic_load_n(&told->rest, __ATOMIC_ACQUIRE))
        if (waitpid(child, &status, WNOHANG) == child)
            return fault("the writer ended", (uint64_t)status, 0);
    return true;
}

static bool kill_one(bool is_live, void *copy, struct sums *sums)
{
    pid_t child = fork();
    if (!child)
        write_forever();
    if (child < 0 || !has_begun(child))
        return false;
    struct timespec until = after(random_below(is_live ? 20000000 : 1500000));
    bool is_held = true;
    if (is_live)
        is_held = copies_hold(copy, sums, &until);
    else
        clock_nanosleep(CLOCK_MONOTONIC, TIMER_ABSTIME, &until, NULL);
    kill(child, SIGKILL);
    waitpid(child, NULL, 0);
    struct found found;
    if (!is_held || !holds(&found))
        return false;
    sums->kills++;
    sums->records += found.records;
    sums->written += told->rest;
    sums->taken += told->taken;
    sums->exact += found.end == told->rest;
    sums->more += found.end > told->rest;
    return true;
}

static bool run_one(uint64_t run, bool is_live, struct sums *sums)
{
    static const char path[] = "killed.region";
    make_plan(is_live, run);
    claim_count = 0;
    told = shared(sizeof *told);
    region = plan.is_file ? tracering_region_file(path, region_len) : tracering_region_huge(region_len, NULL);
    void *copy = malloc(region_len);
    bool is_held = told && region && copy && kill_one(is_live, copy, sums);
    free(copy);
    if (region)
        tracering_region_unmap(region, region_len);
    munmap(told, sizeof *told);
    return is_held;
}

int main(int argc, char **argv)
{
    if (argc < 3)
        return 2;
    bool is_live = argc > 3;
    seed = strtoull(argv[2], NULL, 10) * 0x9e3779b97f4a7c15u + 1;
    struct sums sums = {0};
    for (uint64_t run = 0; run < strtoull(argv[1], NULL, 10); run++)
        if (!run_one(run, is_live, &sums)) {
            fprintf(stderr, "region: run %llu of seed %s: %zu pages of %zu bytes, %s, %s\n", (unsigned long long)run,
                argv[2], plan.pages, plan.size, plan.takes ? "a reader" : "no reader",
                plan.handlers ? "handlers" : "no handlers");
            return 1;
        }
    printf("%llu kills: %llu of %llu records left, %llu pages taken before; in %llu nothing more was whole than what "
           "had returned, in %llu what was interrupted; %llu copies with %llu records\n",
        (unsigned long long)sums.kills, (unsigned long long)sums.records, (unsigned long long)sums.written,
        (unsigned long long)sums.taken, (unsigned long long)sums.exact, (unsigned long long)sums.more,
        (unsigned long long)sums.copies, (unsigned long long)sums.copied);
    return 0;
}
