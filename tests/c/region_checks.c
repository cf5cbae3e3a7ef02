// Checks of rings in regions: which misuse is refused, and that nothing is changed then; what a region says of its
// ring; that each page is in it and nothing of it is released twice; the memory that is mapped for regions; and
// threads that make and free rings in regions of their own, beside others in malloc's memory.
//
//     region_checks FOLDER
//
// It is linked with malloc, calloc, free and posix_fallocate wrapped.
#define _GNU_SOURCE
#include "tracering_region.h"

#include <errno.h>
#include <pthread.h>
#include <signal.h>
#include <stdio.h>
#include <stdlib.h>
#include <string.h>
#include <sys/mman.h>
#include <sys/resource.h>
#include <sys/stat.h>
#include <unistd.h>

enum { PAGES = 4, SIZE = 64, CPU = 3, STREAM = 9 };

static int faults;
// Which allocation is refused, if it is above 0; and how many blocks there are.
static _Thread_local long refused;
static long blocks;

void *__real_malloc(size_t size);
void *__real_calloc(size_t count, size_t size);
void __real_free(void *at);
int __real_posix_fallocate(int file, off_t from, off_t len);

static bool is_refused(void)
{
    return refused && !--refused;
}

static void *counted(void *at)
{
    __atomic_add_fetch(&blocks, at != NULL, __ATOMIC_RELAXED);
    return at;
}

void *__wrap_malloc(size_t size)
{
    return is_refused() ? NULL : counted(__real_malloc(size));
}

void *__wrap_calloc(size_t count, size_t size)
{
    return is_refused() ? NULL : counted(__real_calloc(count, size));
}

void __wrap_free(void *at)
{
    __atomic_sub_fetch(&blocks, at != NULL, __ATOMIC_RELAXED);
    __real_free(at);
}

#define CHECK(holds) check(holds, #holds, __LINE__)

static void check(bool holds, const char *what, int line)
{
    if (holds)
        return;
    fprintf(stderr, "region_checks: line %d: %s\n", line, what);
    faults++;
}

// (It may answer EINTR where a signal comes.)
int __wrap_posix_fallocate(int file, off_t from, off_t len)
{
    sigset_t blocked;
    CHECK(!pthread_sigmask(SIG_BLOCK, NULL, &blocked));
    CHECK(sigismember(&blocked, SIGALRM) == 1 && sigismember(&blocked, SIGPROF) == 1);
    return __real_posix_fallocate(file, from, len);
}

struct ring {
    struct tracering_writer writer;
    struct tracering_reader reader;
    void *region;
    size_t len;
};

static const struct ring no_ring;

static int32_t make(struct ring *ring)
{
    return tracering_new_in(&ring->writer, &ring->reader, CPU, PAGES, SIZE, STREAM, ring->region, ring->len);
}

static struct ring new_ring(void)
{
    struct ring ring = no_ring;
    ring.len = tracering_region_size(PAGES, SIZE);
    ring.region = tracering_region_huge(ring.len, NULL);
    CHECK(ring.region && make(&ring) == TRACERING_DONE);
    return ring;
}

static void free_ring(struct ring *ring)
{
    CHECK(tracering_writer_free(&ring->writer, NULL) == TRACERING_DONE);
    CHECK(tracering_reader_free(&ring->reader) == TRACERING_DONE);
    CHECK(!tracering_region_unmap(ring->region, ring->len));
}

static struct tracering_region said_by(const struct ring *ring)
{
    struct tracering_region about = {0, 0, 0, false, 0, 0, 0};
    CHECK(tracering_region_about(ring->region, ring->len, &about) == TRACERING_DONE);
    return about;
}

static uint64_t *word(const struct ring *ring, size_t at)
{
    return (uint64_t *)((unsigned char *)ring->region + at);
}

// How many slots have something.
static size_t slots_used(const void *region, size_t len)
{
    const void *bytes;
    size_t used = 0, bytes_len;
    int32_t code = TRACERING_DONE;
    for (size_t slot = 0; code != TRACERING_END; slot++) {
        code = tracering_region_slot(region, len, slot, &bytes, &bytes_len);
        used += code == TRACERING_DONE;
    }
    return used;
}

static void sizes(void)
{
    CHECK(tracering_region_size(2, 32) == 128 + 3 * 128);
    CHECK(tracering_region_size(2, 80) == 128 + 3 * 128);
    CHECK(tracering_region_size(2, 84) == 128 + 3 * 192);
    CHECK(tracering_region_size(1024, 65520) == 128 + 1025u * 65600);
    static const size_t wrong[][2] = {{1, 32}, {1025, 32}, {2, 28}, {2, 34}, {2, 65524}, {0, 0}, {SIZE_MAX, SIZE_MAX}};
    for (size_t each = 0; each < sizeof wrong / sizeof *wrong; each++)
        CHECK(!tracering_region_size(wrong[each][0], wrong[each][1]));
}

static void misuse(void)
{
    struct ring ring = no_ring;
    ring.len = tracering_region_size(PAGES, SIZE);
    unsigned char *at = ring.region = tracering_region_huge(ring.len + 64, NULL);
    memset(at, 0x5a, ring.len + 64);
    unsigned char before[2048];
    memcpy(before, at, ring.len);
    struct tracering_writer *w = &ring.writer;
    struct tracering_reader *r = &ring.reader;
    CHECK(tracering_new_in(NULL, r, CPU, PAGES, SIZE, 1, at, ring.len) == TRACERING_NULL);
    CHECK(tracering_new_in(w, NULL, CPU, PAGES, SIZE, 1, at, ring.len) == TRACERING_NULL);
    CHECK(tracering_new_in(w, r, CPU, PAGES, SIZE, 1, NULL, ring.len) == TRACERING_NULL);
    CHECK(tracering_new_in(w, r, 256, 1, SIZE, 1, at + 8, 0) == TRACERING_BAD_CPU);
    CHECK(tracering_new_in(w, r, CPU, 1, SIZE, 1, at + 8, 0) == TRACERING_BAD_SIZE);
    CHECK(tracering_new_in(w, r, CPU, PAGES, 30, 1, at, ring.len) == TRACERING_BAD_SIZE);
    CHECK(tracering_new_in(w, r, CPU, PAGES, SIZE, 1, at, ring.len - 1) == TRACERING_BAD_REGION);
    CHECK(tracering_new_in(w, r, CPU, PAGES, SIZE, 1, at + 8, ring.len) == TRACERING_BAD_REGION);
    CHECK(!memcmp(w, &no_ring.writer, sizeof *w) && !memcmp(r, &no_ring.reader, sizeof *r));
    CHECK(!memcmp(before, at, ring.len));
    CHECK(make(&ring) == TRACERING_DONE && make(&ring) == TRACERING_IN_USE);
    // What is after the region is left alone, and no other ring fits into it.
    CHECK(at[ring.len] == 0x5a);
    struct ring other = no_ring;
    other.region = at + 64;
    other.len = ring.len;
    CHECK(make(&other) == TRACERING_BAD_REGION);
    CHECK(tracering_region_unmap(at, ring.len) == -1 && errno == EBUSY);
    CHECK(tracering_writer_free(w, NULL) == TRACERING_DONE && make(&other) == TRACERING_BAD_REGION);
    CHECK(tracering_region_unmap(at, ring.len) == -1 && errno == EBUSY);
    CHECK(tracering_reader_free(r) == TRACERING_DONE && make(&other) == TRACERING_DONE);
    CHECK(tracering_writer_free(&other.writer, NULL) == TRACERING_DONE);
    CHECK(tracering_reader_free(&other.reader) == TRACERING_DONE);
    CHECK(!tracering_region_unmap(at, ring.len + 64));
}

// The header, and each slot's CPU.
static void header(void)
{
    struct ring ring = new_ring();
    uint64_t wanted[] = {0, 1, PAGES, SIZE, CPU, STREAM, 0, 0, *word(&ring, 64), 0, 0, 0, 0, 0, 0, 0};
    CHECK(!memcmp(ring.region, "tracring", 8));
#if defined(__x86_64__)
    CHECK(!wanted[8]);
#else
    CHECK(wanted[8] <= 1);
#endif
    CHECK(!memcmp(word(&ring, 8), wanted + 1, sizeof wanted - 8));
    for (size_t slot = 0; slot <= PAGES; slot++)
        CHECK(*word(&ring, 128 + slot * 128) == CPU);
    CHECK(ring.writer.room == 48 + SIZE && slots_used(ring.region, ring.len) == 0);
    CHECK(tracering_write(&ring.writer, 77, "abcdefgh", 8) == TRACERING_DONE && slots_used(ring.region, ring.len) == 1);
    free_ring(&ring);
}

// `taken` and `ended`, by each way to them.
static void told(void)
{
    struct ring ring = new_ring();
    unsigned char out[48 + SIZE];
    struct tracering_taken taken;
    struct tracering_collector c = TRACERING_COLLECTOR_INIT;
    struct tracering_fault_at at;
    CHECK(tracering_take(&ring.reader, out, sizeof out, &taken) == TRACERING_EMPTY && !said_by(&ring).taken);
    for (uint64_t moment = 0; moment < 15; moment++)
        CHECK(tracering_write(&ring.writer, moment, "12345678901234567890", 20) == TRACERING_DONE);
    CHECK(tracering_take(&ring.reader, out, sizeof out, &taken) == TRACERING_DONE && taken.count == 2);
    CHECK(said_by(&ring).taken == taken.first + 2);
    CHECK(tracering_collector_new(&c) == TRACERING_DONE);
    CHECK(tracering_collector_take(&c, &ring.reader, &taken, &at) == TRACERING_DONE);
    CHECK(said_by(&ring).taken == taken.first + 2 && !said_by(&ring).has_ended);
    void *region = ring.region;
    while (tracering_take(&ring.reader, out, sizeof out, &taken) == TRACERING_DONE) {
    }
    CHECK(tracering_settle(&ring.writer, &ring.reader, out, sizeof out, &taken) == TRACERING_DONE);
    CHECK(said_by(&ring).has_ended && said_by(&ring).taken == 15);
    CHECK(!memcmp(&ring.writer, &no_ring.writer, sizeof ring.writer));
    CHECK(!memcmp(&ring.reader, &no_ring.reader, sizeof ring.reader));
    // Another one there, whose writer is freed within a record, and one that is freed after it.
    CHECK(make(&ring) == TRACERING_DONE && !said_by(&ring).taken && !said_by(&ring).has_ended);
    CHECK(tracering_begin(&ring.writer, 1, 4) == TRACERING_DONE);
    CHECK(tracering_writer_free(&ring.writer, NULL) == TRACERING_DONE && !said_by(&ring).has_ended);
    CHECK(tracering_reader_free(&ring.reader) == TRACERING_DONE && make(&ring) == TRACERING_DONE);
    CHECK(tracering_write(&ring.writer, 1, "abcd", 4) == TRACERING_DONE);
    CHECK(tracering_writer_free(&ring.writer, NULL) == TRACERING_DONE && said_by(&ring).has_ended);
    CHECK(tracering_take(&ring.reader, out, sizeof out, &taken) == TRACERING_DONE && said_by(&ring).taken == 1);
    CHECK(tracering_reader_free(&ring.reader) == TRACERING_DONE && !tracering_region_unmap(region, ring.len));
    CHECK(tracering_collector_free(&c) == TRACERING_DONE);
}

static void looks(void)
{
    struct ring ring = new_ring();
    struct tracering_region about;
    const void *bytes = NULL;
    size_t len = 0;
    unsigned char *copy = malloc(ring.len);
    CHECK(tracering_write(&ring.writer, 1, "abcd", 4) == TRACERING_DONE);
    CHECK(tracering_region_about(NULL, 0, &about) == TRACERING_NULL);
    CHECK(tracering_region_about(ring.region, 127, &about) == TRACERING_BAD_REGION);
    CHECK(tracering_region_about(ring.region, ring.len - 1, &about) == TRACERING_BAD_REGION);
    CHECK(tracering_region_copy(ring.region, ring.len, copy, ring.len - 1) == TRACERING_NO_ROOM);
    CHECK(tracering_region_copy(copy, ring.len, copy, ring.len) == TRACERING_BAD_REGION);
    CHECK(tracering_region_copy(ring.region, ring.len + 64, copy, ring.len) == TRACERING_DONE);
    CHECK(tracering_region_slot(copy, ring.len, 5, &bytes, &len) == TRACERING_END && !bytes);
    CHECK(slots_used(copy, ring.len) == 1);
    size_t slot = 0;
    while (tracering_region_slot(copy, ring.len, slot, &bytes, &len) != TRACERING_DONE)
        slot++;
    CHECK(bytes == copy + 128 + slot * 128 && len == 48 + 8);
    // Each word of a header and of a slot that isn't right.
    static const size_t words[] = {0, 8, 16, 24, 32, 56};
    for (size_t each = 0; each < sizeof words / sizeof *words; each++) {
        copy[words[each] + 7] ^= 1;
        CHECK(tracering_region_slot(copy, ring.len, slot, &bytes, &len) == TRACERING_BAD_REGION);
        copy[words[each] + 7] ^= 1;
    }
    static const int32_t answers[] = {TRACERING_BAD_CPU, 0, 0, TRACERING_MISSED_DIFFERS, 0, TRACERING_BAD_IMAGE_SIZE};
    for (size_t each = 0; each < sizeof answers / sizeof *answers; each++) {
        copy[128 + slot * 128 + 8 * each + 3] ^= 0x80;
        CHECK(tracering_region_slot(copy, ring.len, slot, &bytes, &len) == answers[each]);
        copy[128 + slot * 128 + 8 * each + 3] ^= 0x80;
    }
    free(copy);
    free_ring(&ring);
}

// A slot's numbers and the first words of its data, and what a collector answers to it.
struct stated {
    uint64_t first, time, commit;
    uint32_t words[3];
    int32_t answer;
    bool is_below; // it ends below 5
};

// A page that ends below `taken` is left out; one that doesn't is there, and so is each slot whose words are damaged,
// wherever the last of them that can be read ends.
static void left_out(void)
{
    enum { PADDING = 29, EXTEND, STAMP, DELTA = 1 << 5 };
    static const uint64_t taken = 5;
    static const struct stated all[] = {
        {0, 0, 8, {1, 7}, TRACERING_DONE, true},
        {3, 0, 8, {1, 7}, TRACERING_DONE, true},
        {4, 0, 8, {1, 7}, TRACERING_DONE, false},
        {0, 0, 4, {1}, TRACERING_CUT, false},
        {0, 0, 6, {1, 7}, TRACERING_CUT, false},
        {0, 0, 10, {1, 7}, TRACERING_CUT, false},
        {0, 0, 12, {1, 7, 1}, TRACERING_CUT, false},
        {0, 0, 12, {0, 8, 7}, TRACERING_DONE, true},
        {0, 0, 8, {0, 4}, TRACERING_DONE, true},
        {0, 0, 8, {0, 3}, TRACERING_BAD_LENGTH, false},
        {0, 0, 12, {0, 6, 7}, TRACERING_BAD_LENGTH, false},
        {0, 0, 12, {0, 12, 7}, TRACERING_CUT, false},
        {0, 0, 12, {0, UINT32_MAX - 3, 7}, TRACERING_CUT, false},
        {0, 0, 12, {PADDING, 3, 30}, TRACERING_DONE, true},
        {0, 0, 4, {PADDING}, TRACERING_DONE, true},
        {0, 0, 3, {PADDING}, TRACERING_CUT, false},
        {0, 0, 8, {PADDING + DELTA, 4}, TRACERING_DONE, true},
        {0, 0, 8, {PADDING + DELTA, 2}, TRACERING_BAD_LENGTH, false},
        {0, 0, 4, {EXTEND}, TRACERING_CUT, false},
        {0, UINT64_MAX, 8, {1, 7}, TRACERING_DONE, true},
        {0, UINT64_MAX, 8, {1 + DELTA, 7}, TRACERING_TIME_OVERFLOW, false},
        {0, UINT64_MAX, 8, {EXTEND, 1}, TRACERING_TIME_OVERFLOW, false},
        {0, UINT64_MAX, 8, {PADDING + DELTA, 4}, TRACERING_DONE, true},
        {0, UINT64_MAX, 8, {STAMP, 1}, TRACERING_DONE, true},
        {UINT64_MAX - 1, 0, 8, {1, 7}, TRACERING_DONE, false},
        {UINT64_MAX, 0, 8, {1, 7}, TRACERING_NUMBER_OVERFLOW, false},
    };
    struct ring ring = new_ring();
    memcpy(word(&ring, 48), &taken, sizeof taken);
    for (size_t each = 0; each < sizeof all / sizeof *all; each++) {
        const struct stated *it = &all[each];
        const uint64_t numbers[] = {CPU, 0, it->first, 0, it->time, it->commit};
        memcpy(word(&ring, 128), numbers, sizeof numbers);
        memcpy(word(&ring, 128 + sizeof numbers), it->words, sizeof it->words);
        struct tracering_collector c = TRACERING_COLLECTOR_INIT;
        struct tracering_fault_at at = {0, 0};
        const void *bytes = NULL;
        size_t len = 0;
        int32_t code = tracering_region_slot(ring.region, ring.len, 0, &bytes, &len);
        CHECK(tracering_collector_new(&c) == TRACERING_DONE);
        int32_t answer = tracering_collector_add(&c, word(&ring, 128), 48 + it->commit, &at);
        CHECK(answer == it->answer || (answer == TRACERING_KNOWN && it->answer == TRACERING_DONE));
        CHECK(tracering_collector_free(&c) == TRACERING_DONE);
        CHECK(code == (it->is_below ? TRACERING_EMPTY : TRACERING_DONE));
        CHECK(it->is_below ? !bytes : bytes == word(&ring, 128) && len == 48 + it->commit);
    }
    free_ring(&ring);
}

// Wherever memory is refused, the handles stay, and the region is none and can be used.
static void no_memory(void)
{
    struct ring ring = new_ring();
    CHECK(tracering_writer_free(&ring.writer, NULL) == TRACERING_DONE);
    CHECK(tracering_reader_free(&ring.reader) == TRACERING_DONE);
    long at_first = blocks;
    struct tracering_region about;
    int32_t code = TRACERING_NO_MEMORY;
    long refusals = 0;
    for (; code == TRACERING_NO_MEMORY && refusals < 100; refusals++) {
        refused = refusals + 1;
        code = make(&ring);
        refused = 0;
        if (code != TRACERING_NO_MEMORY)
            break;
        CHECK(!memcmp(&ring.writer, &no_ring.writer, sizeof ring.writer));
        CHECK(!memcmp(&ring.reader, &no_ring.reader, sizeof ring.reader));
        CHECK(blocks == at_first);
        CHECK(tracering_region_about(ring.region, ring.len, &about) == TRACERING_BAD_REGION);
    }
    CHECK(code == TRACERING_DONE && refusals > 2);
    free_ring(&ring);
}

// If there is no memory to note the region, what was there before stays, and can be used.
static void no_entry(void)
{
    enum { OTHERS = 8 };
    struct ring others[OTHERS], ring = new_ring();
    CHECK(tracering_write(&ring.writer, 1, "abcd", 4) == TRACERING_DONE);
    CHECK(tracering_writer_free(&ring.writer, NULL) == TRACERING_DONE);
    CHECK(tracering_reader_free(&ring.reader) == TRACERING_DONE);
    // (This many are used at once for the first time: no entry is free.)
    for (size_t each = 0; each < OTHERS; each++)
        others[each] = new_ring();
    long at_first = blocks;
    refused = 1;
    CHECK(make(&ring) == TRACERING_NO_MEMORY && !refused && blocks == at_first);
    CHECK(!memcmp(&ring.writer, &no_ring.writer, sizeof ring.writer));
    CHECK(!memcmp(&ring.reader, &no_ring.reader, sizeof ring.reader));
    CHECK(said_by(&ring).has_ended && slots_used(ring.region, ring.len) == 1);
    CHECK(make(&ring) == TRACERING_DONE && slots_used(ring.region, ring.len) == 0);
    free_ring(&ring);
    for (size_t each = 0; each < OTHERS; each++)
        free_ring(&others[each]);
}

static void write_some(struct ring *ring, uint64_t count)
{
    unsigned char out[48 + SIZE];
    struct tracering_taken taken;
    for (uint64_t moment = 0; moment < count; moment++) {
        CHECK(tracering_write(&ring->writer, moment, "0123456789abcdef", moment % 17) == TRACERING_DONE);
        if (moment % 5 == 0)
            (void)tracering_take(&ring->reader, out, sizeof out, &taken);
    }
}

static void *make_often(void *given)
{
    for (int round = 0; round < 200; round++) {
        struct ring ring = new_ring(), plain = no_ring;
        CHECK(tracering_new(&plain.writer, &plain.reader, CPU, PAGES, SIZE) == TRACERING_DONE);
        write_some(&ring, 100);
        write_some(&plain, 100);
        CHECK(slots_used(ring.region, ring.len) >= PAGES - 1);
        CHECK(tracering_writer_free(&plain.writer, NULL) == TRACERING_DONE);
        CHECK(tracering_reader_free(&plain.reader) == TRACERING_DONE);
        free_ring(&ring);
    }
    return given;
}

// Rings that come and go, of which none has more memory in the end than at the beginning.
static void threads(void)
{
    pthread_t others[4];
    make_often(NULL);
    long at_first = blocks;
    for (size_t each = 0; each < sizeof others / sizeof *others; each++)
        CHECK(!pthread_create(&others[each], NULL, make_often, NULL));
    for (size_t each = 0; each < sizeof others / sizeof *others; each++)
        CHECK(!pthread_join(others[each], NULL));
    // (An entry for each region that there was at once stays, and the C library keeps what it has of threads.)
    CHECK(blocks <= at_first + 16);
}

static bool is_there(const char *path)
{
    return !access(path, F_OK);
}

static void files(void)
{
    size_t len = tracering_region_size(PAGES, SIZE), found = 0;
    struct stat about;
    unlink("ring");
    unlink("ring~");
    unsigned char *one = tracering_region_file("ring", len), *two;
    CHECK(one && !is_there("ring~") && !stat("ring", &about) && about.st_size == (off_t)len);
    CHECK((about.st_mode & 0777) == 0600 && about.st_blocks * 512 >= (off_t)len);
    one[5] = 7;
    two = tracering_region_file("ring", len);
    CHECK(two && two[5] == 0 && is_there("ring~"));
    const unsigned char *left = tracering_region_open("ring~", &found);
    CHECK(left && found == len && left[5] == 7);
    CHECK(!tracering_region_unmap(left, found));
    CHECK(!tracering_region_unmap(one, len) && !tracering_region_unmap(two, len));
    CHECK(tracering_region_unmap(NULL, len) == -1 && errno == EINVAL);
    // What is no file is left alone.
    unlink("link");
    CHECK(!symlink("ring", "link"));
    mkdir("folder", 0700);
    errno = 0;
    CHECK(!tracering_region_file("link", len) && errno == EEXIST);
    CHECK(!tracering_region_file("folder", len) && errno == EEXIST && is_there("folder"));
    CHECK(!tracering_region_file("none/ring", len) && errno == ENOENT);
    CHECK(!tracering_region_file("ring", 0) && errno == EINVAL && is_there("ring"));
    CHECK(!tracering_region_file(NULL, len) && errno == EINVAL);
    CHECK(!tracering_region_file("large", (size_t)1 << 62) && errno && !is_there("large"));
    CHECK(!tracering_region_open("none", &found) && errno == ENOENT);
    CHECK(!tracering_region_open("folder", &found) && errno == EINVAL);
    CHECK(!tracering_region_open("/dev/null", &found) && errno == EINVAL);
}

// A limit of files' lengths, whose signal would end the process. One that is pending from before stays.
static void limited(void)
{
    struct rlimit before, limit;
    sigset_t signals;
    size_t len = tracering_region_size(PAGES, SIZE);
    sigemptyset(&signals);
    sigaddset(&signals, SIGXFSZ);
    CHECK(!getrlimit(RLIMIT_FSIZE, &before));
    limit = (struct rlimit){len - 1, before.rlim_max};
    CHECK(!setrlimit(RLIMIT_FSIZE, &limit));
    char name[64], path[80];
    snprintf(name, sizeof name, "/region_checks.limited.%d", (int)getpid());
    snprintf(path, sizeof path, "/dev/shm%s", name);
    unlink("limited");
    for (int is_pending = 0; is_pending < 2; is_pending++) {
        CHECK(!is_pending || (!sigprocmask(SIG_BLOCK, &signals, NULL) && !raise(SIGXFSZ)));
        CHECK(!tracering_region_file("limited", len) && errno == EFBIG && !is_there("limited"));
        CHECK(!tracering_region_shared(name, len) && errno == EFBIG && !is_there(path));
        sigset_t now;
        CHECK(!sigpending(&now) && sigismember(&now, SIGXFSZ) == is_pending);
    }
    int number;
    CHECK(!sigwait(&signals, &number) && number == SIGXFSZ && !sigprocmask(SIG_UNBLOCK, &signals, NULL));
    CHECK(!setrlimit(RLIMIT_FSIZE, &before));
}

static void memory(void)
{
    char name[64], path[80];
    snprintf(name, sizeof name, "/region_checks.%d", (int)getpid());
    snprintf(path, sizeof path, "/dev/shm%s", name);
    size_t len = tracering_region_size(PAGES, SIZE);
    void *one = tracering_region_shared(name, len);
    CHECK(one && is_there(path));
    CHECK(!tracering_region_shared(name, len) && errno == EEXIST);
    CHECK(!tracering_region_shared(name, 0) && errno == EINVAL);
    CHECK(!shm_unlink(name) && !tracering_region_unmap(one, len));
    bool is_huge = true;
    void *two = tracering_region_huge(len, &is_huge);
    CHECK(two && (uintptr_t)two % (is_huge ? 2u << 20 : 4096) == 0 && !tracering_region_unmap(two, len));
    CHECK(!tracering_region_huge(0, &is_huge) && errno == EINVAL);
    CHECK(!tracering_region_huge(SIZE_MAX, &is_huge) && errno == EINVAL);
    printf("%s\n", is_huge ? "huge pages" : "no huge pages");
}

int main(int argc, char **argv)
{
    if (argc != 2 || chdir(argv[1]))
        return 2;
    sizes();
    misuse();
    header();
    told();
    looks();
    left_out();
    no_memory();
    no_entry();
    threads();
    files();
    limited();
    memory();
    return faults != 0;
}
