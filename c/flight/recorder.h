// What the parts of the flight recorder share. Names that begin with flight_ are those of its functions that other
// files call; nothing outside the library sees those of this file.
//
// How they work together. TRACE has a static flight_site, puts its arguments in a row (FLIGHT_PUT), and calls
// flight_record (recorder.c), which writes them to the first ring of the thread's slot that isn't in a call. A thread
// gets a slot from the queue of free ones (slots.c), and notes a lease in it.
//
// With rings per CPU the first slots have the rings, one for each CPU, and some spare ones. Who writes an event takes
// one for so long (cpus.c); the event has its thread's number. The other slots have no rings: a thread gets one of them
// for its leases, which have a moment in place of the numbers of records, and name the thread from then on.
//
// All rings, leases, and counts of refusals lie in one memory, the image: the recorder's file, or memory of the process
// in the same form (file.c). A dump (dump.c) copies the region of each ring while its thread goes on, whatever that is
// doing: no thread is asked, nothing is locked, and what was copied stays where it is. So a dump that fails loses
// nothing. The texts of sites are copied when they become known (sites.c): nothing of an object that has TRACE is read
// after that but by its own code.
//
// Other uses of a slot than TRACE's are between go_in and go_out, which flight_stop waits for.
#ifndef RECORDER_H
#define RECORDER_H

#include "layout.h"
#include "tracering_flight.h"

#include <errno.h>
#include <limits.h>
#include <linux/futex.h>
#include <pthread.h>
#include <signal.h>
#include <sys/stat.h>
#include <sys/syscall.h>
#include <time.h>
#include <unistd.h>
#if defined(__x86_64__)
#include <x86intrin.h>
#endif

#pragma GCC visibility push(hidden)

enum {
    MOST_LEVELS = FILE_MOST_LEVELS,
    MOST_SITES = 1 << 16,
    LEASES = SLOT_MOST_LEASES, // that are kept of each slot
    NAME_SIZE = FILE_NAME_SIZE // a thread's name and a zero
};

// The time in which one thread has a slot: words, since a dump may read them while the thread changes them.
struct lease {
    uint64_t first[MOST_LEVELS]; // the number of its first record on each ring; of a slot without rings: its moment
    uint64_t thread;
    uint64_t name[NAME_SIZE / 8];
};

struct leases {
    uint64_t count; // how many there were
    struct lease of[LEASES];
};

enum { LEASE_WORDS = sizeof(struct leases) / 8 };

// What is noted of a slot, in the image.
struct noted {
    uint64_t version; // of the leases: odd while one of them changes (layout.h)
    struct leases leases;
    uint64_t refused[MOST_LEVELS][SLOT_REASONS];
    uint64_t zeros[6];
};

_Static_assert(sizeof(struct noted) == SLOT_BYTES, "a slot of a flight file has another length");

// What a thread has while it records, or while it writes an event.
struct slot {
    struct tracering_writer rings[MOST_LEVELS];
    struct noted *noted;
    uint32_t owner; // the thread's number, or NOBODY, or NOBODY_ANY_MORE
    uint32_t node;  // its place in the queue of free slots, once it is given back
} __attribute__((aligned(128)));

enum { NOBODY = 0 };
// All rings of the slot are in calls of a thread that ended in them: no thread gets it any more.
#define NOBODY_ANY_MORE UINT32_MAX

// The free slots, the one that was given back last at the end: a queue of Michael and Scott. Of a word the low half is
// a node, and the high half is another number after each change.
struct queue {
    uint64_t head, tail;
    struct node {
        uint64_t next;
        uint32_t slot;
    } *nodes;
};

struct recorder {
    struct flight_config config;
    uint64_t started, started_real; // the clock, and the time of day
    char program[NAME_SIZE];
    void *memory; // the slots, the queue's nodes, and what a dump copies to
    size_t memory_len;
    struct slot *slots;
    uint32_t slot_count;
    uint32_t ring_slots; // how many of them have rings: the first ones
    uint32_t cpus;       // how many of these are for one CPU each; 0: rings are those of threads
    struct queue queue;
    uint32_t looked; // the slot of which it is looked next whether its thread lives
    uint64_t *image; // the header of its file, or of memory in that form
    size_t image_len;
    bool has_file;
    struct stat file_found; // the file, so that no dump takes its place
    // What follows belongs to the thread that dumps.
    uint8_t *copies;                // of the regions of one slot
    const uint8_t **pages;          // of one ring, by their fills
};

extern struct recorder flight_recorder;

// What is 0 in each forked child, also in one that is made by _Fork or clone, which call none of the handlers of
// pthread_atfork: the kernel wipes this memory in it, which is a page of its own. So such a child has no recorder, and
// doesn't write to its parent's rings.
#if defined(__aarch64__)
#define LARGEST_PAGE (1 << 16)
#else
#define LARGEST_PAGE (1 << 12)
#endif
struct wiped {
    uint32_t running;    // which recorder runs, by its number, or 0
    uint32_t is_dumping; // whether a dump is made
    uint32_t inside;     // how many threads use their slots otherwise than in a TRACE or a dump: flight_stop waits for
                         // them
} __attribute__((aligned(LARGEST_PAGE)));
extern struct wiped flight_wiped;
#define flight_running (flight_wiped.running)
#define flight_is_dumping (flight_wiped.is_dumping)
#define flight_inside (flight_wiped.inside)
// What starts, stops and switches holds this.
extern pthread_mutex_t flight_lock;

// The slot of this thread, if it is one of the recorder that runs; and the name that it gave itself.
struct mine {
    struct slot *slot;  // that it writes to; null, if rings are those of CPUs
    struct slot *named; // that has its leases
    uint32_t running;
    uint32_t thread;   // its number, once it was needed; or 0
    uint32_t refusals; // how many of its events found no slot, of this recorder
    uint32_t refused_by;
    char name[NAME_SIZE];
};
extern _Thread_local __attribute__((tls_model("initial-exec"))) struct mine flight_mine;

// ---- Slots (slots.c).

// Makes all slots free.
void flight_fill_queue(void);
// Whether the calling thread may get a slot: one is free, or it is to look for one whose thread has ended, which it
// does at its first event that finds none, and then now and then.
bool flight_may_claim(uint32_t running);
// Gets a slot for the calling thread, or null: none is free, and of those that were looked at no thread has ended.
struct slot *flight_claim(void);
// Gives a slot back, as the one that is to be claimed after all that are free now.
void flight_hand_back(struct slot *slot);
// Counts an event of the calling thread that found no slot.
void flight_count_without_ring(void);
// How many there were.
uint64_t flight_without_ring(void);
// Whether a ring of a slot can be written.
bool flight_has_ring(const struct slot *slot);
// Whether the kernel knows no such thread of this process.
bool flight_is_gone(uint32_t thread);
// Begins a lease of this thread, which has the slot. All signals are blocked.
void flight_begin_lease(struct slot *slot);
// Copies the leases of a slot.
void flight_copy_leases(struct leases *to, const struct slot *slot);
// Notes how many events the rings of a slot refused, which the calling thread has, unless it is null.
void flight_note_refused(const struct slot *slot);

// ---- Rings per CPU (cpus.c).

// How many slots with rings there are: one for each CPU, of which `cpus` gets the number, and spare ones.
uint32_t flight_cpu_slots(uint32_t *cpus);
// Takes a slot for an event of the calling thread, or null: others have all of them. `is_nested`: it is one that the
// thread has, since this interrupts another event of it; else it is to be given back.
struct slot *flight_take_cpu(bool *is_nested);
void flight_give_cpu(struct slot *slot);

// ---- The image (file.c).

// Makes it, with a header that has no magic yet, and lets the slots note there: the file at this path, or memory.
int flight_make_image(const char *path);
// Where the region of a ring is, and how long.
void *flight_region_of(uint32_t slot, uint32_t level, size_t *len);
// Puts what is known into the header, and all sites into a file, and then the magic.
void flight_begin_image(void);
// Marks a file's end, and lets go of the image.
void flight_end_image(void);
// Lets go of an image that wasn't begun, and removes its file.
void flight_drop_image(const char *path);
// A forked child's memory is its own from now on.
void flight_leave_file(void);
// Whether all of it can be read: another process may have cut the file short.
bool flight_is_readable(const void *bytes, size_t len);
// Stores what both clocks say now.
void flight_stamp(void);
// Puts a known site into the file, before any event has its id. May be called in handlers.
void flight_put_site(const uint32_t *known);

// ---- Sites (sites.c).

// Maps the memory of what is kept of sites: 0, or why there is none.
int flight_make_sites(void);
// What is kept of each site that is known, in the form of a site of a flight file: the first one, the next one; null
// after the last one. One that isn't whole has no length.
const uint32_t *flight_next_site(const uint32_t *known);
// From now on each site asks once more whether it is on.
void flight_turn_sites(void);

// ---- Dumps (dump.c, output.c, crash.c).

// Makes what each dump needs.
void flight_prepare_dumps(void);
// The checksum CRC-32C of bytes.
uint32_t flight_checksum(const void *bytes, size_t len);
// How many crashes were dumped whole, after which the process was not to end.
extern uint32_t flight_crash_dumps;
// Dumps, unless somebody else does, and answers whether it tried. If `is_last`, nobody dumps after it.
bool flight_try_dump(const char *path, int signal, bool is_last, int *fault);
// Writes a file as PATH~, and renames it when it is whole; or to what is at the path and holds no bytes.
int flight_write_path(const char *path, void (*put_all)(int signal), int signal);
// Copies a path, with this process's number in place of each %p, to PATH_MAX bytes. False: it is too long.
bool flight_expand_path(char *to, const char *path);
// Puts bytes into the file that is written. After a fault nothing more is written.
void flight_put_bytes(const void *bytes, size_t len);
bool flight_has_output_fault(void);
// Has the file that is written end with this fault.
void flight_fail_output(int fault);
// What SIGSEGV and others did before, is done again.
void flight_forget_crashes(void);

// ---- ThreadSanitizer doesn't know what orders the recorder's accesses, and takes the C library's copying for races.
// If it watches the program, it passes over what is done between these two. (The library itself isn't compiled for it.)

void AnnotateIgnoreReadsBegin(const char *, int) __attribute__((weak, visibility("default")));
void AnnotateIgnoreReadsEnd(const char *, int) __attribute__((weak, visibility("default")));
void AnnotateIgnoreWritesBegin(const char *, int) __attribute__((weak, visibility("default")));
void AnnotateIgnoreWritesEnd(const char *, int) __attribute__((weak, visibility("default")));

static inline void flight_hide(void)
{
    if (AnnotateIgnoreReadsBegin && AnnotateIgnoreWritesBegin) {
        AnnotateIgnoreReadsBegin(__FILE__, __LINE__);
        AnnotateIgnoreWritesBegin(__FILE__, __LINE__);
    }
}

static inline void flight_show(void)
{
    if (AnnotateIgnoreReadsEnd && AnnotateIgnoreWritesEnd) {
        AnnotateIgnoreWritesEnd(__FILE__, __LINE__);
        AnnotateIgnoreReadsEnd(__FILE__, __LINE__);
    }
}

// ---- Clocks, signals, words that threads share, and waiting.

static inline uint64_t nanoseconds(clockid_t clock)
{
    struct timespec time;
    (void)clock_gettime(clock, &time);
    return (uint64_t)time.tv_sec * 1000000000 + (uint64_t)time.tv_nsec;
}

static inline uint64_t counter(void)
{
#if defined(__x86_64__)
    return __rdtsc();
#elif defined(__aarch64__)
    uint64_t count;
    __asm__ volatile("mrs %0, cntvct_el0" : "=r"(count));
    return count;
#else
    return 0;
#endif
}

// The clock of events.
static inline uint64_t flight_moment(void)
{
    if (flight_recorder.config.clock == FLIGHT_TSC)
        return counter();
    return flight_recorder.config.clock == FLIGHT_CALLER ? flight_recorder.config.now() : nanoseconds(CLOCK_MONOTONIC);
}

static inline void block_signals(sigset_t *before)
{
    sigset_t all;
    sigfillset(&all);
    (void)pthread_sigmask(SIG_SETMASK, &all, before);
}

static inline void unblock_signals(const sigset_t *before)
{
    (void)pthread_sigmask(SIG_SETMASK, before, NULL);
}

static inline uint32_t this_thread(void)
{
    return (uint32_t)syscall(SYS_gettid);
}

// Waits until the word is changed, or for this long.
static inline void wait_for_change(const uint32_t *word, uint32_t from, uint64_t ns)
{
    struct timespec most = {.tv_sec = (time_t)(ns / 1000000000), .tv_nsec = (long)(ns % 1000000000)};
    (void)syscall(SYS_futex, word, FUTEX_WAIT_PRIVATE, from, &most, NULL, 0);
}

static inline void change(uint32_t *word, uint32_t to)
{
    __atomic_store_n(word, to, __ATOMIC_SEQ_CST);
    (void)syscall(SYS_futex, word, FUTEX_WAKE_PRIVATE, INT_MAX, NULL, NULL, 0);
}

static inline bool exchange_if(uint32_t *word, uint32_t from, uint32_t to)
{
    return __atomic_compare_exchange_n(word, &from, to, false, __ATOMIC_SEQ_CST, __ATOMIC_SEQ_CST);
}

static inline uint32_t load(const uint32_t *word)
{
    return __atomic_load_n(word, __ATOMIC_SEQ_CST);
}

// How many records of a ring are complete.
static inline uint64_t records_of(const struct tracering_writer *ring)
{
    uint64_t records = 0;
    (void)tracering_written(ring, &records);
    return records;
}

// The slot that has the leases of the calling thread, or null.
static inline struct slot *slot_of_caller(void)
{
    return flight_mine.running == load(&flight_running) ? flight_mine.named : NULL;
}

// The same, which stays until go_out.
static inline struct slot *go_in(void)
{
    (void)__atomic_add_fetch(&flight_inside, 1, __ATOMIC_SEQ_CST);
    return slot_of_caller();
}

static inline void go_out(void)
{
    (void)__atomic_sub_fetch(&flight_inside, 1, __ATOMIC_SEQ_CST);
}

#pragma GCC visibility pop
#endif
