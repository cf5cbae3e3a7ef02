// A running trace ring: a writer's end and a reader's end, each in a handle.
//
// One thread writes and one thread reads; neither waits for the other. Records are numbered from 0 on. If the ring is
// full, the oldest closed page is overwritten, and the reader knows how many records were lost. What is taken is a
// parcel: a page with its CPU, its fill, its first record's number and the count of lost records, in bytes that can be
// stored and sent (docs/formats/pages.md, "Parcel bytes"). A collector puts parcels together again, of one CPU or of
// many, whatever their order and repeats: it lists their records by time, and knows which numbers are missing. A fleet
// does so for many streams, each of which is one incarnation of a machine: its pieces, which are packed parcels and
// marks, come in any order and any number of times (docs/formats/pages.md, "Streams of parcels").
//
// Handles. A handle is all zeros before its first call: {0} in C, and in C and C++ TRACERING_WRITER_INIT,
// TRACERING_READER_INIT, TRACERING_COLLECTOR_INIT and TRACERING_FLEET_INIT. Only the calls below change it, and it must
// not be copied.
//
// Answers. A call answers TRACERING_DONE or another number that isn't positive if it did what it says, and else a
// positive one: why it didn't (but `depth` also answers 1 to 4, which are none of these). What is changed all the same,
// the call's own text says. `tracering_text` has a text for each. A call may answer these, which its own list leaves
// out:
//   TRACERING_NULL     a pointer is null (one to bytes or runs may be, if their number is 0; `out` of take, of peek
//                      and of settle may not; `lost` of writer_free may)
//   TRACERING_ABSENT   the handle has nothing: it is new, or what it had was freed or settled
//   TRACERING_BUSY     the handle is in another call, which this one interrupts
// Then nothing is changed, but BUSY of write and begin is counted (`tracering_refused`).
//
// Conditions that no call can check: a pointer is valid, with as many bytes as are stated; no two arguments of one call
// overlap; a handle is in one call at a time, other than by a signal's handler.
//
// Threads. A writer's handle belongs to one thread at a time, and so does a reader's, a collector's, and a fleet's. A
// handle is handed to another thread by pthread_create, pthread_join, a lock, or a sequentially consistent atomic. Both
// ends of a ring make sequentially consistent accesses of the words that they share; the proofs assume a memory that is
// so.
//
// Signals. A handler may call write, begin, put, finish, end, begin_close, depth and peek on the handle of the thread
// that it interrupts: its records are nested. Within a call on that handle they answer BUSY: the handler's record isn't
// written, and the handle counts it. It may call take and wish on a reader's handle in the same way, and at any time,
// in a call too, written, refused, writer_room and reader_room. It must not call new, settle, those that free, pack,
// or any call on a collector or a fleet: most of these take or release memory. It completes what it begins.
// No record of a handler is refused so if it has a ring that nothing which it interrupts writes: one ring for the
// thread's own code, and one for each level of handlers. Handlers are of one level if each blocks the signals of all of
// them (sa_mask). examples/c_recorder/levels.c is a program to copy; a collector puts the records of all in order.
// A handler that interrupts a call on one end of a ring, and calls the other end of that ring, does what another thread
// would do between two instructions. The library is proved for threads, and tried for such handlers.
//
// Memory comes from malloc, realloc and free. A program that replaces one of them replaces all three. In a forked child
// of a process with threads, no call may be made that takes or releases memory.
//
// ThreadSanitizer doesn't know how the two ends of a ring are ordered. If a program is compiled for it, the calls on
// rings hide what they do from it, but report payloads that they read, and `out`, where they write it. What else one
// thread passes to another by a record, it takes for unordered. (The order needs a name that the two handles of a ring
// share, and they have none; one name for all rings would hide races between others.)
#ifndef TRACERING_H
#define TRACERING_H

// The library's version. (packaging/version reads these lines, for whatever else states it.)
#define TRACERING_VERSION "0.1.0"
#define TRACERING_VERSION_MAJOR 0
#define TRACERING_VERSION_MINOR 1
#define TRACERING_VERSION_PATCH 0

#if __SIZEOF_POINTER__ != 8
#error "tracering: the library is made for machines with 64-bit pointers, and this one has others"
#endif
#if __BYTE_ORDER__ != __ORDER_LITTLE_ENDIAN__
#error "tracering: the library is made for little-endian machines, and this one isn't"
#endif

#include <signal.h>
#include <stdbool.h>
#include <stddef.h>
#include <stdint.h>

#ifdef __cplusplus
extern "C" {
#endif

// What the exports know of a handle: `WriterHandle`, `ReaderHandle`, `CollectorHandle` or `FleetHandle` of
// `crates/tracering_c`.
struct tracering_held {
    void *at;
    bool live;
};

// How many records a writer's calls lost, by the answer.
struct tracering_refused {
    uint64_t busy;        // of write and begin
    uint64_t too_deep;    // of write and begin
    uint64_t too_long;    // of write and begin
    uint64_t late_moment; // of write and begin
    uint64_t crowded;     // of write, and of finish if it isn't a close that is refused
    uint64_t worn;        // the same
};

// A handle: `in_call` is set as long as it is in a call, so that one which interrupts it is refused. `other` is where
// the other end of its ring was made, so that settle knows the two.
struct tracering_writer {
    struct tracering_held held;
    volatile sig_atomic_t in_call;
    uint32_t closes; // bit D: of the frames that are begun, the one above D - 1 others is a close
    const void *other;
    size_t room;      // what tracering_writer_room answers
    uint64_t written; // how many records are complete
    struct tracering_refused refused;
    uint64_t *region_ended; // where the ring's region says that the writer ended; null without one
};

struct tracering_reader {
    struct tracering_held held;
    volatile sig_atomic_t in_call;
    const void *other;
    size_t room; // what tracering_reader_room answers
    uint64_t *region_taken; // where the ring's region says what was taken; null without one
};

struct tracering_collector {
    struct tracering_held held;
    volatile sig_atomic_t in_call;
};

struct tracering_fleet {
    struct tracering_held held;
    volatile sig_atomic_t in_call;
};

// Handles that are all zeros, which no compiler warns of.
#ifdef __cplusplus
#define TRACERING_WRITER_INIT {}
#define TRACERING_READER_INIT {}
#define TRACERING_COLLECTOR_INIT {}
#define TRACERING_FLEET_INIT {}
#else
#define TRACERING_WRITER_INIT {{0, 0}, 0, 0, 0, 0, 0, {0, 0, 0, 0, 0, 0}, 0}
#define TRACERING_READER_INIT {{0, 0}, 0, 0, 0, 0}
#define TRACERING_COLLECTOR_INIT {{0, 0}, 0}
#define TRACERING_FLEET_INIT {{0, 0}, 0}
#endif

// What is reported of a page that is given.
struct tracering_taken {
    uint64_t fill;   // which fill of its ring it was: the first one is 0
    uint64_t first;  // the number of its first record
    uint64_t missed; // how many records were lost between the page taken before and this one
    uint64_t count;  // how many records it has
    size_t len;      // how many bytes its parcel takes: TRACERING_HEADER, its data, and a count of lost records if one
                     // is stored. Zeros follow them, up to TRACERING_HEADER and the ring's `size` bytes.
};

// Where a parcel is refused.
struct tracering_fault_at {
    uint64_t number; // the number at odds; or how many bytes of its page's data are before the word that is bad
    uint32_t cpu;    // the CPU whose number it is
};

// A run of missing numbers.
struct tracering_run {
    uint64_t first; // its first number
    uint64_t last;  // its last number
};

// A line of a listing, without its bytes.
struct tracering_line {
    uint64_t moment; // when the record was made, in its writer's units
    uint64_t number; // the record's number among those of its CPU
    uint32_t cpu;    // the CPU that made it
    size_t len;      // how many bytes it has: its payload, rounded up to a multiple of 4 (if written here, to 4 at
                     // least, by zeros or what its writer put into the rest of the slot)
};

// Where a piece, or what a call was to do, is at odds with a stream.
struct tracering_stream_fault {
    uint64_t stream; // the stream's id
    uint64_t number; // the number at odds; each call says which one
    uint32_t cpu;    // the CPU of the stream whose number it is
};

// A line of a fleet's listing, without its bytes.
struct tracering_fleet_line {
    uint64_t moment; // when the record was made, in its writer's units
    uint64_t stream; // the id of the stream that has it
    uint64_t number; // the record's number among those of its CPU
    uint32_t cpu;    // the CPU of that stream that made it
    size_t len;      // how many bytes it has, as those of `tracering_line`
};

// How far a CPU of a stream is known.
struct tracering_cpu_state {
    uint64_t bound;     // what is below is kept no longer; 0 if nothing was forgotten
    uint64_t watermark; // the least number from the bound on that neither has a record, nor is missing, nor given up
    uint64_t end;       // how many records the CPU has; 0 unless `has_end`
    bool has_end;       // whether that is known
};

// The bytes of a parcel before its page's data.
#define TRACERING_HEADER 48

// The most bytes of a mark, and of the piece that a parcel of `len` bytes is packed to.
#define TRACERING_MARK 64
#define TRACERING_PIECE(parcel) (40 + (parcel))

// What calls answer.
enum {
    TRACERING_FORGOTTEN = -5,    // fleet_add: the parcel ends below the bound of its CPU, so nothing of it is kept
    TRACERING_NOTHING_CLOSED = -4, // finish: the close is completed, and closed nothing: the page has no record
    TRACERING_DIFFERENT = -3,    // same: the collectors, or fleets, don't have and miss the same
    TRACERING_KNOWN = -2,        // add, collector_take: all that the parcel has and misses was there already;
                                 // fleet_add: all that the piece says was; forget, give_up: the bound is so high
    TRACERING_RESERVED = -1,     // finish: the record of the frame on top is reserved
    TRACERING_DONE = 0,          // the call did what it says
    TRACERING_TOO_DEEP = 1,      // four frames are begun and not completed
    TRACERING_TOO_LONG = 2,      // the record has no room on an empty page; put: the bytes don't fit the slot
    TRACERING_LATE_MOMENT = 3,   // the moment is 2^59 or later; nanoseconds since 1970 are (use CLOCK_MONOTONIC, or
                                 // count from the program's start)
    TRACERING_CROWDED = 4,       // a page is needed, and all are begun and not closed
    TRACERING_WORN = 5,          // a page is needed, and no number is left for its use: there are 2^48 - `pages`
    TRACERING_NO_FRAME = 6,      // nothing is begun
    TRACERING_NOT_RESERVED = 7,  // the frame on top has no record: not yet, not any more, or it is a close
    TRACERING_ABSENT = 8,        // the handle has nothing
    TRACERING_IN_USE = 9,        // the handle that something new is to go to has something already
    TRACERING_BUSY = 10,         // the handle is in another call
    TRACERING_NULL = 11,         // a pointer is null
    TRACERING_NO_MEMORY = 12,    // there is no memory
    TRACERING_BAD_SIZE = 13,     // a ring can't have this number of pages or this size
    TRACERING_BAD_CPU = 14,      // there is no such CPU
    TRACERING_EMPTY = 15,        // take, collector_take: no closed page is unread; peek: the page that is written has
                                 // no record
    TRACERING_MOVING = 16,       // a move of the head isn't finished, or `take` made all its steps: try again
    TRACERING_NO_ROOM = 17,      // the buffer is too short; take, peek and settle change nothing, missing gives what
                                 // has room and sets `count`, next sets `line`, pack sets `len`
    TRACERING_NOT_AT_REST = 18,  // settle, peek: a frame is begun and not completed
    TRACERING_UNREAD = 19,       // settle: a closed page may be unread
    TRACERING_TOO_SHORT = 20,    // there are fewer bytes than TRACERING_HEADER
    TRACERING_BAD_IMAGE_SIZE = 21, // the size that the page states is above what follows, or the page is too long
    TRACERING_BAD_COUNT = 22,    // a stored count of missed records is stated, and there are no bytes for it
    TRACERING_CUT = 23,          // the data ends within a word
    TRACERING_BAD_LENGTH = 24,   // no word has the length that this one states
    TRACERING_TIME_OVERFLOW = 25, // a moment doesn't fit 64 bits
    TRACERING_NUMBER_OVERFLOW = 26, // the number after the last record's doesn't fit 64 bits
    TRACERING_MISSED_TOO_MANY = 27, // more numbers are missing before the first record's than there are
    TRACERING_MISSED_DIFFERS = 28, // the page states other missed records than the number before it
    TRACERING_CLASH = 29,        // there are two different records of one CPU's number
    TRACERING_TAKEN_AND_MISSING = 30, // a CPU's number has a record and is missing
    TRACERING_END = 31,          // next: all lines of the listing were given; next_stream, next_cpu: there is none;
                                 // frontier: all that is there is complete
    TRACERING_OTHER_RING = 32,   // settle: these are ends of two rings
    TRACERING_NOT_PACKED = 33,   // the bytes don't begin as a piece of a stream does
    TRACERING_PIECE_CUT = 34,    // the bytes end within the piece
    TRACERING_BAD_VERSION = 35,  // the piece is of another version
    TRACERING_BAD_PIECE_LENGTH = 36, // no piece has the length that is stated
    TRACERING_BAD_SUM = 37,      // the piece's checksum is another one
    TRACERING_BAD_KIND = 38,     // the piece is neither a parcel nor a mark that is known
    TRACERING_LOOSE = 39,        // the piece's parcel is spelled otherwise than it is packed
    TRACERING_BAD_MARK = 40,     // the mark has another length than its kind's, or says what none says
    TRACERING_BEYOND_END = 41,   // a number is at or beyond the end of its CPU
    TRACERING_OTHER_END = 42,    // the CPU has another end
    TRACERING_NOT_FINAL = 43,    // forget: a number below the bound neither has a record, nor is missing, nor given up
    TRACERING_BAD_REGION = 44    // the memory is no region, or can't be one (tracering_region.h)
};

// A short text for what a call answered.
static inline const char *tracering_text(int32_t code)
{
    // (c/rust/build.rs reads these lines.)
    switch (code) {
    case TRACERING_FORGOTTEN: return "the parcel ends below the bound of its CPU";
    case TRACERING_NOTHING_CLOSED: return "the page that is written has no record, so nothing is closed";
    case TRACERING_DIFFERENT: return "they don't have and miss the same";
    case TRACERING_KNOWN: return "all that it says was there already";
    case TRACERING_RESERVED: return "the record is reserved";
    case TRACERING_DONE: return "done";
    case TRACERING_TOO_DEEP: return "four frames are begun and not completed";
    case TRACERING_TOO_LONG: return "the record has no room on an empty page, or the bytes have none in the slot";
    case TRACERING_LATE_MOMENT: return "the moment is 2^59 or later (nanoseconds since 1970 are)";
    case TRACERING_CROWDED: return "a page is needed, and all are begun and not closed";
    case TRACERING_WORN: return "a page is needed, and no number is left for its use";
    case TRACERING_NO_FRAME: return "nothing is begun";
    case TRACERING_NOT_RESERVED: return "what was begun last has no record that is reserved";
    case TRACERING_ABSENT: return "the handle has nothing";
    case TRACERING_IN_USE: return "the handle has something already";
    case TRACERING_BUSY: return "the handle is in another call";
    case TRACERING_NULL: return "a pointer is null";
    case TRACERING_NO_MEMORY: return "there is no memory";
    case TRACERING_BAD_SIZE: return "a ring can't have this number of pages or this size";
    case TRACERING_BAD_CPU: return "there is no such CPU";
    case TRACERING_EMPTY: return "no closed page is unread";
    case TRACERING_MOVING: return "a move of the head isn't finished: try again";
    case TRACERING_NO_ROOM: return "the buffer is too short";
    case TRACERING_NOT_AT_REST: return "a frame is begun and not completed";
    case TRACERING_UNREAD: return "a closed page may be unread";
    case TRACERING_TOO_SHORT: return "there are fewer bytes than a parcel has before its page's data";
    case TRACERING_BAD_IMAGE_SIZE: return "the page states more bytes than follow, or is too long";
    case TRACERING_BAD_COUNT: return "there are no bytes for the count of missed records that the page states";
    case TRACERING_CUT: return "the page's data ends within a word";
    case TRACERING_BAD_LENGTH: return "no word of a page has this length";
    case TRACERING_TIME_OVERFLOW: return "a moment doesn't fit 64 bits";
    case TRACERING_NUMBER_OVERFLOW: return "the number after the last record's doesn't fit 64 bits";
    case TRACERING_MISSED_TOO_MANY: return "more numbers are missing before the first record's than there are";
    case TRACERING_MISSED_DIFFERS: return "the page states other missed records than the number before it";
    case TRACERING_CLASH: return "there are two different records of one number";
    case TRACERING_TAKEN_AND_MISSING: return "a number has a record and is missing";
    case TRACERING_END: return "there is nothing more";
    case TRACERING_OTHER_RING: return "these are ends of two rings";
    case TRACERING_NOT_PACKED: return "the bytes don't begin as a piece of a stream does";
    case TRACERING_PIECE_CUT: return "the bytes end within the piece";
    case TRACERING_BAD_VERSION: return "the piece is of another version";
    case TRACERING_BAD_PIECE_LENGTH: return "no piece has the length that is stated";
    case TRACERING_BAD_SUM: return "the piece's checksum is another one";
    case TRACERING_BAD_KIND: return "the piece is neither a parcel nor a mark that is known";
    case TRACERING_LOOSE: return "the piece's parcel is spelled otherwise than it is packed";
    case TRACERING_BAD_MARK: return "the mark has another length than its kind's, or says what none says";
    case TRACERING_BEYOND_END: return "a number is at or beyond the end of its CPU";
    case TRACERING_OTHER_END: return "the CPU has another end";
    case TRACERING_NOT_FINAL: return "a number below the bound neither has a record, nor is missing, nor given up";
    case TRACERING_BAD_REGION: return "the memory is no region, or is too short, not aligned or in use";
    default: return "no call answers this";
    }
}

// A payload, as an export takes it.
struct tracering_payload {
    const uint8_t *bytes;
    size_t len;
};

// The exports of the library, which the functions below call. They have two more conditions: no pointer is null, and no
// handle is in another call.
int32_t tracering_raw_new(struct tracering_held *, struct tracering_held *, uint32_t, size_t, size_t);
int32_t tracering_raw_write(struct tracering_held *, uint64_t, struct tracering_payload);
int32_t tracering_raw_begin(struct tracering_held *, uint64_t, size_t);
int32_t tracering_raw_begin_close(struct tracering_held *);
int32_t tracering_raw_finish(struct tracering_held *);
int32_t tracering_raw_put(struct tracering_held *, const uint8_t *, size_t);
int32_t tracering_raw_end(struct tracering_held *);
size_t tracering_raw_depth(struct tracering_held *);
int32_t tracering_raw_peek(struct tracering_held *, uint8_t *, size_t, struct tracering_taken *);
int32_t tracering_raw_take(struct tracering_held *, uint8_t *, size_t, struct tracering_taken *);
int32_t tracering_raw_wish(struct tracering_held *);
int32_t tracering_raw_settle(struct tracering_held *, struct tracering_held *, uint8_t *, size_t,
    struct tracering_taken *);
int32_t tracering_raw_writer_free(struct tracering_held *, uint64_t *);
int32_t tracering_raw_reader_free(struct tracering_held *);
int32_t tracering_raw_collector_new(struct tracering_held *);
int32_t tracering_raw_collector_add(struct tracering_held *, const uint8_t *, size_t, struct tracering_fault_at *);
int32_t tracering_raw_collector_take(struct tracering_held *, struct tracering_held *, struct tracering_taken *,
    struct tracering_fault_at *);
int32_t tracering_raw_collector_missing(struct tracering_held *, uint32_t, struct tracering_run *, size_t, size_t *);
int32_t tracering_raw_collector_list(struct tracering_held *, size_t *);
int32_t tracering_raw_collector_next(struct tracering_held *, uint8_t *, size_t, struct tracering_line *);
int32_t tracering_raw_collector_same(struct tracering_held *, struct tracering_held *);
int32_t tracering_raw_collector_free(struct tracering_held *);
int32_t tracering_raw_pack(uint64_t, const uint8_t *, size_t, uint8_t *, size_t, size_t *);
int32_t tracering_raw_pack_end(uint64_t, uint32_t, uint64_t, uint8_t *, size_t, size_t *);
int32_t tracering_raw_fleet_new(struct tracering_held *);
int32_t tracering_raw_fleet_add(struct tracering_held *, const uint8_t *, size_t, size_t *,
    struct tracering_stream_fault *);
int32_t tracering_raw_fleet_merge(struct tracering_held *, struct tracering_held *, struct tracering_stream_fault *);
int32_t tracering_raw_fleet_same(struct tracering_held *, struct tracering_held *);
int32_t tracering_raw_fleet_next_stream(struct tracering_held *, uint64_t, uint64_t *);
int32_t tracering_raw_fleet_next_cpu(struct tracering_held *, uint64_t, uint32_t, uint32_t *);
int32_t tracering_raw_fleet_state(struct tracering_held *, uint64_t, uint32_t, struct tracering_cpu_state *);
int32_t tracering_raw_fleet_missing(struct tracering_held *, uint64_t, uint32_t, struct tracering_run *, size_t,
    size_t *);
int32_t tracering_raw_fleet_unknown(struct tracering_held *, uint64_t, uint32_t, struct tracering_run *, size_t,
    size_t *);
int32_t tracering_raw_fleet_undelivered(struct tracering_held *, uint64_t, uint32_t, struct tracering_run *, size_t,
    size_t *);
int32_t tracering_raw_fleet_forget(struct tracering_held *, uint64_t, uint32_t, uint64_t,
    struct tracering_stream_fault *);
int32_t tracering_raw_fleet_give_up(struct tracering_held *, uint64_t, uint32_t, uint64_t,
    struct tracering_stream_fault *);
int32_t tracering_raw_fleet_list(struct tracering_held *, size_t *);
int32_t tracering_raw_fleet_next(struct tracering_held *, uint8_t *, size_t, struct tracering_fleet_line *);
int32_t tracering_raw_fleet_frontier(struct tracering_held *, uint64_t *);
int32_t tracering_raw_fleet_list_before(struct tracering_held *, uint64_t, size_t *);
int32_t tracering_raw_fleet_forget_before(struct tracering_held *, uint64_t);
int32_t tracering_raw_fleet_pack(struct tracering_held *, uint64_t, uint8_t *, size_t, size_t *);
int32_t tracering_raw_fleet_free(struct tracering_held *);

// Bytes that may be null if there are none.
static inline const uint8_t *tracering_bytes(const void *bytes)
{
    return (const uint8_t *)(bytes ? bytes : "");
}

// Marks a handle as in a call, unless it is in one already. What comes after the mark is done after it, as a handler of
// the same thread sees it.
static inline bool tracering_enter(volatile sig_atomic_t *in_call)
{
    if (*in_call)
        return false;
    *in_call = 1;
    __atomic_signal_fence(__ATOMIC_SEQ_CST);
    return true;
}

// Takes the mark away, after all that was done before.
static inline int32_t tracering_leave(volatile sig_atomic_t *in_call, int32_t code)
{
    __atomic_signal_fence(__ATOMIC_SEQ_CST);
    *in_call = 0;
    return code;
}

// Marks two handles so, or none of them: one handle can't be both.
static inline bool tracering_enter_both(volatile sig_atomic_t *in_call, volatile sig_atomic_t *other)
{
    if (!tracering_enter(in_call))
        return false;
    if (tracering_enter(other))
        return true;
    (void)tracering_leave(in_call, 0);
    return false;
}

static inline int32_t tracering_leave_both(volatile sig_atomic_t *in_call, volatile sig_atomic_t *other, int32_t code)
{
    (void)tracering_leave(other, 0);
    return tracering_leave(in_call, code);
}

// What calls on rings hide from ThreadSanitizer, and what they report to it.
#ifdef __SANITIZE_THREAD__
#define TRACERING_TSAN 1
#elif defined(__has_feature)
#if __has_feature(thread_sanitizer)
#define TRACERING_TSAN 1
#endif
#endif
#ifdef TRACERING_TSAN
void AnnotateIgnoreReadsBegin(const char *, int);
void AnnotateIgnoreReadsEnd(const char *, int);
void AnnotateIgnoreWritesBegin(const char *, int);
void AnnotateIgnoreWritesEnd(const char *, int);
void __tsan_read_range(void *, unsigned long);
void __tsan_write_range(void *, unsigned long);
#define TRACERING_HIDE() (AnnotateIgnoreReadsBegin(__FILE__, __LINE__), AnnotateIgnoreWritesBegin(__FILE__, __LINE__))
#define TRACERING_SHOW() (AnnotateIgnoreWritesEnd(__FILE__, __LINE__), AnnotateIgnoreReadsEnd(__FILE__, __LINE__))
#define TRACERING_READ(bytes, len) __tsan_read_range((void *)(uintptr_t)(bytes), len)
#define TRACERING_WRITTEN(bytes, len) __tsan_write_range(bytes, len)
#else
#define TRACERING_HIDE() ((void)0)
#define TRACERING_SHOW() ((void)0)
#define TRACERING_READ(bytes, len) ((void)0)
#define TRACERING_WRITTEN(bytes, len) ((void)0)
#endif

// The marks of a call on an end of a ring.
static inline bool tracering_enter_end(volatile sig_atomic_t *in_call)
{
    if (!tracering_enter(in_call))
        return false;
    TRACERING_HIDE();
    return true;
}

static inline int32_t tracering_leave_end(volatile sig_atomic_t *in_call, int32_t code)
{
    TRACERING_SHOW();
    return tracering_leave(in_call, code);
}

// Counts a record that is lost for this reason, if that is one, and answers it. A handler may count within it.
static __attribute__((noinline, cold, unused)) int32_t tracering_lost(struct tracering_writer *w, int32_t code)
{
    struct tracering_refused *refused = &w->refused;
    uint64_t *count = code == TRACERING_BUSY  ? &refused->busy
        : code == TRACERING_TOO_DEEP          ? &refused->too_deep
        : code == TRACERING_TOO_LONG          ? &refused->too_long
        : code == TRACERING_LATE_MOMENT       ? &refused->late_moment
        : code == TRACERING_CROWDED           ? &refused->crowded
        : code == TRACERING_WORN              ? &refused->worn
                                              : NULL;
    if (count)
        (void)__atomic_fetch_add(count, 1, __ATOMIC_RELAXED);
    return code;
}

// The rest of a handle is zeros, too, once what it had is gone. No handler counts any more: it is answered ABSENT.
static inline void tracering_forget(struct tracering_writer *w)
{
    __atomic_signal_fence(__ATOMIC_SEQ_CST);
    w->closes = 0;
    w->other = NULL;
    w->room = 0;
    w->region_ended = NULL;
    __atomic_store_n(&w->written, 0, __ATOMIC_RELAXED);
    __atomic_store_n(&w->refused.busy, 0, __ATOMIC_RELAXED);
    __atomic_store_n(&w->refused.too_deep, 0, __ATOMIC_RELAXED);
    __atomic_store_n(&w->refused.too_long, 0, __ATOMIC_RELAXED);
    __atomic_store_n(&w->refused.late_moment, 0, __ATOMIC_RELAXED);
    __atomic_store_n(&w->refused.crowded, 0, __ATOMIC_RELAXED);
    __atomic_store_n(&w->refused.worn, 0, __ATOMIC_RELAXED);
}

static inline void tracering_forget_reader(struct tracering_reader *r)
{
    r->other = NULL;
    r->room = 0;
    r->region_taken = NULL;
}

// Both ends of a ring that was made know each other.
static inline void tracering_join(struct tracering_writer *w, struct tracering_reader *r, size_t size)
{
    w->other = r->held.at;
    r->other = w->held.at;
    w->room = r->room = TRACERING_HEADER + size;
}

// The parts of a call that are stored in a region (tracering_region.h): a ring without one skips them.
// A ring's region says which record is the first that wasn't taken, after each page that is given.
static inline void tracering_tell_taken(const struct tracering_reader *r, const struct tracering_taken *taken)
{
    if (r->region_taken)
        __atomic_store_n(r->region_taken, taken->first + taken->count, __ATOMIC_RELEASE);
}

// It says that the writer ended with nothing begun, after the last page's close.
static inline void tracering_tell_ended(struct tracering_writer *w)
{
    if (!w->region_ended || tracering_raw_depth(&w->held))
        return;
    if (tracering_raw_begin_close(&w->held) == TRACERING_DONE)
        (void)tracering_raw_finish(&w->held);
    __atomic_store_n(w->region_ended, 1, __ATOMIC_RELEASE);
}

// Both, after a settle, which gives the last page if that has a record.
static inline void tracering_tell_settled(const struct tracering_writer *w, const struct tracering_reader *r,
    const struct tracering_taken *taken)
{
    if (taken->len)
        tracering_tell_taken(r, taken);
    if (w->region_ended)
        __atomic_store_n(w->region_ended, 1, __ATOMIC_RELEASE);
}

// Counts a record that is complete. Its call is still marked, so no handler counts within it.
static inline void tracering_complete(struct tracering_writer *w)
{
    __atomic_store_n(&w->written, __atomic_load_n(&w->written, __ATOMIC_RELAXED) + 1, __ATOMIC_RELAXED);
}

// A new ring of `pages` pages (2 to 1,024), and a spare one, of `size` bytes of data each (32 to 65,520, a multiple of
// 4). Its parcels are those of this CPU (below 256). All memory of the ring is taken here.
// IN_USE, BAD_CPU, BAD_SIZE (no ring has these numbers: it has 67 megabytes of data at most), NO_MEMORY.
static inline int32_t tracering_new(struct tracering_writer *w, struct tracering_reader *r, uint32_t cpu, size_t pages,
    size_t size)
{
    if (!(w && r))
        return TRACERING_NULL;
    if (!tracering_enter_both(&w->in_call, &r->in_call))
        return TRACERING_BUSY;
    int32_t code = tracering_raw_new(&w->held, &r->held, cpu, pages, size);
    if (code == TRACERING_DONE)
        tracering_join(w, r, size);
    return tracering_leave_both(&w->in_call, &r->in_call, code);
}

// How many bytes `out` of take, of peek and of settle has room for at least: TRACERING_HEADER and the ring's `size`. It
// is 0 if the handle has nothing, or is null. They may be made within a call on the handle.
static inline size_t tracering_writer_room(const struct tracering_writer *w)
{
    return w ? w->room : 0;
}

static inline size_t tracering_reader_room(const struct tracering_reader *r)
{
    return r ? r->room : 0;
}

// ---- The writer's calls, of its thread and of handlers that interrupt it. None takes memory or waits. In a ring of N
// pages a write makes at most 3N + 54 steps, whatever the reader does, each of which accesses one shared word at most.

// Writes a record of `len` bytes whole, nested in the frames that are begun. Moments are a caller's units, below
// 2^59; one that is earlier than the last record's is raised to that. TOO_DEEP, TOO_LONG, LATE_MOMENT, CROWDED, WORN:
// the record isn't written, and nothing of it stays begun.
static inline int32_t tracering_write(struct tracering_writer *w, uint64_t moment, const void *payload, size_t len)
{
    if (!(w && (payload || !len)))
        return TRACERING_NULL;
    if (!tracering_enter_end(&w->in_call))
        return tracering_lost(w, TRACERING_BUSY);
    struct tracering_payload given;
    given.bytes = tracering_bytes(payload);
    given.len = len;
    int32_t code = tracering_raw_write(&w->held, moment, given);
    if (code == TRACERING_DONE)
        tracering_complete(w);
    (void)tracering_leave_end(&w->in_call, code);
    if (code != TRACERING_DONE)
        return tracering_lost(w, code);
    TRACERING_READ(payload, len);
    return TRACERING_DONE;
}

// A record by its parts, so that others may be written between them: begin, finish, put, end, finish. Each record has a
// frame from its begin on; a frame that is begun later is above it, and is completed before it.
// begin: a record of `len` bytes. TOO_DEEP, TOO_LONG, LATE_MOMENT.
static inline int32_t tracering_begin(struct tracering_writer *w, uint64_t moment, size_t len)
{
    if (!w)
        return TRACERING_NULL;
    if (!tracering_enter_end(&w->in_call))
        return tracering_lost(w, TRACERING_BUSY);
    int32_t code = tracering_leave_end(&w->in_call, tracering_raw_begin(&w->held, moment, len));
    return code == TRACERING_DONE ? code : tracering_lost(w, code);
}

// begin_close: a close of the page that is written, so that it can be taken; `finish` carries it out. In a full ring
// that overwrites the oldest page, so take the full pages first. A page without a record isn't closed. TOO_DEEP.
static inline int32_t tracering_begin_close(struct tracering_writer *w)
{
    if (!w)
        return TRACERING_NULL;
    if (!tracering_enter_end(&w->in_call))
        return TRACERING_BUSY;
    int32_t code = tracering_raw_begin_close(&w->held);
    if (code == TRACERING_DONE)
        w->closes |= 1u << tracering_raw_depth(&w->held);
    return tracering_leave_end(&w->in_call, code);
}

// finish: reserves the record of the frame on top (RESERVED), in a slot of zeros, or says so again of one that is
// reserved, and leaves its slot as it is; or completes a frame that was ended, a close, or one that was refused (DONE).
// NOTHING_CLOSED: the frame on top was a close, which is completed; the page that is written has no record, and isn't
// closed. CROWDED, WORN: the frame on top is refused, and its record isn't written; if `depth` still counts the frame,
// one more `finish` completes it. NO_FRAME.
static inline int32_t tracering_finish(struct tracering_writer *w)
{
    if (!w)
        return TRACERING_NULL;
    if (!tracering_enter_end(&w->in_call))
        return TRACERING_BUSY;
    uint32_t close = w->closes ? w->closes & 1u << tracering_raw_depth(&w->held) : 0;
    w->closes -= close;
    int32_t code = tracering_leave_end(&w->in_call, tracering_raw_finish(&w->held));
    return code <= TRACERING_DONE || close ? code : tracering_lost(w, code);
}

// put: copies the bytes to the front of the slot of the record on top, which is reserved: its `len` bytes, rounded up
// to whole words of 4, and at least one. TOO_LONG, NO_FRAME, NOT_RESERVED.
static inline int32_t tracering_put(struct tracering_writer *w, const void *bytes, size_t len)
{
    if (!(w && (bytes || !len)))
        return TRACERING_NULL;
    if (!tracering_enter_end(&w->in_call))
        return TRACERING_BUSY;
    int32_t code = tracering_leave_end(&w->in_call, tracering_raw_put(&w->held, tracering_bytes(bytes), len));
    if (code == TRACERING_DONE)
        TRACERING_READ(bytes, len);
    return code;
}

// end: the record on top ends with the bytes in its slot. If its frame is the only one, `finish` completes it; others
// are gone. NO_FRAME, NOT_RESERVED.
static inline int32_t tracering_end(struct tracering_writer *w)
{
    if (!w)
        return TRACERING_NULL;
    if (!tracering_enter_end(&w->in_call))
        return TRACERING_BUSY;
    int32_t code = tracering_raw_end(&w->held);
    if (code == TRACERING_DONE)
        tracering_complete(w);
    return tracering_leave_end(&w->in_call, code);
}

// Copies to `records` how many records are complete: written, or ended. Whoever has taken pages, of which the last one
// has the numbers `first` to `first + count - 1`, has got, or seen counted as missed, all but *records - first - count
// of them. (While a frame is begun, its record's number may be before theirs.) It may be made within a call on the
// handle, by any handler, and by another thread. settle, writer_free and writer_abandon set the number to 0. It answers
// DONE, of a handle that has nothing too.
static inline int32_t tracering_written(const struct tracering_writer *w, uint64_t *records)
{
    if (!(w && records))
        return TRACERING_NULL;
    *records = __atomic_load_n(&w->written, __ATOMIC_RELAXED);
    return TRACERING_DONE;
}

// How many frames are begun and not completed: 0 to 4. ABSENT, BUSY, NULL: these are above 4.
static inline int32_t tracering_depth(struct tracering_writer *w)
{
    if (!w)
        return TRACERING_NULL;
    if (!tracering_enter_end(&w->in_call))
        return TRACERING_BUSY;
    return tracering_leave_end(&w->in_call, w->held.live ? (int32_t)tracering_raw_depth(&w->held) : TRACERING_ABSENT);
}

// Copies to `out` how many records write, begin and finish lost so far, by their answers. It may be made in a call on
// the handle, by any handler, and by another thread. (`missed` of a page that is taken has none of these records: it
// counts those that were written and overwritten.) settle, writer_free and writer_abandon set the counts to 0, so read
// them first. It answers DONE, of a handle that has nothing too.
// (The header counts, not the library: within a call no export may be called, and BUSY is the refusal that matters
// most. A record costs a test of the answer and three instructions more. A reader's handle has no counts of fills,
// which would say in pages, not in records, how much a taker lacks. In C++ the struct is written
// `struct tracering_refused`, since the call has its name; that is no slip.)
#pragma GCC diagnostic push
#pragma GCC diagnostic ignored "-Wshadow"
static inline int32_t tracering_refused(const struct tracering_writer *w, struct tracering_refused *out)
{
    if (!(w && out))
        return TRACERING_NULL;
    out->busy = __atomic_load_n(&w->refused.busy, __ATOMIC_RELAXED);
    out->too_deep = __atomic_load_n(&w->refused.too_deep, __ATOMIC_RELAXED);
    out->too_long = __atomic_load_n(&w->refused.too_long, __ATOMIC_RELAXED);
    out->late_moment = __atomic_load_n(&w->refused.late_moment, __ATOMIC_RELAXED);
    out->crowded = __atomic_load_n(&w->refused.crowded, __ATOMIC_RELAXED);
    out->worn = __atomic_load_n(&w->refused.worn, __ATOMIC_RELAXED);
    return TRACERING_DONE;
}
#pragma GCC diagnostic pop

// peek: copies the page that is written, if no frame is begun: its parcel goes to the front of `out`, as `take` gives
// one, with all records on it, which are complete, and nothing missing before them. `out` has room for TRACERING_HEADER
// and the ring's `size` bytes at least. Nothing is closed, and no record is taken: a later `take` or `settle` gives
// them, with those that are written until then on that page. NOT_AT_REST, NO_ROOM, EMPTY: the first of these that
// holds; then `out` and `taken` are not changed.
// Take until EMPTY first, and then peek; let no other thread write or take meanwhile (one thread does both, or a lock
// is held around both). Then the pages that were taken and this one have all records that are complete, except those
// that are counted as missed. The records that are peeked may be overwritten later, and then a page taken later counts
// them as missed: so no collector gets a peeked page and pages that are taken after it. Each dump has one of its own.
static inline int32_t tracering_peek(struct tracering_writer *w, void *out, size_t room, struct tracering_taken *taken)
{
    if (!(w && out && taken))
        return TRACERING_NULL;
    if (!tracering_enter_end(&w->in_call))
        return TRACERING_BUSY;
    int32_t code = tracering_leave_end(&w->in_call, tracering_raw_peek(&w->held, (uint8_t *)out, room, taken));
    if (code == TRACERING_DONE)
        TRACERING_WRITTEN(out, taken->len);
    return code;
}

// ---- The reader's calls, of its thread and of handlers that interrupt it. None takes memory or waits. A take makes at
// most 2N + 8 steps, whatever the writer does.

// Takes the oldest page that is closed and unread, or gives the one that `collector_take` didn't add: its parcel goes
// to the front of `out`. `out` has room for TRACERING_HEADER and the ring's `size` bytes at least, and that many
// are written. EMPTY, MOVING, NO_ROOM: then `out` and `taken` are not changed, and no page is taken (NO_ROOM doesn't
// look whether there is one).
static inline int32_t tracering_take(struct tracering_reader *r, void *out, size_t room, struct tracering_taken *taken)
{
    if (!(r && out && taken))
        return TRACERING_NULL;
    if (!tracering_enter_end(&r->in_call))
        return TRACERING_BUSY;
    int32_t code = tracering_raw_take(&r->held, (uint8_t *)out, room, taken);
    if (code == TRACERING_DONE)
        tracering_tell_taken(r, taken);
    (void)tracering_leave_end(&r->in_call, code);
    if (code == TRACERING_DONE)
        TRACERING_WRITTEN(out, taken->len);
    return code;
}

// Wishes for the page that is written to be closed, after a `take` that answered EMPTY. The writer closes it when the
// next outermost frame that finds a record on it is completed, unless no other page may follow it (WORN), or a page
// was closed since that `take`: then the wish closes nothing; take until EMPTY, and wish again.
static inline int32_t tracering_wish(struct tracering_reader *r)
{
    if (!r)
        return TRACERING_NULL;
    if (!tracering_enter_end(&r->in_call))
        return TRACERING_BUSY;
    return tracering_leave_end(&r->in_call, tracering_raw_wish(&r->held));
}

// ---- The calls of whoever has both ends, or is done with one. All but those that abandon release memory: no handler
// may make them.

// Joins the two ends of a ring. The pages that were taken, and then the one that is given here, have all records that
// were written, except those that are counted as missed. It is given as `take` does; if it has no record, `taken->len`
// is 0. Both handles are all zeros afterwards, the counts of records included. OTHER_RING: these are ends of two rings.
// NOT_AT_REST: a frame is begun and not completed. UNREAD: take until EMPTY first. NO_ROOM: `room` is less than `take`
// wants. Then neither handle is changed, nor `out`, nor `taken`.
static inline int32_t tracering_settle(struct tracering_writer *w, struct tracering_reader *r, void *out, size_t room,
    struct tracering_taken *taken)
{
    if (!(w && r && out && taken))
        return TRACERING_NULL;
    if (!tracering_enter_both(&w->in_call, &r->in_call))
        return TRACERING_BUSY;
    if (w->held.live && r->held.live && !(w->other == r->held.at && r->other == w->held.at))
        return tracering_leave_both(&w->in_call, &r->in_call, TRACERING_OTHER_RING);
    TRACERING_HIDE();
    int32_t code = tracering_raw_settle(&w->held, &r->held, (uint8_t *)out, room, taken);
    if (code == TRACERING_DONE)
        tracering_tell_settled(w, r, taken);
    TRACERING_SHOW();
    (void)tracering_leave_both(&w->in_call, &r->in_call, code);
    if (code != TRACERING_DONE)
        return code;
    TRACERING_WRITTEN(out, taken->len);
    tracering_forget(w);
    tracering_forget_reader(r);
    return TRACERING_DONE;
}

// Each frees its end; the ring's memory is released with the second. The handle is all zeros afterwards, a writer's
// counts of refused records included. Whatever is begun or unread then, each record that was complete when last nothing
// was begun is on a page that was taken, is counted as missed before one, was overwritten since, or is unread in the
// ring.
// writer_free: if no frame is begun, the page that is written is closed first, as begin_close and finish do, so that
// the reader can take all records. (In a full ring that overwrites the oldest page, whose records the reader finds
// counted as missed.) `lost`, which may be null, is set to how many records are lost: those that are written or
// reserved, and on a page that was never closed. It is 0 if no frame is begun, unless no number is left for the page's
// close (WORN). It doesn't count records of closed pages that were overwritten: they count as missed before the next
// page that is taken. If frames are begun, there may be no such page: then `tracering_written`, called before, says
// how many complete records the reader hasn't got.
static inline int32_t tracering_writer_free(struct tracering_writer *w, uint64_t *lost)
{
    if (!w)
        return TRACERING_NULL;
    if (!tracering_enter_end(&w->in_call))
        return TRACERING_BUSY;
    tracering_tell_ended(w);
    uint64_t count = 0;
    int32_t code = tracering_leave_end(&w->in_call, tracering_raw_writer_free(&w->held, &count));
    if (code != TRACERING_DONE)
        return code;
    tracering_forget(w);
    if (lost)
        *lost = count;
    return TRACERING_DONE;
}

static inline int32_t tracering_reader_free(struct tracering_reader *r)
{
    if (!r)
        return TRACERING_NULL;
    if (!tracering_enter(&r->in_call))
        return TRACERING_BUSY;
    int32_t code = tracering_leave(&r->in_call, tracering_raw_reader_free(&r->held));
    if (code == TRACERING_DONE)
        tracering_forget_reader(r);
    return code;
}

// Each gives up a handle that stays in a call for ever: a handler that interrupted the call never came back to it (it
// left by siglongjmp, or the thread was cancelled in it). What the handle had is not released, since the call may be
// at any point; the other end may be used and freed. If the call was in a move of the head, takes of the other end
// answer MOVING for ever, and what is unread is lost: so whoever abandons a writer tries MOVING again only so often.
// The handle is all zeros afterwards, and can be made new.
static inline int32_t tracering_writer_abandon(struct tracering_writer *w)
{
    if (!w)
        return TRACERING_NULL;
    (void)tracering_enter(&w->in_call);
    w->held.at = NULL;
    w->held.live = false;
    tracering_forget(w);
    return tracering_leave(&w->in_call, TRACERING_DONE);
}

static inline int32_t tracering_reader_abandon(struct tracering_reader *r)
{
    if (!r)
        return TRACERING_NULL;
    (void)tracering_enter(&r->in_call);
    r->held.at = NULL;
    r->held.live = false;
    tracering_forget_reader(r);
    return tracering_leave(&r->in_call, TRACERING_DONE);
}

// ---- The calls on collectors, of any thread that has the handle. Some take or release memory: no handler may make
// them.

// A new collector, without a parcel. IN_USE, NO_MEMORY.
static inline int32_t tracering_collector_new(struct tracering_collector *c)
{
    if (!c)
        return TRACERING_NULL;
    if (!tracering_enter(&c->in_call))
        return TRACERING_BUSY;
    return tracering_leave(&c->in_call, tracering_raw_collector_new(&c->held));
}

// Adds the parcel that these bytes are, as `take` gives it: the collector then also has and misses what the parcel
// does. The bytes are copied. KNOWN: all of it was there already. TOO_SHORT, BAD_CPU, BAD_IMAGE_SIZE, BAD_COUNT, CUT,
// BAD_LENGTH, TIME_OVERFLOW, NUMBER_OVERFLOW, MISSED_TOO_MANY, MISSED_DIFFERS: the bytes are no parcel; the first of
// these that holds, in this order (of BAD_IMAGE_SIZE to TIME_OVERFLOW the page's first fault). CLASH,
// TAKEN_AND_MISSING: the parcel is at odds with the others, under the CPU and number of `at`, of such numbers the
// least, by CPU and then by number. NO_MEMORY: the bytes are a parcel; it may still be at odds with the others. `at` is
// changed by CLASH and TAKEN_AND_MISSING, and its number alone by CUT, BAD_LENGTH and TIME_OVERFLOW. If it answers a
// positive number, the collector is as it was.
static inline int32_t tracering_collector_add(struct tracering_collector *c, const void *bytes, size_t len,
    struct tracering_fault_at *at)
{
    if (!(c && (bytes || !len) && at))
        return TRACERING_NULL;
    if (!tracering_enter(&c->in_call))
        return TRACERING_BUSY;
    return tracering_leave(&c->in_call, tracering_raw_collector_add(&c->held, tracering_bytes(bytes), len, at));
}

// Takes the next page of a ring, the one that `take` would give, and adds its parcel as `add` does, without writing and
// reading its bytes. DONE, KNOWN: it is added, or all of it was there already; `taken` is as `take` sets it. EMPTY,
// MOVING: no page is next. CLASH, TAKEN_AND_MISSING, NO_MEMORY: the page isn't added, and isn't lost: it stays with the
// reader, whose next call of `take` or of this one gives it, before any other page (`settle` answers UNREAD until
// then). `at` is changed by CLASH and TAKEN_AND_MISSING, as `add` does. If it answers a positive number, the collector
// and `taken` are as they were. A handler that calls `take` within it is answered BUSY.
static inline int32_t tracering_collector_take(struct tracering_collector *c, struct tracering_reader *r,
    struct tracering_taken *taken, struct tracering_fault_at *at)
{
    if (!(c && r && taken && at))
        return TRACERING_NULL;
    if (!tracering_enter_both(&c->in_call, &r->in_call))
        return TRACERING_BUSY;
    TRACERING_HIDE();
    int32_t code = tracering_raw_collector_take(&c->held, &r->held, taken, at);
    if (code <= TRACERING_DONE)
        tracering_tell_taken(r, taken);
    TRACERING_SHOW();
    return tracering_leave_both(&c->in_call, &r->in_call, code);
}

// The runs of a CPU's missing numbers, which rise, and of which none touches the next. As many as there is room for go
// to the front of `runs`, which has `room` of them, and `count` is how many there are in all. NO_ROOM: if these are
// more; the first ones are given all the same, and `count` is set. A CPU of which nothing was added misses nothing.
static inline int32_t tracering_collector_missing(struct tracering_collector *c, uint32_t cpu,
    struct tracering_run *runs, size_t room, size_t *count)
{
    struct tracering_run none;
    if (!(c && (runs || !room) && count))
        return TRACERING_NULL;
    if (!tracering_enter(&c->in_call))
        return TRACERING_BUSY;
    runs = runs ? runs : &none;
    return tracering_leave(&c->in_call, tracering_raw_collector_missing(&c->held, cpu, runs, room, count));
}

// Lists the records that the collector has now, by moment, then by CPU, then by number: `next` gives the first line
// after it, and `count` is how many there are. The listing is a copy, which parcels that are added later don't change;
// it stays until the next one is made. NO_MEMORY: the last listing, and where `next` is in it, are as they were.
static inline int32_t tracering_collector_list(struct tracering_collector *c, size_t *count)
{
    if (!(c && count))
        return TRACERING_NULL;
    if (!tracering_enter(&c->in_call))
        return TRACERING_BUSY;
    return tracering_leave(&c->in_call, tracering_raw_collector_list(&c->held, count));
}

// The next line of the listing: its bytes go to the front of `out`, and its numbers to `line`. END: all were given, or
// no listing was made; `line` is not changed. NO_ROOM: the line has `line->len` bytes, which is more than `room`; all
// numbers of `line` are set, nothing goes to `out`, and it stays the next one.
static inline int32_t tracering_collector_next(struct tracering_collector *c, void *out, size_t room,
    struct tracering_line *line)
{
    uint8_t none;
    if (!(c && (out || !room) && line))
        return TRACERING_NULL;
    if (!tracering_enter(&c->in_call))
        return TRACERING_BUSY;
    uint8_t *to = out ? (uint8_t *)out : &none;
    return tracering_leave(&c->in_call, tracering_raw_collector_next(&c->held, to, room, line));
}

// Whether two collectors have the same records under the same numbers, and miss the same numbers: DONE, or DIFFERENT.
// BUSY also if both are one.
static inline int32_t tracering_collector_same(struct tracering_collector *c, struct tracering_collector *other)
{
    if (!(c && other))
        return TRACERING_NULL;
    if (!tracering_enter_both(&c->in_call, &other->in_call))
        return TRACERING_BUSY;
    return tracering_leave_both(&c->in_call, &other->in_call, tracering_raw_collector_same(&c->held, &other->held));
}

// Frees the collector and its listing. The handle is all zeros afterwards.
static inline int32_t tracering_collector_free(struct tracering_collector *c)
{
    if (!c)
        return TRACERING_NULL;
    if (!tracering_enter(&c->in_call))
        return TRACERING_BUSY;
    return tracering_leave(&c->in_call, tracering_raw_collector_free(&c->held));
}

// ---- Pieces of a stream, packed: no handle is needed, and any thread may call these. They take and release memory: no
// handler may make them.

// Packs a parcel, as `take` gives it, as a piece of the stream that has this id. The id is the owner's choice, one for
// each incarnation of a machine's rings, which begin at record 0: two that have one id are at odds with each other.
// The piece goes to the front of `out`, for which TRACERING_PIECE(parcel_len) bytes are always enough, and `len` is how
// many bytes it has. TOO_SHORT, BAD_CPU, BAD_IMAGE_SIZE, BAD_COUNT, CUT, BAD_LENGTH, TIME_OVERFLOW, NUMBER_OVERFLOW,
// MISSED_TOO_MANY, MISSED_DIFFERS: the bytes are no parcel, as with `collector_add`. NO_ROOM: `len` is set to how many
// bytes are wanted. NO_MEMORY: the bytes are a parcel. Then nothing goes to `out`, and but for NO_ROOM `len` isn't
// changed.
static inline int32_t tracering_pack(uint64_t stream, const void *parcel, size_t parcel_len, void *out, size_t room,
    size_t *len)
{
    uint8_t none;
    if (!((parcel || !parcel_len) && (out || !room) && len))
        return TRACERING_NULL;
    uint8_t *to = out ? (uint8_t *)out : &none;
    return tracering_raw_pack(stream, tracering_bytes(parcel), parcel_len, to, room, len);
}

// Packs the mark that a CPU of a stream has `count` records: none has this number or a greater one. Write it once the
// ring is settled, so that a tail that is lost is seen. It goes to the front of `out`, for which TRACERING_MARK bytes
// are enough, and `len` is how many bytes it has. BAD_CPU. NO_ROOM: `len` is set to how many bytes are wanted.
// NO_MEMORY. Then nothing goes to `out`, and but for NO_ROOM `len` isn't changed.
static inline int32_t tracering_pack_end(uint64_t stream, uint32_t cpu, uint64_t count, void *out, size_t room,
    size_t *len)
{
    uint8_t none;
    if (!((out || !room) && len))
        return TRACERING_NULL;
    return tracering_raw_pack_end(stream, cpu, count, out ? (uint8_t *)out : &none, room, len);
}

// ---- The calls on fleets, of any thread that has the handle. Some take or release memory: no handler may make them.

// A new fleet, of which no stream is there. IN_USE, NO_MEMORY.
static inline int32_t tracering_fleet_new(struct tracering_fleet *f)
{
    if (!f)
        return TRACERING_NULL;
    if (!tracering_enter(&f->in_call))
        return TRACERING_BUSY;
    return tracering_leave(&f->in_call, tracering_raw_fleet_new(&f->held));
}

// Adds the piece at the front of these bytes to its stream, and sets `used` to how many of them it has: more pieces may
// follow it. A stream is there once something of it was added. The bytes are copied. KNOWN: all that the piece says was
// there already. FORGOTTEN: the parcel ends below the bound of its CPU, and nothing of it is kept. So pieces may come
// in any order and any number of times.
// NOT_PACKED, PIECE_CUT, BAD_VERSION, BAD_PIECE_LENGTH, BAD_SUM, BAD_KIND, what `pack` answers to bytes that are no
// parcel, LOOSE, BAD_MARK: there is no piece; the first of these that holds, in this order (a prefix of a
// piece is PIECE_CUT, and so is no byte at all).
// CLASH, TAKEN_AND_MISSING, BEYOND_END, OTHER_END: the piece is at odds with what is known of its stream, under the CPU
// and number of `at`. CLASH: the stream has another record of this number. TAKEN_AND_MISSING: the number has a record,
// and is missing. Of a parcel at odds it is the least number. BEYOND_END: of a parcel and of a mark of given up numbers
// their least number at or beyond the end of the CPU; of an end mark the greatest number that is known and at or beyond
// it; of a mark of forgotten numbers the end, which is below the bound. OTHER_END: the end that the CPU has.
// NO_MEMORY: there is a piece; it may still be at odds with its stream.
// `used` is also set if the piece is at odds; it isn't, if there is no piece; and if memory is refused, it may be. `at`
// is changed by CLASH, TAKEN_AND_MISSING, BEYOND_END and OTHER_END. If it answers a positive number, the fleet is as it
// was.
static inline int32_t tracering_fleet_add(struct tracering_fleet *f, const void *bytes, size_t len, size_t *used,
    struct tracering_stream_fault *at)
{
    if (!(f && (bytes || !len) && used && at))
        return TRACERING_NULL;
    if (!tracering_enter(&f->in_call))
        return TRACERING_BUSY;
    return tracering_leave(&f->in_call, tracering_raw_fleet_add(&f->held, tracering_bytes(bytes), len, used, at));
}

// Adds all that another fleet knows, which stays as it is: of each CPU of each stream the higher bound and the end, and
// what either has, misses or gave up. The order doesn't matter for what the fleet knows then. CLASH, TAKEN_AND_MISSING,
// BEYOND_END, OTHER_END: the two are at odds under the stream, CPU and number of `at`, as with `fleet_add` (BEYOND_END:
// a number of the one at or beyond the end that the other has; OTHER_END: the end that the other has). NO_MEMORY. Then
// the fleet is as it was; `at` is changed by the first four. BUSY also if both are one.
static inline int32_t tracering_fleet_merge(struct tracering_fleet *f, struct tracering_fleet *other,
    struct tracering_stream_fault *at)
{
    if (!(f && other && at))
        return TRACERING_NULL;
    if (!tracering_enter_both(&f->in_call, &other->in_call))
        return TRACERING_BUSY;
    int32_t code = tracering_raw_fleet_merge(&f->held, &other->held, at);
    return tracering_leave_both(&f->in_call, &other->in_call, code);
}

// Whether two fleets know the same of each stream: bounds, ends, and from the bounds on records, missing numbers and
// undelivered ones, and below them what was given up: DONE, or DIFFERENT. BUSY also if both are one.
static inline int32_t tracering_fleet_same(struct tracering_fleet *f, struct tracering_fleet *other)
{
    if (!(f && other))
        return TRACERING_NULL;
    if (!tracering_enter_both(&f->in_call, &other->in_call))
        return TRACERING_BUSY;
    return tracering_leave_both(&f->in_call, &other->in_call, tracering_raw_fleet_same(&f->held, &other->held));
}

// The least id from `from` on of a stream that is there: so each is given by rising ids, the next one from `stream` + 1
// on. END: there is none; `stream` is not changed.
static inline int32_t tracering_fleet_next_stream(struct tracering_fleet *f, uint64_t from, uint64_t *stream)
{
    if (!(f && stream))
        return TRACERING_NULL;
    if (!tracering_enter(&f->in_call))
        return TRACERING_BUSY;
    return tracering_leave(&f->in_call, tracering_raw_fleet_next_stream(&f->held, from, stream));
}

// The least CPU from `from` on of which the stream knows something: a record, a missing number, a bound, an end, or a
// number that was given up. END: there is none; `cpu` is not changed.
static inline int32_t tracering_fleet_next_cpu(struct tracering_fleet *f, uint64_t stream, uint32_t from, uint32_t *cpu)
{
    if (!(f && cpu))
        return TRACERING_NULL;
    if (!tracering_enter(&f->in_call))
        return TRACERING_BUSY;
    return tracering_leave(&f->in_call, tracering_raw_fleet_next_cpu(&f->held, stream, from, cpu));
}

// How far a CPU of a stream is known. Of one of which nothing is known, all is 0. It takes time by how many gaps and
// pages are kept of the CPU, as the runs below do: call it now and then, not for each piece.
static inline int32_t tracering_fleet_state(struct tracering_fleet *f, uint64_t stream, uint32_t cpu,
    struct tracering_cpu_state *state)
{
    if (!(f && state))
        return TRACERING_NULL;
    if (!tracering_enter(&f->in_call))
        return TRACERING_BUSY;
    return tracering_leave(&f->in_call, tracering_raw_fleet_state(&f->held, stream, cpu, state));
}

// The runs of a CPU's numbers of one kind, from its bound on; undelivered numbers also below it. They rise, and none
// touches the next. As many as there is room for go to the front of `runs`, which has `room` of them, and `count` is
// how many there are in all. NO_ROOM: if these are more; the first ones are given all the same, and `count` is set.
// fleet_missing: the ring lost their records. fleet_unknown: they neither have a record, nor are missing, nor were
// given up, and a greater number is known, or the end is above them: what is still to come. fleet_undelivered: they
// were given up, and from the bound on no record of them came since.
static inline int32_t tracering_fleet_missing(struct tracering_fleet *f, uint64_t stream, uint32_t cpu,
    struct tracering_run *runs, size_t room, size_t *count)
{
    struct tracering_run none;
    if (!(f && (runs || !room) && count))
        return TRACERING_NULL;
    if (!tracering_enter(&f->in_call))
        return TRACERING_BUSY;
    runs = runs ? runs : &none;
    return tracering_leave(&f->in_call, tracering_raw_fleet_missing(&f->held, stream, cpu, runs, room, count));
}

static inline int32_t tracering_fleet_unknown(struct tracering_fleet *f, uint64_t stream, uint32_t cpu,
    struct tracering_run *runs, size_t room, size_t *count)
{
    struct tracering_run none;
    if (!(f && (runs || !room) && count))
        return TRACERING_NULL;
    if (!tracering_enter(&f->in_call))
        return TRACERING_BUSY;
    runs = runs ? runs : &none;
    return tracering_leave(&f->in_call, tracering_raw_fleet_unknown(&f->held, stream, cpu, runs, room, count));
}

static inline int32_t tracering_fleet_undelivered(struct tracering_fleet *f, uint64_t stream, uint32_t cpu,
    struct tracering_run *runs, size_t room, size_t *count)
{
    struct tracering_run none;
    if (!(f && (runs || !room) && count))
        return TRACERING_NULL;
    if (!tracering_enter(&f->in_call))
        return TRACERING_BUSY;
    runs = runs ? runs : &none;
    return tracering_leave(&f->in_call, tracering_raw_fleet_undelivered(&f->held, stream, cpu, runs, room, count));
}

// Raises the bound of a CPU of a stream: what is below it is kept no longer, and a parcel that ends below it is
// answered FORGOTTEN from then on. It takes time in proportion to all that the stream keeps: raise it by many records
// at a time. KNOWN: the bound is as high already. BAD_CPU.
// fleet_forget: the bound is at most the CPU's watermark. NOT_FINAL: it is above, and `at` has the watermark.
// fleet_give_up: of a stream that will bring nothing more: what is unknown below the bound is given up, and stays
// reported as undelivered. BEYOND_END: the bound is above the end of the CPU, which `at` has.
// NO_MEMORY. If it answers a positive number, the fleet is as it was; `at` is changed by NOT_FINAL and BEYOND_END.
static inline int32_t tracering_fleet_forget(struct tracering_fleet *f, uint64_t stream, uint32_t cpu, uint64_t bound,
    struct tracering_stream_fault *at)
{
    if (!(f && at))
        return TRACERING_NULL;
    if (!tracering_enter(&f->in_call))
        return TRACERING_BUSY;
    return tracering_leave(&f->in_call, tracering_raw_fleet_forget(&f->held, stream, cpu, bound, at));
}

static inline int32_t tracering_fleet_give_up(struct tracering_fleet *f, uint64_t stream, uint32_t cpu, uint64_t bound,
    struct tracering_stream_fault *at)
{
    if (!(f && at))
        return TRACERING_NULL;
    if (!tracering_enter(&f->in_call))
        return TRACERING_BUSY;
    return tracering_leave(&f->in_call, tracering_raw_fleet_give_up(&f->held, stream, cpu, bound, at));
}

// Lists the records that the streams have from their bounds on, by moment, then by stream, CPU and number: `fleet_next`
// gives the first line after it, and `count` is how many there are. The listing is a copy, which nothing that is added
// or forgotten later changes; it stays until the next one is made. NO_MEMORY: the last listing, and where `fleet_next`
// is in it, are as they were.
static inline int32_t tracering_fleet_list(struct tracering_fleet *f, size_t *count)
{
    if (!(f && count))
        return TRACERING_NULL;
    if (!tracering_enter(&f->in_call))
        return TRACERING_BUSY;
    return tracering_leave(&f->in_call, tracering_raw_fleet_list(&f->held, count));
}

// The next line of the listing: its bytes go to the front of `out`, and its numbers to `line`. END: all were given, or
// no listing was made; `line` is not changed. NO_ROOM: the line has `line->len` bytes, which is more than `room`; all
// numbers of `line` are set, nothing goes to `out`, and it stays the next one.
static inline int32_t tracering_fleet_next(struct tracering_fleet *f, void *out, size_t room,
    struct tracering_fleet_line *line)
{
    uint8_t none;
    if (!(f && (out || !room) && line))
        return TRACERING_NULL;
    if (!tracering_enter(&f->in_call))
        return TRACERING_BUSY;
    uint8_t *to = out ? (uint8_t *)out : &none;
    return tracering_leave(&f->in_call, tracering_raw_fleet_next(&f->held, to, room, line));
}

// The moment before which no line comes any more, if the moments of each CPU's records never fall from one number to
// the next: of each CPU that isn't complete that of the last record below its watermark (0 if there is none from the
// bound on), and of these the least. A CPU is complete if its end is known and is its watermark. A stream of which
// nothing came yet isn't there, and holds nothing up. END: all that is there is complete, so no line comes any more at
// all; `moment` is not changed. It takes time by all that is kept: call it now and then.
static inline int32_t tracering_fleet_frontier(struct tracering_fleet *f, uint64_t *moment)
{
    if (!(f && moment))
        return TRACERING_NULL;
    if (!tracering_enter(&f->in_call))
        return TRACERING_BUSY;
    return tracering_leave(&f->in_call, tracering_raw_fleet_frontier(&f->held, moment));
}

// fleet_list_before: lists, as `fleet_list` does, the records of each CPU below its cut at a moment. The cut is the
// greatest number from the bound up to the watermark such that all records from the bound up to it are before the
// moment. NO_MEMORY: the last listing is as it was.
// fleet_forget_before: raises the bound of each CPU to its cut at this moment, in one pass. NO_MEMORY: each stream has
// forgotten what is before the moment, or is as it was; make the call once more.
// So a listing goes out while it grows: at the frontier list what is before, write it, and forget it. At END list all
// that is left. Then each line was written once, and all in their order.
static inline int32_t tracering_fleet_list_before(struct tracering_fleet *f, uint64_t moment, size_t *count)
{
    if (!(f && count))
        return TRACERING_NULL;
    if (!tracering_enter(&f->in_call))
        return TRACERING_BUSY;
    return tracering_leave(&f->in_call, tracering_raw_fleet_list_before(&f->held, moment, count));
}

static inline int32_t tracering_fleet_forget_before(struct tracering_fleet *f, uint64_t moment)
{
    if (!f)
        return TRACERING_NULL;
    if (!tracering_enter(&f->in_call))
        return TRACERING_BUSY;
    return tracering_leave(&f->in_call, tracering_raw_fleet_forget_before(&f->held, moment));
}

// What is known of a stream as packed pieces, one after the other, which go to the front of `out`: a new fleet to which
// they are added knows the same of it. `len` is how many bytes they have; 0, if the stream isn't there. NO_ROOM: `len`
// is set to how many bytes are wanted. NO_MEMORY: `len` isn't changed. Then nothing goes to `out`.
static inline int32_t tracering_fleet_pack(struct tracering_fleet *f, uint64_t stream, void *out, size_t room,
    size_t *len)
{
    uint8_t none;
    if (!(f && (out || !room) && len))
        return TRACERING_NULL;
    if (!tracering_enter(&f->in_call))
        return TRACERING_BUSY;
    uint8_t *to = out ? (uint8_t *)out : &none;
    return tracering_leave(&f->in_call, tracering_raw_fleet_pack(&f->held, stream, to, room, len));
}

// Frees the fleet and its listing. The handle is all zeros afterwards.
static inline int32_t tracering_fleet_free(struct tracering_fleet *f)
{
    if (!f)
        return TRACERING_NULL;
    if (!tracering_enter(&f->in_call))
        return TRACERING_BUSY;
    return tracering_leave(&f->in_call, tracering_raw_fleet_free(&f->held));
}

#ifdef __cplusplus
}
#endif
#endif
