// A flight recorder: each thread's newest events, kept in memory, and dumped in one call or as the program crashes.
//
//     flight_start(NULL);
//     flight_dump_on_crash("crash.flight");
//     TRACE("request %u took %lu ns", id, ns);
//
// or kept in a file, so that they outlive the process, whatever ends it:
//
//     struct flight_config config = {.file = "program.flight"};
//     flight_start(&config);
//
// TRACE has the format of printf, which the compiler checks. What is recorded is which TRACE it is, the time and the
// arguments as they are: nothing is formatted before `tracering-flight show FILE` prints the events by time, with each
// loss counted.
//
// Events may have named fields in place of a format, and a level:
//
//     TRACE_INFO("request done", "id", id, "ns", ns);        shown as: INFO request done id=17 ns=250
//
// That is a literal text, and up to eight pairs of a name, which is literal, too, and a value. A text as a value is
// copied to its end, or 255 bytes of it. The levels are those of TRACE_ERROR, TRACE_WARNING, TRACE_INFO and
// TRACE_DEBUG; TRACE_FIELDS has none. A program that has macros of these names defines FLIGHT_NO_TRACE before it
// includes this header: FLIGHT_TRACE, FLIGHT_TRACE_FIELDS, FLIGHT_TRACE_ERROR and so on are the same, and always there.
//
// The recorder is over tracering.h, and needs Linux, and C11 or C++17. A program links out/libtracering.a
// (`./tracering-lib`) and -lpthread; with an installed library, what `pkg-config --libs tracering` prints.
//
// Threads. A thread has rings of its own from its first TRACE on, and hands them back when it ends. The rings are made
// by flight_start: if all are in use, the events of a further thread are counted and not recorded, until a thread ends.
// If one ended without handing its rings back, by a system call for example, others find them: the kernel is asked
// whether it lives. With the events that found no ring are counted those of sites beyond 65,536: a site is a TRACE that
// is reached.
// A thread whose cancel type is asynchronous must make no call of these, and no TRACE.
//
// Rings per CPU. With `per_cpu` there are rings for each CPU that the system is configured for, `levels` of them, and
// for as many spare places, eight at most, however many threads record: so memory doesn't grow with threads, and the
// newest events of all that ran on a CPU are kept together. An event goes to the rings of the CPU that its thread is
// on. If another thread was interrupted amid its own event there, it goes to spare ones, or to those of another CPU;
// only if all are in use it is counted as one without a ring. Each event has its thread's number, four bytes more, and
// takes some 120 instructions more. `threads` is then how many threads are named at once: of a further one the number
// alone is shown, until a thread ends. `threads` and those places, times levels, are 65,536 at most.
//
// Signals. A handler may call TRACE, flight_dump and flight_name, which take no memory and no lock, and no other call
// of these. What interrupts a TRACE writes to the thread's next ring (`levels`); an event for which no ring is left is
// counted. A handler that doesn't return while it holds an interrupted TRACE leaves that ring in use.
// The recorder sends no signal, and has no handler but those of flight_dump_on_crash. A dump copies the rings while
// their threads go on: it has each event whose TRACE had returned, whatever its thread is doing or blocks, and waits
// for none. (On machines other than x86-64 the kernel has to have membarrier(2): tracering_region.h, "Order". If it
// refuses that, a dump answers EIO.)
//
// Files. With `file`, all that a dump would have is in that file from flight_start on. So after SIGKILL, a crash, or
// whatever else ends the process, `tracering-flight show FILE` shows each event whose TRACE had returned, but for those
// that it counts: overwritten, or refused. `show` may also read it while the program runs. So no crash
// needs to be handled, but the file doesn't say which signal ended the process. If that is wanted, flight_dump_on_crash
// may be called too, with another path: at the recorder's own the dump is refused (EEXIST), and nothing reports that.
// `tracering_write` takes no longer there (docs/SPEED.md), but where the kernel writes the file back to a disk its
// first store to a page may wait for that: a file in /dev/shm isn't written anywhere. A crash of the machine leaves
// what was written back. flight_stop gives the file checksums, by which `show` finds what was changed since; that of a
// process that was killed has none. The file has room for the sites of some 10,000 TRACE; the arguments of further ones
// are shown as bytes. Of a forked child nothing is in its parent's file. No process may make the file shorter: a dump
// answers EIO then, but a TRACE whose page is gone ends the process by SIGBUS, and so does flight_stop.
//
// Arguments. Integers, enumerations, floating numbers, pointers and texts, 8 at most. A `char *` is copied if its
// conversion is %s: to its end, its precision or 255 bytes, whichever comes first. For %p its address is recorded, as
// of any other pointer. A long double is recorded as a double. A bit-field has to be cast. Conversions other than
// d i u o x X c s p f F e E g G a A and %% aren't formatted by `show`, nor are %ls, %lc and those that state which
// argument they take (%2$d): a TRACE that has one isn't compiled. (In C each %% beyond the first two of a format may
// hide one from the compiler, which `show` then gives as it is written.) Arguments are evaluated once, and not at all
// if the event is switched off. In C, TRACE can't be in an inline function that isn't static.
//
// Shared objects. An object with TRACE may be unloaded (dlclose) at any time when none of its code runs: its events
// stay, and their texts, of which the recorder has copies (16 megabytes of them at most). All objects of a process
// share one copy of the recorder: link the archive into the program alone (with -rdynamic, if it loads objects by
// dlopen), or all of them with the shared library.
//
// fork. The child has no recorder: its TRACE does nothing, and flight_dump answers ENODEV, until it calls
// flight_start_in_child, for a recorder such as its parent's, or flight_start. (So it is in a child that _Fork or clone
// made, from Linux 4.14 on; but that can't call flight_start_in_child.) In each path that is given to a call
// here %p stands for the process's number, so that workers that are forked have files of their own.
//
// Each function answers 0 or an error number; EINVAL if a pointer is null (flight_start's may be).
#ifndef TRACERING_FLIGHT_H
#define TRACERING_FLIGHT_H

#include <stdbool.h>
#include <stddef.h>
#include <stdint.h>
#include <string.h>

#ifdef __cplusplus
#include <type_traits>
extern "C" {
#endif

// Which clock the moments of events are read from.
enum flight_clock {
    FLIGHT_MONOTONIC, // CLOCK_MONOTONIC, in nanoseconds
    FLIGHT_TSC,       // the processor's counter (x86: TSC, arm64: its virtual counter). Nothing checks that it runs
                      // evenly, and alike on all processors
    FLIGHT_CALLER     // the caller's
};

// For `keep`, which means nothing any more.
#define FLIGHT_KEEP_NONE UINT32_MAX

// What a recorder is made with. A number that is 0 stands for its default.
struct flight_config {
    uint32_t threads;        // how many threads record at once (32); threads times levels are 65,536 at most
    uint32_t levels;         // how many rings each thread has: 1 to 4 (2)
    uint32_t pages;          // how many pages a thread's first ring has: 2 to 1,024 (8); its others have 2
    uint32_t size;           // bytes of data on a page: 32 to 65,520, a multiple of 4 (4,080). An event that has no
                             // room on an empty page is counted as refused (too long)
                             // (So a ring has 67 megabytes of data at most: flight_start answers EINVAL to more)
    uint32_t keep;           // nothing: a dump takes no page, so each has all that the rings have
    enum flight_clock clock; // (FLIGHT_MONOTONIC)
    uint64_t (*now)(void);   // FLIGHT_CALLER: the clock, below 2^59; it may be called in handlers. Null for others
    int signal;              // nothing: no thread is sent a signal
    uint32_t wait_ms;        // nothing: no thread is waited for
    const char *file;        // a file that has all events from the start on, after a kill, too: "Files" (none)
    bool per_cpu;            // whether rings are those of CPUs, and not those of threads: "Rings per CPU" (false)
};

// Starts the recorder: all its memory is taken here. Null stands for all defaults.
// If there is a file at the path of `file`, it is named PATH~ first, and what had that name is gone: so what one run
// leaves is there until the second start after it. Nothing looks whether a process still records in it: processes that
// run at once, a forked child and its parent too, need paths of their own. The new file is readable by its owner alone,
// and its blocks are allocated. It may not be called in handlers.
// EALREADY: it runs already. EINVAL: a number is out of its range (a ring has 67 megabytes at most: 1,024 pages of
// 65,520 bytes), this machine has no such clock, or `now` is null with FLIGHT_CALLER or given without it. EEXIST: what
// is at the path of `file` is no regular file. EFBIG: the file is longer than RLIMIT_FSIZE allows (SIGXFSZ isn't sent).
// ENOMEM. And what open and others answer. If there is no start, there is no new file, but the former one may be PATH~.
// (LeakSanitizer doesn't look into all of this memory: unless flight_stop is called, it reports the rings as lost.)
int flight_start(const struct flight_config *config);

// In a forked child: starts a recorder with all that its parent's was started with. In the path of `file` there has to
// be %p, since the file would be the parent's. If the parent had called flight_dump_on_crash, the child's crashes are
// dumped as well. It may not be called in handlers.
// ENODEV: this is no such child, none ran in its parent, or it was stopped. EALREADY: it runs already. EEXIST: the path
// of `file` has no %p. And what flight_start answers.
int flight_start_in_child(void);

// Stops it and releases its memory. No thread or handler may be in a TRACE when it is called, or begin one before it
// returns. A thread that ends is waited for, up to five seconds. The file says that it was
// stopped, and stays; of each ring the page that is written is closed, which in a full ring overwrites the oldest page.
// The signals of a crash do again what they did before: after a new start flight_dump_on_crash is to be called again.
// Switches stay, and so do the names of threads. It may not be called in handlers.
// ENODEV: none runs. EBUSY: a dump is made. ETIMEDOUT: such a thread wasn't done by then, and the recorder goes on.
int flight_stop(void);

// Dumps all events to a new file at this path, readable by its owner alone. May be called in handlers.
// The file is written as PATH~, a new file as well, which gets the name PATH when it is whole, in place of what was
// there (a symbolic link is replaced, and not followed). So the folder must let files be made. If the dump fails, what
// was there stays; if there was none, or the process is killed meanwhile, PATH~ stays, which isn't whole. A device, a
// pipe or another file at PATH that holds no bytes is written as it is. Processes that dump at once need paths of their
// own.
// All signals of the thread are blocked meanwhile. A request to cancel the thread isn't acted on.
// ENODEV: no recorder runs. ENAMETOOLONG: PATH~ has no room in PATH_MAX. EBUSY: another dump is made. EEXIST: the
// recorder's file is there, or at PATH~. EIO: another process made the recorder's file shorter, or zeroed it. EFBIG:
// the dump is longer than RLIMIT_FSIZE allows. EPIPE: who read the pipe closed it. ENXIO: nobody reads the pipe.
// ETIMEDOUT: nobody has read of a full one for five seconds. And what else open, write, close and rename answer. None
// of these ends the process, and none loses an event: the next dump has the same ones, and the newer ones, as far as
// the rings have them.
int flight_dump(const char *path);

// From now on SIGSEGV, SIGBUS, SIGILL, SIGFPE, SIGABRT and SIGTERM dump to this path, which is copied, and then do what
// they did before: by default, the process dies by the signal. Of threads that are hit at once one dumps.
// A thread that is to dump when its own stack is used up needs an alternate stack, of 16,384 bytes at least (4,096 are
// too few), and of more if sysconf(_SC_MINSIGSTKSZ) is above 4,096. The calling thread gets one of 65,536 bytes, unless
// it has one of 16,384 or more. That is for this thread alone, and isn't released, not even when it ends.
// A handler that is installed over these later stays at flight_stop, and is to call the one that it found.
// If it is called again, only the path changes (and the calling thread gets a stack); a thread that is dumping goes on
// with the former path. A copy of each path stays in memory. It may not be called in handlers.
// In a crash nothing says why a dump fails: so the path must not be that of the recorder's file, nor that file's with a
// ~ cut off, and its folder must let files be made (flight_dump).
// ENODEV, ENAMETOOLONG, ENOMEM. (A %p in the path stands for the process that dumps.)
int flight_dump_on_crash(const char *path);

// This thread's name in dumps, from its next event on; what is beyond 63 bytes is left out. Until then it is the name
// that the kernel has of the thread at its first TRACE. May be called in handlers.
int flight_name(const char *name);

// Switches on or off the events whose text "FILE:LINE FORMAT" the whole pattern matches (so "*cache.c:*" for a file),
// FILE as __FILE__ has it; those also that are first reached later. Of an event with fields FORMAT is its text and
// their names, and before it is the level, if it has one: ERROR, WARN, INFO, DEBUG or TRACE (so "*:* DEBUG *" for a
// level). All are on at first, and the last switch counts whose pattern matches. In a pattern * stands for any bytes,
// ? for one, [a-z] and [!a-z] for one of a set or not of it, and \ for the byte after it. It may be called before
// flight_start. It may not be called in handlers. ENOMEM.
int flight_switch(const char *pattern, bool on);

// ---- What TRACE is made of. The structs and calls from here to TRACE are for macros, of other languages too.

enum {
    FLIGHT_ARGUMENTS = 8, // the most arguments of an event
    FLIGHT_TEXT = 255     // the most bytes of a text
};

// The kinds of arguments: how many bytes, and what they are.
enum {
    FLIGHT_SIGNED = 0x00,
    FLIGHT_UNSIGNED = 0x10,
    FLIGHT_FLOATING = 0x20,
    FLIGHT_ADDRESS = 0x38,
    FLIGHT_CHARACTERS = 0x40
};

// What texts of formats are; of fields: a text, and then a zero before each name.
enum { FLIGHT_PRINTF = 0, FLIGHT_BRACES = 1, FLIGHT_FIELDS = 2 };

// Levels, which are added to that. (0: none. The last one, below that of debugging, is of other languages' events.)
enum { FLIGHT_ERROR = 0x10, FLIGHT_WARNING = 0x20, FLIGHT_INFO = 0x30, FLIGHT_DEBUG = 0x40, FLIGHT_FINEST = 0x50 };

// A place that records, one static object each. The recorder changes what comes after `style`, and the kind of a
// `char *` whose conversion isn't %s, in flight_register alone.
struct flight_site {
    const char *format, *file;
    uint32_t format_len, file_len;
    uint32_t line;
    uint8_t count;                       // how many arguments
    uint8_t style;                       // FLIGHT_PRINTF or the like, with its level
    uint8_t kinds[FLIGHT_ARGUMENTS + 2]; // of each argument, and zeros
    uint32_t id;                         // from 1 on, once it is known to the recorder
    uint32_t state;                      // the turn in which it asked whether it is on, and 1 if it is; 0 at first
    uint16_t limits[FLIGHT_ARGUMENTS];   // how many bytes of each text are recorded, or one of those below
};

enum { FLIGHT_NEW = 0 };
enum { FLIGHT_NO_LIMIT = 0xffff, FLIGHT_LIMIT_BEFORE = 0xfffe, FLIGHT_NO_TEXT = 0xfffd };

// An even number, another one whenever a recorder starts or stops, or events are switched.
extern uint32_t flight_turn;

// Makes a site known to the recorder, and answers whether it is on in this turn; it is not if no recorder runs.
bool flight_register(struct flight_site *site);

// Records an event: `len` bytes, 2,060 at most, of which the first four are the recorder's and the others are the
// arguments.
void flight_record(const struct flight_site *site, uint8_t *event, size_t len);

// ThreadSanitizer takes for races what the library does, which isn't compiled for it: it passes over an event's
// writing. (What a text has is read before, and watched.)
#ifdef __SANITIZE_THREAD__
#define FLIGHT_TSAN 1
#elif defined(__has_feature)
#if __has_feature(thread_sanitizer)
#define FLIGHT_TSAN 1
#endif
#endif
#ifdef FLIGHT_TSAN
void AnnotateIgnoreReadsBegin(const char *, int);
void AnnotateIgnoreReadsEnd(const char *, int);
void AnnotateIgnoreWritesBegin(const char *, int);
void AnnotateIgnoreWritesEnd(const char *, int);

static inline void flight_record_unwatched(const struct flight_site *site, uint8_t *event, size_t len)
{
    AnnotateIgnoreReadsBegin(__FILE__, __LINE__);
    AnnotateIgnoreWritesBegin(__FILE__, __LINE__);
    flight_record(site, event, len);
    AnnotateIgnoreWritesEnd(__FILE__, __LINE__);
    AnnotateIgnoreReadsEnd(__FILE__, __LINE__);
}
#define FLIGHT_RECORD flight_record_unwatched
#else
#define FLIGHT_RECORD flight_record
#endif

// Puts the text of this argument there, as far as its site's limit says, and answers where it ends.
uint8_t *flight_put_text(uint8_t *at, const struct flight_site *site, unsigned index, const char *text);

// The format's check by the compiler; it is never called.
static inline __attribute__((format(printf, 1, 2), unused)) void flight_check(const char *format, ...)
{
    (void)format;
}

// What a conversion may have between its percent sign and its letter, the modifiers of sizes, and the letters.
#define FLIGHT_FLAGS "-+ #0'123456789.*"
#define FLIGHT_SIZES "hlqjztL"
#define FLIGHT_INTEGERS "diouxX"
#define FLIGHT_FLOATS "fFeEgGaA"
#define FLIGHT_OTHERS "csp"
#define FLIGHT_REFUSED "TRACE: a conversion of this format is not one that is formatted"

// Whether an event of this site is recorded.
static inline bool flight_is_on(struct flight_site *site)
{
    uint32_t turn = __atomic_load_n(&flight_turn, __ATOMIC_RELAXED);
    uint32_t differs = __atomic_load_n(&site->state, __ATOMIC_ACQUIRE) ^ turn;
    return differs == 1 || (differs && flight_register(site));
}

#ifdef __cplusplus
}

// The kind of an argument of this type.
template <typename Given> constexpr uint8_t flight_kind_of()
{
    using Type = std::decay_t<Given>;
    using Pointed = std::remove_cv_t<std::remove_pointer_t<Type>>;
    constexpr bool is_text = std::is_same<Pointed, char>::value || std::is_same<Pointed, unsigned char>::value
        || std::is_same<Pointed, signed char>::value;
    if constexpr (std::is_pointer<Type>::value)
        return is_text ? FLIGHT_CHARACTERS : FLIGHT_ADDRESS;
    else if constexpr (std::is_null_pointer<Type>::value)
        return FLIGHT_ADDRESS;
    else if constexpr (std::is_floating_point<Type>::value)
        return sizeof(Type) == 4 ? FLIGHT_FLOATING | 4 : FLIGHT_FLOATING | 8;
    else if constexpr (std::is_enum<Type>::value)
        return flight_kind_of<std::underlying_type_t<Type>>();
    else {
        static_assert(std::is_integral<Type>::value && sizeof(Type) <= 8, "TRACE takes no argument of this type");
        return uint8_t(std::is_signed<Type>::value ? FLIGHT_SIGNED : FLIGHT_UNSIGNED) | uint8_t(sizeof(Type));
    }
}

template <typename Kept> inline uint8_t *flight_put_bytes(uint8_t *at, Kept kept)
{
    memcpy(at, &kept, sizeof kept);
    return at + sizeof kept;
}

// Puts an argument there, and answers where it ends.
template <typename Given>
inline uint8_t *flight_put(uint8_t *at, const struct flight_site *site, unsigned index, const Given &given)
{
    constexpr uint8_t kind = flight_kind_of<Given>();
    (void)site;
    (void)index;
    if constexpr (kind == FLIGHT_CHARACTERS)
        return flight_put_text(at, site, index, reinterpret_cast<const char *>(&*given));
    else if constexpr (kind == FLIGHT_ADDRESS)
        return flight_put_bytes<const volatile void *>(at, given);
    else if constexpr (std::is_same<std::decay_t<Given>, long double>::value)
        return flight_put_bytes(at, static_cast<double>(given));
    else
        return flight_put_bytes<std::decay_t<Given>>(at, given);
}

constexpr bool flight_is_among(const char *letters, char letter)
{
    for (; *letters; letters++)
        if (*letters == letter)
            return true;
    return false;
}

constexpr const char *flight_skip(const char *at, const char *letters)
{
    while (flight_is_among(letters, *at))
        at++;
    return at;
}

// Whether a conversion is formatted: its letter, the modifiers before that, and the percent sign.
constexpr bool flight_is_known(const char *letter, const char *sizes, const char *sign)
{
    if (flight_is_among(FLIGHT_INTEGERS, *letter))
        return letter == sizes || letter[-1] != 'L';
    if (flight_is_among(FLIGHT_FLOATS, *letter))
        return letter == sizes || *sizes != 'h';
    return *letter == '%' ? letter == sign + 1 : flight_is_among(FLIGHT_OTHERS, *letter) && letter == sizes;
}

// Whether each conversion of a format is.
constexpr bool flight_are_known(const char *at)
{
    while (*at) {
        const char *sign = at++;
        if (*sign != '%')
            continue;
        const char *sizes = flight_skip(at, FLIGHT_FLAGS), *letter = flight_skip(sizes, FLIGHT_SIZES);
        if (!flight_is_known(letter, sizes, sign))
            return false;
        at = letter + 1;
    }
    return true;
}

#define FLIGHT_KNOWN(...) static_assert(flight_are_known(FLIGHT_FORMAT(__VA_ARGS__)), FLIGHT_REFUSED);
#define FLIGHT_KIND(given) flight_kind_of<decltype(given)>()
#define FLIGHT_PUT(index, given) flight_put(flight_at_, &flight_site_, index, given)

#else

// The functions that put an argument of one type there, and answer where it ends.
#define FLIGHT_PUTS(name, type, kept_type) \
    static inline uint8_t *flight_put_##name(uint8_t *at, const struct flight_site *site, unsigned index, type given) \
    { \
        kept_type kept = (kept_type)given; \
        (void)site; \
        (void)index; \
        memcpy(at, &kept, sizeof kept); \
        return at + sizeof kept; \
    }
FLIGHT_PUTS(bool, bool, bool)
FLIGHT_PUTS(char, char, char)
FLIGHT_PUTS(schar, signed char, signed char)
FLIGHT_PUTS(uchar, unsigned char, unsigned char)
FLIGHT_PUTS(short, short, short)
FLIGHT_PUTS(ushort, unsigned short, unsigned short)
FLIGHT_PUTS(int, int, int)
FLIGHT_PUTS(uint, unsigned, unsigned)
FLIGHT_PUTS(long, long, long)
FLIGHT_PUTS(ulong, unsigned long, unsigned long)
FLIGHT_PUTS(llong, long long, long long)
FLIGHT_PUTS(ullong, unsigned long long, unsigned long long)
FLIGHT_PUTS(float, float, float)
FLIGHT_PUTS(double, double, double)
FLIGHT_PUTS(ldouble, long double, double)
FLIGHT_PUTS(address, const volatile void *, const volatile void *)

// Texts of bytes that C takes for numbers.
static inline uint8_t *flight_put_stext(uint8_t *at, const struct flight_site *site, unsigned index,
    const signed char *text)
{
    return flight_put_text(at, site, index, (const char *)text);
}

static inline uint8_t *flight_put_utext(uint8_t *at, const struct flight_site *site, unsigned index,
    const unsigned char *text)
{
    return flight_put_text(at, site, index, (const char *)text);
}

#define FLIGHT_KIND(given) _Generic((given), \
    bool: FLIGHT_UNSIGNED | 1, \
    char: (char)-1 < (char)0 ? FLIGHT_SIGNED | 1 : FLIGHT_UNSIGNED | 1, \
    signed char: FLIGHT_SIGNED | 1, unsigned char: FLIGHT_UNSIGNED | 1, \
    short: FLIGHT_SIGNED | 2, unsigned short: FLIGHT_UNSIGNED | 2, \
    int: FLIGHT_SIGNED | 4, unsigned: FLIGHT_UNSIGNED | 4, \
    long: FLIGHT_SIGNED | 8, unsigned long: FLIGHT_UNSIGNED | 8, \
    long long: FLIGHT_SIGNED | 8, unsigned long long: FLIGHT_UNSIGNED | 8, \
    float: FLIGHT_FLOATING | 4, double: FLIGHT_FLOATING | 8, long double: FLIGHT_FLOATING | 8, \
    char *: FLIGHT_CHARACTERS, const char *: FLIGHT_CHARACTERS, \
    signed char *: FLIGHT_CHARACTERS, const signed char *: FLIGHT_CHARACTERS, \
    unsigned char *: FLIGHT_CHARACTERS, const unsigned char *: FLIGHT_CHARACTERS, \
    default: FLIGHT_ADDRESS)

#define FLIGHT_PUT(index, given) _Generic((given), \
    bool: flight_put_bool, char: flight_put_char, \
    signed char: flight_put_schar, unsigned char: flight_put_uchar, \
    short: flight_put_short, unsigned short: flight_put_ushort, \
    int: flight_put_int, unsigned: flight_put_uint, \
    long: flight_put_long, unsigned long: flight_put_ulong, \
    long long: flight_put_llong, unsigned long long: flight_put_ullong, \
    float: flight_put_float, double: flight_put_double, long double: flight_put_ldouble, \
    char *: flight_put_text, const char *: flight_put_text, \
    signed char *: flight_put_stext, const signed char *: flight_put_stext, \
    unsigned char *: flight_put_utext, const unsigned char *: flight_put_utext, \
    default: flight_put_address)(flight_at_, &flight_site_, index, given)

// Whether each conversion of a format is formatted. It is found by steps, each of which begins where the one before it
// ended, and goes over one percent sign. Their text has one more at its end, and a zero: those steps that are left end
// there. Of what compilers know of a literal text, GCC takes the lengths of spans for constants, and clang its letters.
#ifdef __clang__
#define FLIGHT_AMONG(text, at, letters) (__builtin_memchr(letters, (text)[at], sizeof(letters) - 1) != 0)
#define FLIGHT_SPAN_1(text, at, letters, more) (FLIGHT_AMONG(text, at, letters) ? 1 + more : 0)
#define FLIGHT_SPAN_4(text, at, letters, more) \
    FLIGHT_SPAN_1(text, at, letters, FLIGHT_SPAN_1(text, at + 1, letters, \
        FLIGHT_SPAN_1(text, at + 2, letters, FLIGHT_SPAN_1(text, at + 3, letters, more))))
#define FLIGHT_SPAN(text, at, letters) \
    FLIGHT_SPAN_4(text, at, letters, FLIGHT_SPAN_4(text, at + 4, letters, FLIGHT_SPAN_4(text, at + 8, letters, 0)))
#define FLIGHT_FIND_SIGN(text, at) (__builtin_strlen(text) - __builtin_strlen(__builtin_strchr(&(text)[at], '%')))
#else
#define FLIGHT_AMONG(text, at, letters) (__builtin_strspn(&(text)[at], letters) > 0)
#define FLIGHT_SPAN(text, at, letters) (int)__builtin_strspn(&(text)[at], letters)
#define FLIGHT_FIND_SIGN(text, at) (at + __builtin_strcspn(&(text)[at], "%"))
#endif
#define FLIGHT_STEP(step, before, text) \
    __extension__ enum { \
        flight_sign_##step = (int)FLIGHT_FIND_SIGN(text, flight_next_##before), \
        flight_is_end_##step = flight_sign_##step == (int)__builtin_strlen(text) - 1, \
        flight_sizes_##step = flight_sign_##step + 1 + FLIGHT_SPAN(text, flight_sign_##step + 1, FLIGHT_FLAGS), \
        flight_letter_##step = flight_sizes_##step + FLIGHT_SPAN(text, flight_sizes_##step, FLIGHT_SIZES), \
        flight_has_size_##step = flight_letter_##step != flight_sizes_##step, \
        flight_next_##step = flight_is_end_##step ? flight_sign_##step : flight_letter_##step + 1, \
        flight_is_known_##step = flight_is_end_##step \
            || (FLIGHT_AMONG(text, flight_letter_##step, FLIGHT_INTEGERS) \
                && !(flight_has_size_##step && FLIGHT_AMONG(text, flight_letter_##step - 1, "L"))) \
            || (FLIGHT_AMONG(text, flight_letter_##step, FLIGHT_FLOATS) \
                && !(flight_has_size_##step && FLIGHT_AMONG(text, flight_sizes_##step, "h"))) \
            || (FLIGHT_AMONG(text, flight_letter_##step, FLIGHT_OTHERS) && !flight_has_size_##step) \
            || (FLIGHT_AMONG(text, flight_letter_##step, "%") && flight_letter_##step == flight_sign_##step + 1) \
    }; \
    _Static_assert(flight_is_known_##step, FLIGHT_REFUSED);

// As many steps as there are arguments, and two more.
#define FLIGHT_STEPS_0(text) enum { flight_next_0 = 0 }; FLIGHT_STEP(1, 0, text) FLIGHT_STEP(2, 1, text)
#define FLIGHT_STEPS_1(text) FLIGHT_STEPS_0(text) FLIGHT_STEP(3, 2, text)
#define FLIGHT_STEPS_2(text) FLIGHT_STEPS_1(text) FLIGHT_STEP(4, 3, text)
#define FLIGHT_STEPS_3(text) FLIGHT_STEPS_2(text) FLIGHT_STEP(5, 4, text)
#define FLIGHT_STEPS_4(text) FLIGHT_STEPS_3(text) FLIGHT_STEP(6, 5, text)
#define FLIGHT_STEPS_5(text) FLIGHT_STEPS_4(text) FLIGHT_STEP(7, 6, text)
#define FLIGHT_STEPS_6(text) FLIGHT_STEPS_5(text) FLIGHT_STEP(8, 7, text)
#define FLIGHT_STEPS_7(text) FLIGHT_STEPS_6(text) FLIGHT_STEP(9, 8, text)
#define FLIGHT_STEPS_8(text) FLIGHT_STEPS_7(text) FLIGHT_STEP(10, 9, text)
#define FLIGHT_STEPS__(count, text) FLIGHT_STEPS_##count(text)
#define FLIGHT_STEPS_(count, text) FLIGHT_STEPS__(count, text)
#define FLIGHT_KNOWN(...) FLIGHT_STEPS_(FLIGHT_COUNT(__VA_ARGS__), FLIGHT_FORMAT(__VA_ARGS__) "%\0")

#endif

// What TRACE has of each argument.
#define FLIGHT_KIND_OF_EACH(index, given) FLIGHT_KIND(given),
#define FLIGHT_ROOM_OF_EACH(index, given) + (FLIGHT_KIND(given) == FLIGHT_CHARACTERS ? FLIGHT_TEXT + 2 : 8)
#define FLIGHT_PUT_EACH(index, given) flight_at_ = FLIGHT_PUT(index, given);

// What `m` makes of each argument after the format, by their number.
#define FLIGHT_EACH_0(m, format)
#define FLIGHT_EACH_1(m, format, a) m(0, a)
#define FLIGHT_EACH_2(m, format, a, b) m(0, a) m(1, b)
#define FLIGHT_EACH_3(m, format, a, b, c) m(0, a) m(1, b) m(2, c)
#define FLIGHT_EACH_4(m, format, a, b, c, d) m(0, a) m(1, b) m(2, c) m(3, d)
#define FLIGHT_EACH_5(m, format, a, b, c, d, e) m(0, a) m(1, b) m(2, c) m(3, d) m(4, e)
#define FLIGHT_EACH_6(m, format, a, b, c, d, e, f) m(0, a) m(1, b) m(2, c) m(3, d) m(4, e) m(5, f)
#define FLIGHT_EACH_7(m, format, a, b, c, d, e, f, g) m(0, a) m(1, b) m(2, c) m(3, d) m(4, e) m(5, f) m(6, g)
#define FLIGHT_EACH_8(m, format, a, b, c, d, e, f, g, h) \
    m(0, a) m(1, b) m(2, c) m(3, d) m(4, e) m(5, f) m(6, g) m(7, h)
#define FLIGHT_EACH__(count, m, ...) FLIGHT_EACH_##count(m, __VA_ARGS__)
#define FLIGHT_EACH_(count, m, ...) FLIGHT_EACH__(count, m, __VA_ARGS__)
#define FLIGHT_EACH(m, ...) FLIGHT_EACH_(FLIGHT_COUNT(__VA_ARGS__), m, __VA_ARGS__)

// How many arguments come after the format.
#define FLIGHT_COUNT(...) FLIGHT_COUNT_(__VA_ARGS__, has_too_many_arguments, 8, 7, 6, 5, 4, 3, 2, 1, 0, 0)
#define FLIGHT_COUNT_(format, a, b, c, d, e, f, g, h, i, count, ...) count
#define FLIGHT_FORMAT(...) FLIGHT_FORMAT_(__VA_ARGS__, 0)
#define FLIGHT_FORMAT_(format, ...) "" format

// What `m` makes of each value of pairs after the text, by their number, and the text with the names.
#define FLIGHT_PAIRS_0(m, text)
#define FLIGHT_PAIRS_1(m, text, an, a) m(0, a)
#define FLIGHT_PAIRS_2(m, text, an, a, bn, b) m(0, a) m(1, b)
#define FLIGHT_PAIRS_3(m, text, an, a, bn, b, cn, c) m(0, a) m(1, b) m(2, c)
#define FLIGHT_PAIRS_4(m, text, an, a, bn, b, cn, c, dn, d) m(0, a) m(1, b) m(2, c) m(3, d)
#define FLIGHT_PAIRS_5(m, text, an, a, bn, b, cn, c, dn, d, en, e) m(0, a) m(1, b) m(2, c) m(3, d) m(4, e)
#define FLIGHT_PAIRS_6(m, text, an, a, bn, b, cn, c, dn, d, en, e, fn, f) \
    m(0, a) m(1, b) m(2, c) m(3, d) m(4, e) m(5, f)
#define FLIGHT_PAIRS_7(m, text, an, a, bn, b, cn, c, dn, d, en, e, fn, f, gn, g) \
    m(0, a) m(1, b) m(2, c) m(3, d) m(4, e) m(5, f) m(6, g)
#define FLIGHT_PAIRS_8(m, text, an, a, bn, b, cn, c, dn, d, en, e, fn, f, gn, g, hn, h) \
    m(0, a) m(1, b) m(2, c) m(3, d) m(4, e) m(5, f) m(6, g) m(7, h)
#define FLIGHT_PAIRS__(count, m, ...) FLIGHT_PAIRS_##count(m, __VA_ARGS__)
#define FLIGHT_PAIRS_(count, m, ...) FLIGHT_PAIRS__(count, m, __VA_ARGS__)
#define FLIGHT_PAIRS(m, ...) FLIGHT_PAIRS_(FLIGHT_PAIR_COUNT(__VA_ARGS__), m, __VA_ARGS__)
#define FLIGHT_NAMES_0(text) "" text
#define FLIGHT_NAMES_1(text, name, value) FLIGHT_NAMES_0(text) "\0" name
#define FLIGHT_NAMES_2(text, name, value, ...) FLIGHT_NAMES_0(text) "\0" name FLIGHT_NAMES_1("", __VA_ARGS__)
#define FLIGHT_NAMES_3(text, name, value, ...) FLIGHT_NAMES_0(text) "\0" name FLIGHT_NAMES_2("", __VA_ARGS__)
#define FLIGHT_NAMES_4(text, name, value, ...) FLIGHT_NAMES_0(text) "\0" name FLIGHT_NAMES_3("", __VA_ARGS__)
#define FLIGHT_NAMES_5(text, name, value, ...) FLIGHT_NAMES_0(text) "\0" name FLIGHT_NAMES_4("", __VA_ARGS__)
#define FLIGHT_NAMES_6(text, name, value, ...) FLIGHT_NAMES_0(text) "\0" name FLIGHT_NAMES_5("", __VA_ARGS__)
#define FLIGHT_NAMES_7(text, name, value, ...) FLIGHT_NAMES_0(text) "\0" name FLIGHT_NAMES_6("", __VA_ARGS__)
#define FLIGHT_NAMES_8(text, name, value, ...) FLIGHT_NAMES_0(text) "\0" name FLIGHT_NAMES_7("", __VA_ARGS__)
#define FLIGHT_NAMES__(count, ...) FLIGHT_NAMES_##count(__VA_ARGS__)
#define FLIGHT_NAMES_(count, ...) FLIGHT_NAMES__(count, __VA_ARGS__)
#define FLIGHT_NAMES(...) FLIGHT_NAMES_(FLIGHT_PAIR_COUNT(__VA_ARGS__), __VA_ARGS__)

// How many pairs come after the text.
#define FLIGHT_PAIR_COUNT(...) \
    FLIGHT_PAIR_COUNT_(__VA_ARGS__, has_too_many_fields, 8, lacks_a_value, 7, lacks_a_value, 6, lacks_a_value, 5, \
        lacks_a_value, 4, lacks_a_value, 3, lacks_a_value, 2, lacks_a_value, 1, lacks_a_value, 0, 0)
#define FLIGHT_PAIR_COUNT_(text, an, a, bn, b, cn, c, dn, d, en, e, fn, f, gn, g, hn, h, more, count, ...) count

// Records an event of a site whose arguments `each` makes from what follows.
#define FLIGHT_EVENT(each, ...) \
    if (flight_is_on(&flight_site_)) { \
        uint8_t flight_event_[4 each(FLIGHT_ROOM_OF_EACH, __VA_ARGS__)], *flight_at_ = flight_event_ + 4; \
        each(FLIGHT_PUT_EACH, __VA_ARGS__) \
        FLIGHT_RECORD(&flight_site_, flight_event_, (size_t)(flight_at_ - flight_event_)); \
    }

// ---- Records an event: the format of printf, which is a literal text, and its arguments.
#define FLIGHT_TRACE(...) \
    do { \
        FLIGHT_KNOWN(__VA_ARGS__) \
        static struct flight_site flight_site_ = {FLIGHT_FORMAT(__VA_ARGS__), __FILE__, \
            (uint32_t)sizeof(FLIGHT_FORMAT(__VA_ARGS__)) - 1, (uint32_t)sizeof(__FILE__) - 1, __LINE__, \
            FLIGHT_COUNT(__VA_ARGS__), FLIGHT_PRINTF, {FLIGHT_EACH(FLIGHT_KIND_OF_EACH, __VA_ARGS__) 0}, \
            0, FLIGHT_NEW, {0}}; \
        if (0) \
            flight_check(__VA_ARGS__); \
        FLIGHT_EVENT(FLIGHT_EACH, __VA_ARGS__) \
    } while (0)

// ---- Records an event of this level: a literal text, and pairs of a literal name and a value.
#define FLIGHT_TRACE_AT(level, ...) \
    do { \
        static struct flight_site flight_site_ = {FLIGHT_NAMES(__VA_ARGS__), __FILE__, \
            (uint32_t)sizeof(FLIGHT_NAMES(__VA_ARGS__)) - 1, (uint32_t)sizeof(__FILE__) - 1, __LINE__, \
            FLIGHT_PAIR_COUNT(__VA_ARGS__), FLIGHT_FIELDS | (level), \
            {FLIGHT_PAIRS(FLIGHT_KIND_OF_EACH, __VA_ARGS__) 0}, 0, FLIGHT_NEW, {0}}; \
        FLIGHT_EVENT(FLIGHT_PAIRS, __VA_ARGS__) \
    } while (0)
#define FLIGHT_TRACE_FIELDS(...) FLIGHT_TRACE_AT(0, __VA_ARGS__)
#define FLIGHT_TRACE_ERROR(...) FLIGHT_TRACE_AT(FLIGHT_ERROR, __VA_ARGS__)
#define FLIGHT_TRACE_WARNING(...) FLIGHT_TRACE_AT(FLIGHT_WARNING, __VA_ARGS__)
#define FLIGHT_TRACE_INFO(...) FLIGHT_TRACE_AT(FLIGHT_INFO, __VA_ARGS__)
#define FLIGHT_TRACE_DEBUG(...) FLIGHT_TRACE_AT(FLIGHT_DEBUG, __VA_ARGS__)

#ifndef FLIGHT_NO_TRACE
#define TRACE(...) FLIGHT_TRACE(__VA_ARGS__)
#define TRACE_FIELDS(...) FLIGHT_TRACE_FIELDS(__VA_ARGS__)
#define TRACE_ERROR(...) FLIGHT_TRACE_ERROR(__VA_ARGS__)
#define TRACE_WARNING(...) FLIGHT_TRACE_WARNING(__VA_ARGS__)
#define TRACE_INFO(...) FLIGHT_TRACE_INFO(__VA_ARGS__)
#define TRACE_DEBUG(...) FLIGHT_TRACE_DEBUG(__VA_ARGS__)
#endif

#endif
