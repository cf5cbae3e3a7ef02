// A collector's log: the pieces that were new, in the order in which they came, in files of a folder. So they are a
// stream of pieces, which any collector reads, and `tracering collect FOLDER/*.log` lists. A file that is large or old
// enough is closed, and the next one begun.
#ifndef LOG_H
#define LOG_H

#include "log_damage.h"
#include "quarantine.h"

#define LOG_WORDS \
    TEXT_WORD("log", NULL, "folder of the log, which is made if it isn't there"), \
    NUMBER_WORD("rotate-bytes", "268435456", 1, UINT64_MAX, "bytes after which the next file of the log is begun"), \
    NUMBER_WORD("rotate-seconds", "3600", 1, A_BILLION, "seconds after which it is, if the file has a piece"), \
    QUARANTINE_WORDS

enum log_metric {
    ADDED, KNOWN, REFUSED, MARKS, BYTES, KEPT, KEPT_BYTES, KEPT_LIMIT, UNKEPT, DAMAGED, FILES, UNKNOWN_NUMBERS,
    LOG_METRICS
};

#define LOG_METRIC_LIST \
    [ADDED] = {"pieces_added_total", "counter", "Pieces that were new.", 0}, \
    [KNOWN] = {"pieces_known_total", "counter", "Pieces of which all was known.", 0}, \
    [REFUSED] = {"pieces_refused_total", "counter", "Pieces that contradict others or can't be read.", 0}, \
    [MARKS] = {"marks_refused_total", "counter", "Marks of forgotten numbers that came over the bus.", 0}, \
    [BYTES] = {"log_bytes_total", "counter", "Bytes that went to the log.", 0}, \
    [KEPT] = {"quarantine_messages", "gauge", "Messages in quarantine.", 0}, \
    [KEPT_BYTES] = {"quarantine_bytes", "gauge", "Bytes of the quarantine.", 0}, \
    [KEPT_LIMIT] = {"quarantine_limit_bytes", "gauge", "Bytes that it may have.", 0}, \
    [UNKEPT] = {"messages_unkept_total", "counter", "Times that a message had no room in quarantine.", 0}, \
    [DAMAGED] = {"log_damages", "gauge", "Damaged places found in the log as it was opened.", 0}, \
    [FILES] = {"log_file", "gauge", "The number of the log's file that is written.", 0}, \
    [UNKNOWN_NUMBERS] = {"numbers_unknown", "gauge", "Numbers of records that are still to come.", 0}

struct log {
    const char *path;
    int folder;
    FILE *file, *index;
    uint64_t number, size; // of the file
    double begun;          // when it was opened
    struct tracering_fleet fleet;
    struct quarantine quarantine;
    struct metric *metrics;
    double forgets_from; // when it forgets again
    char buffer[1 << 20];
};

static struct log collected;

static inline void count(enum log_metric which, uint64_t by)
{
    collected.metrics[which].value += by;
}

// What is below the watermarks is known for good, and is in the log: the fleet needn't keep it. (To forget it takes
// time by all that is kept. The second call finds nothing to forget, so it shows what is left: that may take a tenth of
// the time.)
static inline void forget_final(struct log *l)
{
    if (seconds_now() < l->forgets_from)
        return;
    must(tracering_fleet_forget_before(&l->fleet, UINT64_MAX), "forget_before");
    double begun = seconds_now();
    must(tracering_fleet_forget_before(&l->fleet, UINT64_MAX), "forget_before");
    double ended = seconds_now();
    l->forgets_from = ended + 0.01 + 10 * (ended - begun);
}

// Adds the first piece of these bytes, if there is one: `used` is how many it has, or 0. One that is at odds with
// others is reported, and left out.
static inline int32_t add_piece(struct log *l, const uint8_t *bytes, size_t len, size_t *used)
{
    struct tracering_stream_fault at = {.stream = 0};
    *used = 0;
    int32_t code = tracering_fleet_add(&l->fleet, bytes, len, used, &at);
    if (code == TRACERING_NO_MEMORY)
        die("add", tracering_text(code));
    if (code > TRACERING_DONE && *used) {
        char what[128];
        (void)snprintf(what, sizeof what, "a piece is refused: stream %016" PRIx64 " CPU %" PRIu32 " number %" PRIu64,
            at.stream, at.cpu, at.number);
        report(what, tracering_text(code));
    }
    count(code == TRACERING_DONE ? ADDED : code < TRACERING_DONE ? KNOWN : REFUSED, 1);
    forget_final(l);
    return code;
}

// ---- Opening.

// A mark in a log hides what is below its bound, here and in `tracering collect`.
static inline void report_mark(const char *name, size_t at, const uint8_t *piece)
{
    char what[2 * FILE_NAME], why[128];
    if (kind_of(piece) != KIND_FORGOTTEN)
        return;
    (void)snprintf(what, sizeof what, "%s, byte %zu", name, at);
    (void)snprintf(why, sizeof why, "a mark hides the numbers below %" PRIu64 " of stream %016" PRIx64 " CPU %" PRIu64,
        number_at(piece, FILL_AT), number_at(piece, STREAM_AT), number_at(piece, CPU_AT));
    report(what, why);
}

// Adds the pieces of a file of the log, and makes its index anew. If it is the last one, a tail that a crash cut is cut
// off. Answers whether it was whole.
static inline bool read_file(struct log *l, uint64_t number, bool is_last)
{
    char name[FILE_NAME], index_name[FILE_NAME];
    int file;
    size_t len, at = 0, used;
    struct salvage salvage = {.folder = l->folder, .number = number};
    const uint8_t *bytes = mapped_at(l->folder, log_name(name, number, "log"), is_last ? O_RDWR : O_RDONLY, &file,
        &len);
    FILE *index = opened_at(l->folder, log_name(index_name, number, "index"), O_WRONLY | O_CREAT | O_TRUNC, "w");
    for (uint64_t to = 0; at < len; at += used) {
        int32_t code = add_piece(l, bytes + at, len - at, &used);
        if (used) {
            struct index_entry entry = entry_of(bytes + at, used, to);
            write_all(index, &entry, sizeof entry, index_name);
            if (salvage.copy)
                write_all(salvage.copy, bytes + at, used, salvage.name);
            report_mark(name, at, bytes + at);
            to += used;
        } else if (code == TRACERING_PIECE_CUT && is_last && is_cut_tail(bytes + at, len - at)) {
            fprintf(stderr, "%s: its last %zu bytes are a piece that wasn't written whole, and are cut off\n", name,
                len - at);
            break;
        } else {
            used = next_whole(bytes + at, len - at);
            report_damage(&salvage, at, at + used, tracering_text(code));
            begin_salvage(&salvage, bytes, at);
            count(DAMAGED, 1);
        }
    }
    if (at < len && (ftruncate(file, (off_t)at) || fsync(file)))
        die(name, strerror(errno));
    if (fclose(index))
        die(index_name, strerror(errno));
    bool is_whole = !salvage.copy;
    end_salvage(&salvage);
    unmap(bytes, len);
    (void)close(file);
    return is_whole;
}

// Opens the file of this number, to append to it.
static inline void open_file(struct log *l, uint64_t number)
{
    char name[FILE_NAME];
    struct stat is;
    l->file = opened_at(l->folder, log_name(name, number, "log"), O_WRONLY | O_CREAT | O_APPEND, "a");
    if (fstat(fileno(l->file), &is) || fsync(l->folder) || setvbuf(l->file, l->buffer, _IOFBF, sizeof l->buffer))
        die(name, strerror(errno));
    l->index = opened_at(l->folder, log_name(name, number, "index"), O_WRONLY | O_CREAT | O_APPEND, "a");
    l->number = number;
    l->size = (uint64_t)is.st_size;
    l->begun = seconds_now();
    l->metrics[FILES].value = number;
}

// A folder is one collector's at a time.
static inline void lock_log(struct log *l)
{
    if (mkdir(l->path, 0755) && errno != EEXIST)
        die(l->path, strerror(errno));
    l->folder = open(l->path, O_RDONLY | O_DIRECTORY | O_CLOEXEC);
    if (l->folder < 0)
        die(l->path, strerror(errno));
    int lock = openat(l->folder, "lock", O_RDWR | O_CREAT | O_CLOEXEC, 0644);
    if (lock < 0 || lockf(lock, F_TLOCK, 0))
        die(l->path, errno == EAGAIN || errno == EACCES ? "another collector has this log" : strerror(errno));
}

static inline void sync_log(void);
static inline uint64_t take_message(const void *message, size_t len);

static inline void count_kept(struct log *l)
{
    l->metrics[KEPT].value = l->quarantine.count;
    l->metrics[KEPT_BYTES].value = l->quarantine.size;
}

// Opens a log and reads what is in it. The log goes on in its last file, or in a new one if that was damaged.
static inline void open_log(struct log *l, struct metric *metrics)
{
    size_t files;
    l->path = text_of("log");
    l->metrics = metrics;
    if (!l->path)
        refuse_words("--log FOLDER", "it isn't there");
    lock_log(l);
    must(tracering_fleet_new(&l->fleet), "fleet_new");
    finish_salvages(l->path, l->folder);
    uint64_t *numbers = numbers_of(l->path, "log", &files), last = files ? numbers[files - 1] : 1;
    bool is_whole = true;
    for (size_t k = 0; k < files; k++)
        is_whole = read_file(l, numbers[k], k + 1 == files);
    free(numbers);
    // (What was read of files was counted by those who wrote them.)
    l->metrics[ADDED].value = l->metrics[KNOWN].value = l->metrics[REFUSED].value = 0;
    open_file(l, last + !is_whole);
    open_quarantine(&l->quarantine, l->folder, take_message, sync_log);
    l->metrics[KNOWN].value = l->metrics[REFUSED].value = l->metrics[MARKS].value = 0;
    l->metrics[KEPT_LIMIT].value = number_of("quarantine-bytes");
    count_kept(l);
}

// ---- Adding.

static inline void append(struct log *l, const uint8_t *piece, size_t len)
{
    struct index_entry entry = entry_of(piece, len, l->size);
    write_all(l->file, piece, len, "the log");
    write_all(l->index, &entry, sizeof entry, "the index");
    l->size += len;
    count(BYTES, len);
}

// Whether these bytes are a piece that only a collector makes. By a mark of forgotten numbers a collector would drop
// what is below it, and take what still comes for known.
static inline bool is_collectors_mark(const uint8_t *bytes, size_t len, size_t *used)
{
    *used = len > KIND_AT + 4 && kind_of(bytes) >= KIND_FORGOTTEN ? whole_piece(bytes, len) : 0;
    return *used;
}

// Adds the pieces of a message. Those that are new go to the log, where they are lasting after `sync_log`. Answers the
// first cause why it isn't taken whole, or 0. What is behind a piece that can't be read is taken all the same.
static inline uint64_t take_message(const void *message, size_t len)
{
    const uint8_t *bytes = message;
    uint64_t cause = len ? 0 : TRACERING_PIECE_CUT;
    for (size_t used; len; bytes += used, len -= used) {
        if (is_collectors_mark(bytes, len, &used)) {
            count(MARKS, 1);
            cause = cause ? cause : KEPT_MARK;
            continue;
        }
        int32_t code = add_piece(&collected, bytes, len, &used);
        if (code == TRACERING_DONE)
            append(&collected, bytes, used);
        if (code > TRACERING_DONE)
            cause = cause ? cause : (uint64_t)code;
        if (!used)
            used = next_whole(bytes, len);
    }
    return cause;
}

// Adds a message. False: it is neither taken whole nor kept, and must not be acknowledged.
static inline bool add_message(const void *message, size_t len)
{
    uint64_t cause = take_message(message, len);
    bool is_kept = !cause || keep_message(&collected.quarantine, message, len, cause);
    count(UNKEPT, !is_kept);
    count_kept(&collected);
    return is_kept;
}

// Once it returns, all that was added is lasting. Then a file that is large or old enough is closed.
static inline void sync_log(void)
{
    struct log *l = &collected;
    make_lasting(l->file, "the log");
    sync_quarantine(&l->quarantine);
    if (fflush(l->index))
        die("the index", strerror(errno));
    bool is_old = l->size && seconds_now() > l->begun + (double)number_of("rotate-seconds");
    if (l->size < number_of("rotate-bytes") && !is_old)
        return;
    if (fclose(l->file) || fclose(l->index))
        die("the log", strerror(errno));
    open_file(l, l->number + 1);
}

// How many numbers of a CPU are still to come. (Runs beyond the first ones aren't counted.)
static inline uint64_t unknown_of_cpu(struct log *l, uint64_t stream, uint32_t cpu)
{
    enum { RUNS = 4096 };
    static struct tracering_run runs[RUNS];
    size_t found = 0;
    uint64_t sum = 0;
    (void)tracering_fleet_unknown(&l->fleet, stream, cpu, runs, RUNS, &found);
    for (size_t k = 0; k < found && k < RUNS; k++)
        sum += runs[k].last - runs[k].first + 1;
    return sum;
}

static inline uint64_t unknown_of_stream(struct log *l, uint64_t stream)
{
    uint64_t sum = 0;
    uint32_t cpu = 0;
    for (; tracering_fleet_next_cpu(&l->fleet, stream, cpu, &cpu) == TRACERING_DONE; cpu++)
        sum += unknown_of_cpu(l, stream, cpu);
    return sum;
}

// How many numbers of all streams are still to come.
static inline uint64_t unknown_numbers(struct log *l)
{
    uint64_t sum = 0, stream = 0;
    for (; tracering_fleet_next_stream(&l->fleet, stream, &stream) == TRACERING_DONE; stream++) {
        sum += unknown_of_stream(l, stream);
        if (stream == UINT64_MAX)
            break;
    }
    return sum;
}

static inline void close_log(struct log *l)
{
    sync_log();
    printf("added %" PRIu64 " known %" PRIu64 " refused %" PRIu64 " marks %" PRIu64 " quarantined %" PRIu64 "\n",
        (uint64_t)l->metrics[ADDED].value, (uint64_t)l->metrics[KNOWN].value, (uint64_t)l->metrics[REFUSED].value,
        (uint64_t)l->metrics[MARKS].value, l->quarantine.count);
    (void)fclose(l->file);
    (void)fclose(l->index);
    (void)fclose(l->quarantine.file);
    (void)tracering_fleet_free(&l->fleet);
}
#endif
