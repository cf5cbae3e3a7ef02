// What is no piece in a log: a tail that a crash cut, which was never acknowledged, or damage. Damage costs only the
// pieces that it hit: the file keeps its bytes as NNNNNN.damaged, and NNNNNN.log has the pieces around it.
#ifndef LOG_DAMAGE_H
#define LOG_DAMAGE_H

#include "log_files.h"
#include "report.h"

// How many bytes the piece at the front of these has, or 0 if there is none that can be read.
static inline size_t whole_piece(const uint8_t *bytes, size_t len)
{
    struct tracering_fleet scratch = TRACERING_FLEET_INIT;
    struct tracering_stream_fault at;
    size_t used = 0;
    if (len < LEAST_PIECE || memcmp(bytes, PIECE_LETTERS, 8))
        return 0;
    must(tracering_fleet_new(&scratch), "fleet_new");
    int32_t code = tracering_fleet_add(&scratch, bytes, len, &used, &at);
    (void)tracering_fleet_free(&scratch);
    return code > TRACERING_DONE ? 0 : used;
}

// Where behind the first of these bytes a piece begins that can be read, or their end.
static inline size_t next_whole(const uint8_t *bytes, size_t len)
{
    for (size_t at = 1; at < len; at++) {
        const uint8_t *letters = memmem(bytes + at, len - at, PIECE_LETTERS, 8);
        if (!letters)
            break;
        at = (size_t)(letters - bytes);
        if (whole_piece(letters, len - at))
            return at;
    }
    return len;
}

// What the length of a piece has to be, by what else it says: 0 if these bytes don't say it, or it has no such kind.
static inline size_t implied_len(const uint8_t *bytes, size_t len)
{
    if (kind_of(bytes) == KIND_PARCEL)
        return len < DATA_AT ? 0 : DATA_AT + (number_at(bytes, COMMIT_AT) & 0x3fffffff) + SUM_BYTES;
    return kind_of(bytes) == KIND_UNDELIVERED ? TRACERING_MARK : kind_of(bytes) < KIND_UNDELIVERED ? LEAST_PIECE : 0;
}

// Whether these last bytes of a log, which aren't a whole piece, are the beginning of one: a crash cut its write. A
// piece whose length has a flipped bit isn't taken for that: its length differs from what else it says, or another
// piece is behind it.
static inline bool is_cut_tail(const uint8_t *bytes, size_t len)
{
    if (len >= MOST_PIECE || memcmp(bytes, PIECE_LETTERS, len < 8 ? len : 8))
        return false;
    if (len < STREAM_AT)
        return true;
    uint64_t stated = number_at(bytes, LENGTH_AT), implied = implied_len(bytes, len);
    bool is_open = !implied && kind_of(bytes) == KIND_PARCEL;
    return stated > len && stated <= MOST_PIECE && (is_open || stated == implied) && next_whole(bytes, len) == len;
}

// A log's copy without what is damaged, which takes its place.
struct salvage {
    int folder;
    uint64_t number;
    FILE *copy; // null as long as there is no damage
    char name[FILE_NAME];
};

static inline void report_damage(struct salvage *s, size_t from, size_t to, const char *cause)
{
    char name[FILE_NAME], what[2 * FILE_NAME];
    (void)snprintf(what, sizeof what, "%s, bytes %zu to %zu", log_name(name, s->number, "log"), from, to - 1);
    report(what, cause);
}

// Damage is found: the copy has what is before it from now on.
static inline void begin_salvage(struct salvage *s, const uint8_t *bytes, size_t before)
{
    if (s->copy)
        return;
    s->copy = opened_at(s->folder, log_name(s->name, s->number, "new"), O_WRONLY | O_CREAT | O_TRUNC, "w");
    write_all(s->copy, bytes, before, s->name);
}

static inline void end_salvage(struct salvage *s)
{
    char name[FILE_NAME], damaged[FILE_NAME], kept[2 * FILE_NAME];
    struct stat is;
    if (!s->copy)
        return;
    make_lasting(s->copy, s->name);
    (void)fclose(s->copy);
    (void)snprintf(kept, sizeof kept, "%s", log_name(damaged, s->number, "damaged"));
    for (unsigned other = 2; !fstatat(s->folder, kept, &is, 0); other++)
        (void)snprintf(kept, sizeof kept, "%s.%u", damaged, other);
    rename_at(s->folder, log_name(name, s->number, "log"), kept);
    rename_at(s->folder, s->name, log_name(name, s->number, "log"));
    fprintf(stderr, "%s has what is whole; the file as it was is %s\n", name, kept);
}

// A crash amid the above left a copy: it takes its place if the other file was renamed already, and else is made anew.
static inline void finish_salvages(const char *path, int folder)
{
    size_t count;
    uint64_t *numbers = numbers_of(path, "new", &count);
    for (size_t k = 0; k < count; k++) {
        char made[FILE_NAME], name[FILE_NAME];
        struct stat is;
        log_name(made, numbers[k], "new");
        if (fstatat(folder, log_name(name, numbers[k], "log"), &is, 0))
            rename_at(folder, made, name);
        else if (unlinkat(folder, made, 0))
            die(made, strerror(errno));
    }
    free(numbers);
}
#endif
