// Finds a time in a collector's log by its index, without reading the rest: it writes the pieces that have a record of
// that time to standard output, for `tracering collect -`.
//
//     log_select --log FOLDER [--since MOMENT] [--until MOMENT] [--stream ID] [--cpu NUMBER]
//
// Moments are the records', in their streams' units; a stream's id is hexadecimal, as in listings. Pages are whole, so
// they have records around that time too, and numbers on other pages are unknown in the listing. Marks of ends are
// always among them. A collector may write the log meanwhile. Standard error says how much was read, and what isn't in
// the index and is no piece; the status is then 3, and what is around it is written.
#include "log_damage.h"
#include "words.h"

static struct word words[] = {
    TEXT_WORD("log", NULL, "folder of the log"),
    NUMBER_WORD("since", "0", 0, UINT64_MAX, "the first moment"),
    NUMBER_WORD("until", "18446744073709551615", 0, UINT64_MAX, "the last moment"),
    TEXT_WORD("stream", NULL, "one stream alone"),
    NUMBER_WORD("cpu", NULL, 0, UINT32_MAX, "one CPU of each stream alone"),
    LAST_WORD,
};

static struct {
    uint64_t since, until, stream, cpu;
    bool has_stream, has_cpu;
} wanted;

static struct {
    uint64_t pieces, bytes, of_bytes, damaged_bytes;
} sums;

static bool is_wanted(const struct index_entry *entry)
{
    return entry->least <= wanted.until && entry->greatest >= wanted.since
        && (!wanted.has_stream || entry->stream == wanted.stream) && (!wanted.has_cpu || entry->cpu == wanted.cpu);
}

static void write_piece(const uint8_t *bytes, const struct index_entry *entry)
{
    if (!is_wanted(entry))
        return;
    write_all(stdout, bytes + entry->at, entry->len, "standard output");
    sums.pieces++;
    sums.bytes += entry->len;
}

// The pieces at the end of a file that is written, which the index hasn't yet; or from where on the index is damaged.
static void select_tail(const uint8_t *bytes, size_t len, size_t at, const char *name)
{
    while (at < len && !is_cut_tail(bytes + at, len - at)) {
        size_t used = whole_piece(bytes + at, len - at);
        if (used) {
            struct index_entry entry = entry_of(bytes + at, used, at);
            write_piece(bytes, &entry);
        } else {
            used = next_whole(bytes + at, len - at);
            fprintf(stderr, "%s, bytes %zu to %zu: no pieces (the collector that opens the log sets them aside)\n",
                name, at, at + used - 1);
            sums.damaged_bytes += used;
        }
        at += used;
    }
}

static void select_file(int folder, uint64_t number)
{
    char name[FILE_NAME], index_name[FILE_NAME];
    int file, index_file;
    size_t len, index_len, at = 0;
    const uint8_t *bytes = mapped_at(folder, log_name(name, number, "log"), O_RDONLY, &file, &len);
    struct stat is;
    sums.of_bytes += len;
    if (!fstatat(folder, log_name(index_name, number, "index"), &is, 0)) {
        const uint8_t *index = mapped_at(folder, index_name, O_RDONLY, &index_file, &index_len);
        for (size_t k = 0; k + sizeof(struct index_entry) <= index_len; k += sizeof(struct index_entry)) {
            struct index_entry entry;
            memcpy(&entry, index + k, sizeof entry);
            if (entry.at != at || entry.len < LEAST_PIECE || entry.len > len - at || entry.sum != sum_of(&entry))
                break;
            write_piece(bytes, &entry);
            at += entry.len;
        }
        unmap(index, index_len);
        (void)close(index_file);
    }
    select_tail(bytes, len, at, name);
    unmap(bytes, len);
    (void)close(file);
}

static uint64_t stream_id(const char *text)
{
    size_t len = strlen(text);
    if (len > 16 || strspn(text, "0123456789abcdef") != len)
        refuse_words(text, "it is no stream's id, which has 16 digits from 0 to f at most");
    return strtoull(text, NULL, 16);
}

static void read_wanted(void)
{
    wanted.since = number_of("since");
    wanted.until = number_of("until");
    if (wanted.since > wanted.until)
        refuse_words("--since, --until", "the first moment is behind the last one");
    wanted.has_stream = is_given("stream");
    wanted.stream = wanted.has_stream ? stream_id(text_of("stream")) : 0;
    wanted.has_cpu = is_given("cpu");
    wanted.cpu = wanted.has_cpu ? number_of("cpu") : 0;
}

int main(int argc, char **argv)
{
    size_t count;
    read_words(words, argc, argv, "log_select: finds a time in a collector's log");
    const char *path = text_of("log");
    if (!path)
        refuse_words("--log FOLDER", "it isn't there");
    read_wanted();
    int folder = open(path, O_RDONLY | O_DIRECTORY | O_CLOEXEC);
    if (folder < 0)
        die(path, strerror(errno));
    uint64_t *numbers = numbers_of(path, "log", &count);
    for (size_t k = 0; k < count; k++)
        select_file(folder, numbers[k]);
    free(numbers);
    if (fflush(stdout))
        die("standard output", strerror(errno));
    fprintf(stderr, "%" PRIu64 " pieces: %" PRIu64 " of %" PRIu64 " bytes\n", sums.pieces, sums.bytes, sums.of_bytes);
    return sums.damaged_bytes ? 3 : 0;
}
