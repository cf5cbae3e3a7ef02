// How a file of version 7 is unpacked. It is a head and sections, one after the other. The sections of options say
// where the others are, and where each CPU's pages are in the section of a buffer. First all places in the new file are
// found, by the lengths that are stated; then it is written from its front on.
#include "output.h"

#include <fcntl.h>
#include <signal.h>
#include <stdio.h>
#include <stdlib.h>
#include <string.h>
#include <unistd.h>

enum { SECTION_HEAD = 16, OPTION_HEAD = 6, CHUNK_HEAD = 8, COUNT = 4, PIECE = 1 << 16 };
// The head: the size of a page, the name and the release of the compression, and the place of the first section of
// options, which is at FIRST_AT in the new file.
#define NO_COMPRESSION "none\0"
enum { PAGE_SIZE_AT = 14, NAME_AT = 18, FIRST_AT = NAME_AT + sizeof NO_COMPRESSION, HEAD = FIRST_AT + 8 };
// No file of trace-cmd comes near these: what they bound is memory.
enum { LONGEST_HEAD = 4096, MOST_SECTIONS = 1 << 16, MOST_OPTION_BYTES = 1 << 26, LARGEST_PAGE = 1 << 16 };
// Kinds of sections and options: an option from FIRST_PLACED to LAST_PLACED is the place of a section.
enum kind { OPTIONS = 0, BUFFER = 3, FIRST_PLACED = 16, LAST_PLACED = 21, BUFFER_TEXT = 22 };

struct section {
    uint16_t kind, flags;
    uint32_t description;
    uint64_t at, len, new_at, new_len; // `at` of its head, `len` of what is behind that
    uint8_t *options;                  // what a section of options has, unpacked; else null
    size_t first_range, range_count;   // of a buffer that an option states
    bool is_stated;
};

// The pages of a CPU: chunks, if their section is compressed. `stated` is where the option has their place and length.
struct range {
    uint64_t at, len, new_at, new_len;
    uint8_t *stated;
};

// Where an option, or the head, says that a section is.
struct pointer {
    uint8_t *stated;
    size_t section;
};

struct table {
    const struct packed *file;
    uint8_t head[HEAD]; // of the new file
    size_t old_head_len;
    uint64_t page_size, option_bytes;
    struct section *sections;
    struct range *ranges;
    struct pointer *pointers;
    size_t section_count, section_room, range_count, range_room, pointer_count, pointer_room;
};

// The bytes of a section of options. `offset` is where they are in the file.
struct reader {
    const struct table *table;
    uint8_t *at, *end;
    uint64_t offset;
};

static uint64_t number_at(const uint8_t *at, size_t len)
{
    uint64_t number = 0;
    while (len > 0)
        number = number << 8 | at[--len];
    return number;
}

static void put_number(uint8_t *at, uint64_t number, size_t len)
{
    for (size_t k = 0; k < len; k++)
        at[k] = (uint8_t)(number >> 8 * k);
}

static bool is_compressed(const struct section *section)
{
    return section->flags & 1;
}

// Refuses what isn't in the file or in a part of it, which ends at `end`.
static void expect(const struct packed *file, uint64_t at, uint64_t len, uint64_t end, const char *what)
{
    uint64_t left = at < end ? end - at : 0;
    if (at > end || len > left)
        refuse(file, at, "%llu bytes are expected (%s), and %llu are left", (unsigned long long)len, what,
            (unsigned long long)left);
}

static void no_sum(const struct packed *file, uint64_t at)
{
    refuse(file, at, "the file states more bytes than a file can have");
}

// ---- what is there

static size_t section_at(const struct table *table, uint64_t place, uint64_t said_at)
{
    size_t low = 0, high = table->section_count;
    while (low < high) {
        size_t middle = low + (high - low) / 2;
        if (table->sections[middle].at < place)
            low = middle + 1;
        else
            high = middle;
    }
    if (low == table->section_count || table->sections[low].at != place)
        refuse(table->file, said_at, "no section begins at byte %llu", (unsigned long long)place);
    return low;
}

static void add_pointer(struct table *table, uint8_t *stated, uint64_t said_at)
{
    table->pointers = with_room(table->pointers, table->pointer_count, &table->pointer_room, sizeof *table->pointers);
    table->pointers[table->pointer_count++] =
        (struct pointer){stated, section_at(table, number_at(stated, 8), said_at)};
}

// A text of the head, with its zero byte: how long it is.
static size_t text_len(const struct packed *file, const uint8_t *bytes, size_t at, size_t len)
{
    const uint8_t *end = memchr(bytes + at, 0, len - at);
    if (!end)
        refuse(file, at, "a text has no end");
    return (size_t)(end - (bytes + at)) + 1;
}

// Reads the head, and makes that of the new file.
static void read_head(struct table *table)
{
    const struct packed *file = table->file;
    uint8_t bytes[LONGEST_HEAD];
    size_t len = file->size < sizeof bytes ? (size_t)file->size : sizeof bytes;
    read_at(file, 0, bytes, len);
    table->page_size = number_at(bytes + PAGE_SIZE_AT, 4);
    if (table->page_size == 0 || table->page_size > LARGEST_PAGE || (table->page_size & (table->page_size - 1)))
        refuse(file, PAGE_SIZE_AT, "no page has %llu bytes", (unsigned long long)table->page_size);
    size_t at = NAME_AT + text_len(file, bytes, NAME_AT, len);
    at += text_len(file, bytes, at, len);
    expect(file, at, 8, len, "the place of the options");
    memcpy(table->head, bytes, NAME_AT);
    memcpy(table->head + NAME_AT, NO_COMPRESSION, sizeof NO_COMPRESSION);
    memcpy(table->head + FIRST_AT, bytes + at, 8);
    table->old_head_len = at + 8;
}

static void read_sections(struct table *table)
{
    const struct packed *file = table->file;
    for (uint64_t at = table->old_head_len; at < file->size;) {
        uint8_t head[SECTION_HEAD];
        expect(file, at, SECTION_HEAD, file->size, "a section's head");
        if (table->section_count == MOST_SECTIONS)
            refuse(file, at, "there are more than %d sections", MOST_SECTIONS);
        read_at(file, at, head, SECTION_HEAD);
        struct section section = {.kind = (uint16_t)number_at(head, 2), .flags = (uint16_t)number_at(head + 2, 2),
            .description = (uint32_t)number_at(head + 4, 4), .at = at, .len = number_at(head + 8, 8)};
        expect(file, at + SECTION_HEAD, section.len, file->size, "a section");
        table->sections = with_room(table->sections, table->section_count, &table->section_room, sizeof section);
        table->sections[table->section_count++] = section;
        at += SECTION_HEAD + section.len;
    }
}

// The chunk at this place, in a part that ends at `end`.
static struct chunk chunk_at(const struct packed *file, uint64_t at, uint64_t end)
{
    uint8_t head[CHUNK_HEAD];
    expect(file, at, CHUNK_HEAD, end, "a chunk's head");
    read_at(file, at, head, CHUNK_HEAD);
    struct chunk chunk = {at + CHUNK_HEAD, (uint32_t)number_at(head, 4), (uint32_t)number_at(head + 4, 4)};
    expect(file, chunk.at, chunk.packed, end, "a chunk");
    return chunk;
}

// ---- options

static uint8_t *take(struct reader *reader, uint64_t len, const char *what)
{
    size_t left = (size_t)(reader->end - reader->at);
    expect(reader->table->file, reader->offset, len, reader->offset + left, what);
    reader->at += len;
    reader->offset += len;
    return reader->at - len;
}

static void take_text(struct reader *reader)
{
    const uint8_t *end = memchr(reader->at, 0, (size_t)(reader->end - reader->at));
    if (!end)
        refuse(reader->table->file, reader->offset, "a text has no end");
    take(reader, (uint64_t)(end - reader->at) + 1, "a text");
}

// Reads which pages a CPU has in the section of its buffer, of which `left` bytes aren't those of a CPU yet.
static void read_range(struct table *table, struct reader *reader, const struct section *section, uint64_t *left)
{
    uint64_t said_at = reader->offset + 4, end = section->at + SECTION_HEAD + section->len;
    uint8_t *stated = take(reader, 20, "the pages of a CPU") + 4;
    struct range range = {.at = number_at(stated, 8), .len = number_at(stated + 8, 8), .stated = stated};
    if (range.len > 0 && (range.at < section->at + SECTION_HEAD || range.at > end || range.len > end - range.at))
        refuse(table->file, said_at, "the pages of a CPU aren't in the section of their buffer");
    if (range.len > *left)
        refuse(table->file, said_at, "the CPUs have more pages than their buffer");
    *left -= range.len;
    table->ranges = with_room(table->ranges, table->range_count, &table->range_room, sizeof range);
    table->ranges[table->range_count++] = range;
}

static void read_buffer(struct table *table, struct reader reader)
{
    uint64_t said_at = reader.offset;
    add_pointer(table, take(&reader, 8, "the place of a section"), said_at);
    struct section *section = &table->sections[table->pointers[table->pointer_count - 1].section];
    if (section->kind != BUFFER || section->is_stated)
        refuse(table->file, said_at, section->is_stated ? "a buffer is stated twice" : "a buffer is expected there");
    take_text(&reader);
    take_text(&reader);
    take(&reader, 4, "the size of a page");
    uint64_t count = number_at(take(&reader, 4, "the number of CPUs"), 4), left = section->len;
    section->is_stated = true;
    section->first_range = table->range_count;
    for (uint64_t k = 0; k < count; k++)
        read_range(table, &reader, section, &left);
    section->range_count = (size_t)count;
}

// Reads an option, and says whether it is the last one.
static bool read_option(struct table *table, struct reader *reader)
{
    const uint8_t *head = take(reader, OPTION_HEAD, "an option's head");
    uint64_t kind = number_at(head, 2), len = number_at(head + 2, 4);
    struct reader body = {table, reader->at, NULL, reader->offset};
    take(reader, len, "an option");
    body.end = reader->at;
    bool is_place = (kind >= FIRST_PLACED && kind <= LAST_PLACED) || kind == BUFFER_TEXT || kind == OPTIONS;
    if (kind == BUFFER) {
        read_buffer(table, body);
    } else if (is_place) {
        uint8_t *stated = take(&body, 8, "the place of a section");
        if (kind != OPTIONS || number_at(stated, 8) != 0)
            add_pointer(table, stated, body.offset - 8);
    }
    return kind == OPTIONS;
}

// Reads what a section of options has, unpacked. (trace-cmd compresses none, and reads them if they are.)
static void read_options(struct table *table, struct section *section)
{
    const struct packed *file = table->file;
    uint64_t at = section->at + SECTION_HEAD, len = section->len;
    struct chunk chunk = {0, 0, 0};
    if (is_compressed(section)) {
        chunk = chunk_at(file, at, at + len);
        len = chunk.plain;
    }
    if (len > MOST_OPTION_BYTES - table->option_bytes)
        refuse(file, section->at, "there are more than %d bytes of options", MOST_OPTION_BYTES);
    table->option_bytes += len;
    section->options = allocate((size_t)len);
    section->new_len = len;
    struct output to = {.fd = -1, .bytes = section->options, .room = (size_t)len};
    if (is_compressed(section))
        put_chunk(file, &to, &chunk);
    else
        read_at(file, at, section->options, (size_t)len);
    struct reader reader = {table, section->options, section->options + len, at};
    while (!read_option(table, &reader))
        ;
}

// ---- places in the new file

// Adds the lengths of chunks, whose number is at `at`, and gives where they end.
static uint64_t add_chunks(const struct packed *file, uint64_t at, uint64_t end, uint64_t *sum)
{
    uint8_t bytes[COUNT];
    expect(file, at, COUNT, end, "the number of chunks");
    read_at(file, at, bytes, COUNT);
    uint64_t count = number_at(bytes, COUNT), begin = at;
    at += COUNT;
    for (uint64_t k = 0; k < count; k++) {
        struct chunk chunk = chunk_at(file, at, end);
        at = chunk.at + chunk.packed;
        if (__builtin_add_overflow(*sum, chunk.plain, sum))
            no_sum(file, begin);
    }
    return at;
}

static void measure_range(const struct table *table, const struct section *section, struct range *range)
{
    range->new_len = range->len;
    if (!is_compressed(section) || range->len == 0)
        return;
    range->new_len = 0;
    uint64_t end = add_chunks(table->file, range->at, section->at + SECTION_HEAD + section->len, &range->new_len);
    // (trace-cmd 3.1.6 doesn't count the bytes that have the number of chunks.)
    if (end - range->at != range->len && end - range->at != range->len + COUNT)
        refuse(table->file, range->at, "%llu bytes of chunks are stated, and there are %llu",
            (unsigned long long)range->len, (unsigned long long)(end - range->at - COUNT));
}

static uint64_t sum_of(const struct table *table, uint64_t a, uint64_t b)
{
    uint64_t sum;
    if (__builtin_add_overflow(a, b, &sum) || sum > INT64_MAX)
        no_sum(table->file, 0);
    return sum;
}

static uint64_t end_of_page(const struct table *table, uint64_t at)
{
    return sum_of(table, at, table->page_size - 1) & ~(table->page_size - 1);
}

// Finds the places of a buffer's pages. Those of each CPU begin at a multiple of the size of a page.
static void place_buffer(struct table *table, struct section *section)
{
    uint64_t begin = section->new_at + SECTION_HEAD, at = begin;
    for (size_t k = 0; k < section->range_count; k++) {
        struct range *range = &table->ranges[section->first_range + k];
        measure_range(table, section, range);
        range->new_at = end_of_page(table, at);
        at = sum_of(table, range->new_at, range->new_len);
    }
    section->new_len = at - begin;
}

// Whether the section is copied as it is: also a buffer that no option states, of which nothing is known.
static bool is_plain(const struct section *section)
{
    return !section->options && !section->is_stated && (!is_compressed(section) || section->kind == BUFFER);
}

static void place_section(struct table *table, struct section *section)
{
    uint64_t begin = section->at + SECTION_HEAD, end = begin + section->len;
    if (section->is_stated)
        place_buffer(table, section);
    else if (is_plain(section))
        section->new_len = section->len;
    else if (section->kind == BUFFER_TEXT)
        add_chunks(table->file, begin, end, &section->new_len);
    else if (!section->options)
        section->new_len = chunk_at(table->file, begin, end).plain;
}

static void place_all(struct table *table)
{
    uint64_t at = HEAD;
    for (size_t k = 0; k < table->section_count; k++) {
        struct section *section = &table->sections[k];
        section->new_at = at;
        sum_of(table, at, SECTION_HEAD);
        place_section(table, section);
        at = sum_of(table, at + SECTION_HEAD, section->new_len);
    }
    for (size_t k = 0; k < table->pointer_count; k++)
        put_number(table->pointers[k].stated, table->sections[table->pointers[k].section].new_at, 8);
    for (size_t k = 0; k < table->range_count; k++) {
        put_number(table->ranges[k].stated, table->ranges[k].new_at, 8);
        put_number(table->ranges[k].stated + 8, table->ranges[k].new_len, 8);
    }
}

// ---- the new file

static void copy_bytes(const struct packed *file, struct output *to, uint64_t at, uint64_t len)
{
    uint8_t piece[PIECE];
    while (len > 0) {
        size_t part = len < PIECE ? (size_t)len : PIECE;
        read_at(file, at, piece, part);
        put(file, to, piece, part);
        at += part;
        len -= part;
    }
}

static void write_chunks(const struct packed *file, struct output *to, uint64_t at)
{
    uint8_t bytes[COUNT];
    read_at(file, at, bytes, COUNT);
    at += COUNT;
    for (uint64_t count = number_at(bytes, COUNT); count > 0; count--) {
        struct chunk chunk = chunk_at(file, at, file->size);
        put_chunk(file, to, &chunk);
        at = chunk.at + chunk.packed;
    }
}

static void write_buffer(const struct table *table, struct output *to, const struct section *section)
{
    for (size_t k = 0; k < section->range_count; k++) {
        const struct range *range = &table->ranges[section->first_range + k];
        put_zeros(table->file, to, range->new_at - to->len);
        if (is_compressed(section) && range->len > 0)
            write_chunks(table->file, to, range->at);
        else
            copy_bytes(table->file, to, range->at, range->len);
    }
}

static void write_section(const struct table *table, struct output *to, const struct section *section)
{
    uint8_t head[SECTION_HEAD];
    uint64_t at = section->at + SECTION_HEAD;
    put_number(head, section->kind, 2);
    put_number(head + 2, is_plain(section) ? section->flags : section->flags & ~1U, 2);
    put_number(head + 4, section->description, 4);
    put_number(head + 8, section->new_len, 8);
    put(table->file, to, head, SECTION_HEAD);
    if (section->options) {
        put(table->file, to, section->options, (size_t)section->new_len);
    } else if (section->is_stated) {
        write_buffer(table, to, section);
    } else if (is_plain(section)) {
        copy_bytes(table->file, to, at, section->len);
    } else if (section->kind == BUFFER_TEXT) {
        write_chunks(table->file, to, at);
    } else {
        struct chunk chunk = chunk_at(table->file, at, at + section->len);
        put_chunk(table->file, to, &chunk);
    }
}

static void write_all(const struct table *table, int fd)
{
    struct output to = {.fd = fd, .bytes = allocate(PIECE), .room = PIECE};
    put(table->file, &to, table->head, HEAD);
    for (size_t k = 0; k < table->section_count; k++)
        write_section(table, &to, &table->sections[k]);
    flush(table->file, &to);
    free(to.bytes);
}

// A file without a name, in the folder of temporary files. No signal comes while it has one.
static int open_unnamed(const struct packed *file)
{
    const char *folder = getenv("TMPDIR");
    folder = folder && *folder ? folder : "/tmp";
    size_t len = strlen(folder) + sizeof "/tracering.XXXXXX";
    char *path = allocate(len);
    snprintf(path, len, "%s/tracering.XXXXXX", folder);
    sigset_t all, before;
    sigfillset(&all);
    sigprocmask(SIG_SETMASK, &all, &before);
    int fd = mkstemp(path);
    if (fd >= 0)
        unlink(path);
    sigprocmask(SIG_SETMASK, &before, NULL);
    if (fd < 0)
        fail(file);
    free(path);
    int above = fcntl(fd, F_DUPFD, STDERR_FILENO + 1);
    if (above < 0)
        fail(file);
    close(fd);
    return above;
}

static void free_table(struct table *table)
{
    for (size_t k = 0; k < table->section_count; k++)
        free(table->sections[k].options);
    free(table->sections);
    free(table->ranges);
    free(table->pointers);
    free(table);
}

int unpack(const struct packed *file)
{
    struct table *table = allocate(sizeof *table);
    memset(table, 0, sizeof *table);
    table->file = file;
    read_head(table);
    read_sections(table);
    if (number_at(table->head + FIRST_AT, 8) != 0)
        add_pointer(table, table->head + FIRST_AT, table->old_head_len - 8);
    for (size_t k = 0; k < table->section_count; k++)
        if (table->sections[k].kind == OPTIONS)
            read_options(table, &table->sections[k]);
    place_all(table);
    int fd = open_unnamed(file);
    write_all(table, fd);
    free_table(table);
    return fd;
}
