// A strict reader of flight dumps for the tests, written from docs/formats/files.md alone: whatever isn't as it says
// there ends the program. It shares no code with the recorder or with `tracering-flight`.
#ifndef FLIGHT_READER_H
#define FLIGHT_READER_H

#include <stdbool.h>
#include <stdint.h>
#include <stdio.h>
#include <stdlib.h>
#include <string.h>

enum { RINGS = 65536, SITES = 65537, LEASES_LISTED = 8 };

struct read_site {
    bool is_there;
    uint32_t line, style, count; // style: with its level
    uint8_t kinds[16];
    char file[256], format[256];
};

struct read_lease {
    uint64_t first;
    uint32_t thread;
    char name[80];
};

struct read_record {
    uint64_t number, moment;
    const uint8_t *payload;
    size_t len;
};

struct read_ring {
    bool is_there;
    uint32_t slot, level, leases;
    uint64_t written, refused[6], pages, fill;
    struct read_lease lease[LEASES_LISTED];
    struct read_record *records;
    size_t count, room;
    uint64_t first, next; // the first record's number, and that after the last one's
};

struct read_dump {
    uint8_t *bytes;
    size_t len, at;
    uint32_t process, thread, signal, clock, sections;
    uint64_t started, started_real, dumped, dumped_real, without_ring;
    char program[80];
    struct read_ring rings[RINGS];
    struct read_site sites[SITES];
};

// What a check that fails ends with.
static inline void bad(const char *what, uint64_t at)
{
    fprintf(stderr, "flight: %s (%llu)\n", what, (unsigned long long)at);
    abort();
}

static inline void want(bool is_so, const char *what, uint64_t at)
{
    if (!is_so)
        bad(what, at);
}

static inline uint64_t number_at(const uint8_t *bytes, unsigned len)
{
    uint64_t number = 0;
    for (unsigned each = 0; each < len; each++)
        number |= (uint64_t)bytes[each] << (8 * each);
    return number;
}

static inline uint64_t get(struct read_dump *dump, unsigned len)
{
    want(dump->len - dump->at >= len, "a number is cut", dump->at);
    dump->at += len;
    return number_at(dump->bytes + dump->at - len, len);
}

static inline void get_text(struct read_dump *dump, char *text, size_t room)
{
    uint64_t len = get(dump, 4);
    want(len <= dump->len - dump->at && len < room, "a text is cut or too long", dump->at);
    memcpy(text, dump->bytes + dump->at, len);
    text[len] = 0;
    dump->at += len;
}

static inline void get_process(struct read_dump *dump)
{
    dump->process = (uint32_t)get(dump, 4);
    dump->thread = (uint32_t)get(dump, 4);
    dump->signal = (uint32_t)get(dump, 4);
    dump->clock = (uint32_t)get(dump, 4);
    dump->started = get(dump, 8);
    dump->started_real = get(dump, 8);
    dump->dumped = get(dump, 8);
    dump->dumped_real = get(dump, 8);
    dump->without_ring = get(dump, 8);
    get_text(dump, dump->program, sizeof dump->program);
}

static inline struct read_ring *get_ring(struct read_dump *dump)
{
    uint64_t number = get(dump, 4);
    want(number < RINGS && !dump->rings[number].is_there, "a ring's number", number);
    struct read_ring *ring = &dump->rings[number];
    ring->is_there = true;
    ring->slot = (uint32_t)get(dump, 4);
    ring->level = (uint32_t)get(dump, 4);
    ring->pages = get(dump, 4);
    ring->written = get(dump, 8);
    for (int each = 0; each < 6; each++)
        ring->refused[each] = get(dump, 8);
    ring->leases = (uint32_t)get(dump, 4);
    want(ring->leases <= LEASES_LISTED, "the leases", number);
    for (uint32_t each = 0; each < ring->leases; each++) {
        ring->lease[each].first = get(dump, 8);
        ring->lease[each].thread = (uint32_t)get(dump, 4);
        get_text(dump, ring->lease[each].name, sizeof ring->lease[each].name);
        want(ring->lease[each].first <= ring->written, "a lease begins after the last record", number);
        want(!each || ring->lease[each - 1].first <= ring->lease[each].first, "leases fall", number);
    }
    return ring;
}

static inline void add_record(struct read_ring *ring, uint64_t moment, const uint8_t *payload, size_t len)
{
    if (ring->count == ring->room) {
        ring->room = ring->room ? 2 * ring->room : 64;
        ring->records = (struct read_record *)realloc(ring->records, ring->room * sizeof *ring->records);
        want(ring->records != NULL, "no memory", ring->room);
    }
    want(!ring->count || ring->records[ring->count - 1].moment <= moment, "moments fall", ring->next);
    struct read_record *record = &ring->records[ring->count++];
    record->number = ring->next++;
    record->moment = moment;
    record->payload = payload;
    record->len = len;
}

// The words of a page's data, which end exactly where it does.
static inline void read_words(struct read_ring *ring, const uint8_t *data, uint64_t len, uint64_t time)
{
    for (uint64_t at = 0; at < len;) {
        want(len - at >= 8, "a word is cut", at);
        uint64_t word = number_at(data + at, 4), kind = word & 31, second = number_at(data + at + 4, 4);
        time += word >> 5;
        if (kind == 30) {
            time += second << 27;
            at += 8;
            continue;
        }
        want(kind <= 28, "a kind of word that no recorder writes", kind);
        uint64_t header = kind ? 4 : 8, payload = kind ? 4 * kind : second - 4;
        want(kind || (second >= 8 && second % 4 == 0), "a length", second);
        want(payload <= len - at - header, "a payload is cut", at);
        add_record(ring, time, data + at + header, payload);
        at += header + payload;
    }
}

// A page of a ring, whose records follow those of the one before, or others that were overwritten.
static inline void get_page(struct read_dump *dump, uint64_t number, struct read_ring *ring, uint64_t len)
{
    const uint8_t *page = dump->bytes + dump->at;
    want(len >= 48 && len <= dump->len - dump->at, "a page is cut", dump->at);
    uint64_t fill = number_at(page + 8, 8), first = number_at(page + 16, 8), commit = number_at(page + 40, 8);
    want(number_at(page, 8) == number % 256, "a page of another ring", number);
    want(!number_at(page + 24, 8), "a page that states missed records", number);
    want(commit == len - 48, "a page has other data than bytes", commit);
    if (ring->count)
        want(fill > ring->fill && first == ring->next, "a page doesn't follow the one before", first);
    else
        ring->first = first;
    ring->fill = fill;
    ring->next = first;
    read_words(ring, page + 48, commit, number_at(page + 32, 8));
    want(ring->next > first, "a page without a record", first);
    dump->at += len;
}

static inline void get_site(struct read_dump *dump)
{
    uint64_t id = get(dump, 4);
    want(id > 0 && id < SITES && !dump->sites[id].is_there, "a site's id", id);
    struct read_site *site = &dump->sites[id];
    site->is_there = true;
    site->line = (uint32_t)get(dump, 4);
    site->style = (uint32_t)get(dump, 4);
    want((site->style & 15) <= 2 && site->style >> 4 <= 4, "a site's style", id);
    site->count = (uint32_t)get(dump, 4);
    want(site->count <= 8, "a site has too many arguments", site->count);
    for (uint32_t each = 0; each < site->count; each++) {
        uint8_t kind = site->kinds[each] = (uint8_t)get(dump, 1), len = kind & 15, what = kind >> 4;
        want(what <= 4 && (what == 4 ? len == 0 : len == 1 || len == 2 || len == 4 || len == 8), "a kind", kind);
    }
    get_text(dump, site->file, sizeof site->file);
    get_text(dump, site->format, sizeof site->format);
}

// Where an argument of a record is, with its bytes; a text's are without its length. `index` may be too large: then it
// is where the arguments end.
static inline const uint8_t *argument(const struct read_dump *dump, const struct read_record *record, uint32_t index,
    size_t *len, bool *is_cut)
{
    want(record->len >= 4, "a payload without an id", record->number);
    uint64_t id = number_at(record->payload, 4);
    want(id < SITES && dump->sites[id].is_there, "a record of no site", id);
    const struct read_site *site = &dump->sites[id];
    size_t at = 4;
    *len = 0;
    for (uint32_t each = 0; each <= index && each < site->count; each++) {
        at += *len;
        *len = site->kinds[each] & 15;
        if (site->kinds[each] >> 4 == 4) {
            want(record->len - at >= 2, "a text's length is cut", record->number);
            uint64_t head = number_at(record->payload + at, 2);
            *len = head & 0x7fff;
            *is_cut = head >> 15;
            want(*len <= 255, "a text is too long", head);
            at += 2;
        }
        want(*len <= record->len - at, "an argument is cut", record->number);
    }
    if (index >= site->count)
        at += *len;
    return record->payload + at;
}

static inline uint64_t argument_number(const struct read_dump *dump, const struct read_record *record, uint32_t index)
{
    size_t len;
    bool is_cut;
    const uint8_t *bytes = argument(dump, record, index, &len, &is_cut);
    want(len >= 1 && len <= 8, "no number", len);
    return number_at(bytes, (unsigned)len);
}

static inline const struct read_site *site_of(const struct read_dump *dump, const struct read_record *record)
{
    return &dump->sites[number_at(record->payload, 4)];
}

// Each record has exactly the arguments of its site, and zeros up to a multiple of 4. Nothing of a ring is unaccounted.
static inline void check_ring(const struct read_dump *dump, const struct read_ring *ring)
{
    for (size_t each = 0; each < ring->count; each++) {
        const struct read_record *record = &ring->records[each];
        size_t len;
        bool is_cut;
        const uint8_t *end = argument(dump, record, UINT32_MAX, &len, &is_cut);
        size_t rest = record->len - (size_t)(end - record->payload);
        want(rest < 4, "a payload is longer than its arguments", record->number);
        while (rest--)
            want(*end++ == 0, "bytes after the arguments", record->number);
    }
    want(ring->count ? ring->next <= ring->written : !ring->next, "more records than were written", ring->written);
    want(!ring->count || ring->next == ring->written, "the newest records aren't there", ring->next);
}

// The checksum CRC-32C of these bytes, bit by bit.
static inline uint32_t checksum_of(const uint8_t *bytes, size_t len)
{
    uint32_t sum = UINT32_MAX;
    for (size_t at = 0; at < len; at++) {
        sum ^= bytes[at];
        for (int bit = 0; bit < 8; bit++)
            sum = sum >> 1 ^ (sum & 1 ? 0x82f63b78 : 0);
    }
    return ~sum;
}

static inline void read_sections(struct read_dump *dump)
{
    struct read_ring *ring = NULL;
    uint64_t number = 0, pages = 0;
    int stage = 0; // 0: PROC is next; 1: rings; 2: sites; 3: the end
    for (; stage < 3; dump->sections++) {
        const uint8_t *head = dump->bytes + dump->at;
        const char *kind = (const char *)head;
        uint64_t name = get(dump, 4), zeros = get(dump, 4), len = get(dump, 8), end = dump->at + len;
        (void)name;
        want(!zeros && dump->len - dump->at >= 8 && len <= dump->len - dump->at - 8, "a section's head", dump->at);
        bool is_site = !memcmp(kind, "SITE", 4), is_end = !memcmp(kind, "ENDS", 4);
        if (stage == 0) {
            want(!memcmp(kind, "PROC", 4), "the first section", dump->at);
            get_process(dump);
            stage = 1;
        } else if (pages) {
            want(!memcmp(kind, "PAGE", 4), "a page is expected", dump->at);
            get_page(dump, number, ring, len);
            pages--;
        } else if (stage == 1 && !memcmp(kind, "RING", 4)) {
            uint64_t next = number_at(dump->bytes + dump->at, 4);
            want(!ring || next > number, "rings fall", next);
            ring = get_ring(dump);
            number = next;
            pages = ring->pages;
        } else if (is_site) {
            get_site(dump);
            stage = 2;
        } else {
            want(is_end && get(dump, 4) == dump->sections && !get(dump, 4), "an unknown section or end", dump->at);
            stage = 3;
        }
        want(dump->at == end, "a section's length", dump->at);
        want(get(dump, 8) == checksum_of(head, 16 + len), "a section's checksum", end);
    }
}

static inline void free_dump(struct read_dump *dump)
{
    for (int each = 0; each < RINGS; each++)
        free(dump->rings[each].records);
    free(dump->bytes);
    free(dump);
}

// Reads a dump, and checks all that a dump can be checked for.
static inline struct read_dump *open_dump(const char *path)
{
    struct read_dump *dump = (struct read_dump *)calloc(1, sizeof *dump);
    FILE *file = fopen(path, "rb");
    want(dump && file, "no dump", 0);
    want(!fseek(file, 0, SEEK_END), "no seek", 0);
    dump->len = (size_t)ftell(file);
    rewind(file);
    dump->bytes = (uint8_t *)malloc(dump->len + 1);
    want(dump->bytes && fread(dump->bytes, 1, dump->len, file) == dump->len, "no read", dump->len);
    fclose(file);
    want(dump->len >= 16 && !memcmp(dump->bytes, "TRFLIGHT", 8), "no dump", dump->len);
    dump->at = 8;
    want(get(dump, 4) == 2 && get(dump, 4) == 0, "the version", 8);
    read_sections(dump);
    want(dump->at == dump->len, "bytes after the end", dump->at);
    for (int each = 0; each < RINGS; each++)
        if (dump->rings[each].is_there)
            check_ring(dump, &dump->rings[each]);
    return dump;
}

#endif
