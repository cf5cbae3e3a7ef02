// The flight recorder: the places that record, how far their texts are read, and which of them are switched on.
//
// A site is of the program, or of an object that may be unloaded. So what a dump has of it is copied when it becomes
// known, and it asks once more by itself whether it is on if switches have changed since: nobody else reads it.
#define _GNU_SOURCE
#include "recorder.h"

#include <stdlib.h>
#include <sys/mman.h>

// What is kept of sites: as in a flight file, one after the other. (Memory that isn't used isn't taken.)
enum { KEPT_ROOM = 1 << 24, INDEX = 2 * MOST_SITES };
static uint32_t *kept_sites;
static uint64_t kept_used;
static uint32_t site_count;
// Where each site is that was kept, found by its content: words of it, and 0 for none.
static uint32_t site_index[INDEX];

// Two times how often what is on may have changed, from 1 on.
uint32_t flight_turn = 2;

// A switch: the last one of its pattern, among all of which the one with the highest rank counts.
struct rule {
    struct rule *next;
    uint64_t state; // 2 times its rank, and 1 if it switches on
    char pattern[];
};

static struct rule *rules;
static uint64_t ranks;

// What a pattern is matched with: a site's "FILE:LINE FORMAT" or "FILE:LINE LEVEL FORMAT", in its parts.
struct subject {
    const char *part[3];
    size_t len[3];
};

static int byte_at(const struct subject *subject, size_t at)
{
    for (int part = 0; part < 3; part++) {
        if (at < subject->len[part])
            return (uint8_t)subject->part[part][at];
        at -= subject->len[part];
    }
    return -1;
}

// Whether a set of a pattern, which begins after its [, has the byte; `end` is where the pattern goes on, or null if
// this is no set.
static bool set_has(const char *set, int byte, const char **end)
{
    bool is_negated = *set == '!' || *set == '^', has = false;
    const char *at = set + is_negated;
    *end = NULL;
    for (bool is_first = true; *at && (*at != ']' || is_first); is_first = false) {
        at += *at == '\\' && at[1];
        int low = (uint8_t)*at++, high = low;
        if (*at == '-' && at[1] && at[1] != ']') {
            at += 1 + (at[1] == '\\' && at[2]);
            high = (uint8_t)*at++;
        }
        has |= low <= byte && byte <= high;
    }
    if (*at)
        *end = at + 1;
    return has != is_negated;
}

// Whether the pattern's next element matches the byte; `end` is where the pattern goes on. (A site may be first reached
// in a handler, where the C library's fnmatch isn't safe.)
static bool element_matches(const char *pattern, int byte, const char **end)
{
    if (*pattern == '[') {
        bool has = set_has(pattern + 1, byte, end);
        if (*end)
            return has;
    }
    bool is_any = *pattern == '?';
    pattern += *pattern == '\\' && pattern[1];
    *end = pattern + 1;
    return *pattern && (is_any || (uint8_t)*pattern == byte);
}

static bool matches(const char *pattern, const struct subject *subject)
{
    const char *after_star = NULL, *end;
    size_t at = 0, star_at = 0;
    for (int byte; (byte = byte_at(subject, at)) >= 0;) {
        if (*pattern == '*') {
            after_star = ++pattern;
            star_at = at;
        } else if (element_matches(pattern, byte, &end)) {
            pattern = end;
            at++;
        } else if (after_star) {
            pattern = after_star;
            at = ++star_at;
        } else
            return false;
    }
    while (*pattern == '*')
        pattern++;
    return !*pattern;
}

// Whether the switches leave a site on.
static bool is_left_on(const struct flight_site *site)
{
    static const char *const levels[] = {"", "ERROR ", "WARN ", "INFO ", "DEBUG ", "TRACE "};
    unsigned level = site->style >> SITE_LEVEL_SHIFT;
    char line[32] = ":";
    size_t len = 1;
    uint32_t power = 1;
    while (site->line / power >= 10)
        power *= 10;
    for (; power; power /= 10)
        line[len++] = (char)('0' + site->line / power % 10);
    line[len++] = ' ';
    for (const char *at = level < sizeof levels / sizeof *levels ? levels[level] : ""; *at; at++)
        line[len++] = *at;
    struct subject subject = {{site->file, line, site->format}, {site->file_len, len, site->format_len}};
    uint64_t last = 1;
    for (struct rule *rule = __atomic_load_n(&rules, __ATOMIC_SEQ_CST); rule; rule = rule->next) {
        uint64_t state = __atomic_load_n(&rule->state, __ATOMIC_SEQ_CST);
        if (state > last && matches(rule->pattern, &subject))
            last = state;
    }
    return last & 1;
}

// The switch of this pattern, which may be a new one.
static struct rule *rule_of(const char *pattern)
{
    for (struct rule *rule = rules; rule; rule = rule->next)
        if (!strcmp(rule->pattern, pattern))
            return rule;
    size_t size = strlen(pattern) + 1;
    struct rule *rule = malloc(sizeof *rule + size);
    if (!rule)
        return NULL;
    memcpy(rule->pattern, pattern, size);
    rule->state = 0;
    rule->next = rules;
    __atomic_store_n(&rules, rule, __ATOMIC_SEQ_CST);
    return rule;
}

// Switches a site as the switches say. (The turn is loaded first: if another one begins meanwhile, the site asks
// again.)
static bool apply_rules(struct flight_site *site, uint32_t turn)
{
    bool is_on = is_left_on(site);
    __atomic_store_n(&site->state, turn | is_on, __ATOMIC_SEQ_CST);
    return is_on;
}

void flight_turn_sites(void)
{
    (void)__atomic_add_fetch(&flight_turn, 2, __ATOMIC_SEQ_CST);
}

int flight_switch(const char *pattern, bool on)
{
    if (!pattern)
        return EINVAL;
    (void)pthread_mutex_lock(&flight_lock);
    struct rule *rule = rule_of(pattern);
    if (rule) {
        __atomic_store_n(&rule->state, 2 * ++ranks + on, __ATOMIC_SEQ_CST);
        flight_turn_sites();
    }
    (void)pthread_mutex_unlock(&flight_lock);
    return rule ? 0 : ENOMEM;
}

// A conversion of a format.
struct conversion {
    unsigned stars;  // how many arguments come before its own
    uint16_t limit;  // of its text
    bool is_text;    // %s
    bool takes;      // whether it has an argument of its own
    bool is_ordered; // not of the form %2$s
};

static const char *skip_digits(const char *at)
{
    while (*at >= '0' && *at <= '9')
        at++;
    return at;
}

// Reads the precision that a conversion may have, which limits a text.
static const char *read_precision(const char *at, struct conversion *read)
{
    read->limit = FLIGHT_NO_LIMIT;
    if (*at != '.')
        return at;
    if (*++at == '*') {
        read->limit = FLIGHT_LIMIT_BEFORE;
        read->stars++;
        return at + 1;
    }
    uint32_t limit = 0;
    for (; *at >= '0' && *at <= '9'; at++)
        limit = limit > FLIGHT_TEXT ? limit : limit * 10 + (uint32_t)(*at - '0');
    read->limit = (uint16_t)limit;
    return at;
}

// Reads the conversion that begins after this %, and answers where it ends.
static const char *read_conversion(const char *at, struct conversion *read)
{
    *read = (struct conversion){.is_ordered = true};
    while (*at && strchr("-+ #0'I", *at))
        at++;
    if (*at == '*') {
        read->stars++;
        at++;
    }
    at = skip_digits(at);
    read->is_ordered = *at != '$';
    at = read_precision(at, read);
    const char *modifiers = at;
    while (*at && strchr("hlLqjzt", *at))
        at++;
    read->is_text = *at == 's' && at == modifiers;
    read->takes = *at && *at != '%' && *at != 'm';
    return at + (*at != 0);
}

static uint8_t kind_of(const struct flight_site *site, unsigned argument)
{
    return __atomic_load_n(&site->kinds[argument], __ATOMIC_RELAXED);
}

// Finds out how far each text of a site may be read: only one of %s, which the format orders. Any other pointer to
// characters is an address. (Two threads may do this at once: both find the same. %.*s is often given bytes without an
// end, and %p any bytes. A format that orders its arguments, as %2$s does, is rare, and has no text.)
static void find_limits(struct flight_site *site)
{
    uint16_t limits[FLIGHT_ARGUMENTS];
    for (unsigned each = 0; each < FLIGHT_ARGUMENTS; each++)
        limits[each] = site->style == FLIGHT_PRINTF ? FLIGHT_NO_TEXT : FLIGHT_NO_LIMIT;
    unsigned argument = 0;
    for (const char *at = site->format; site->style == FLIGHT_PRINTF && *at;) {
        struct conversion read;
        if (*at++ != '%')
            continue;
        at = read_conversion(at, &read);
        if (!read.is_ordered)
            break;
        argument += read.stars;
        if (read.is_text && argument < FLIGHT_ARGUMENTS)
            limits[argument] = read.limit;
        argument += read.takes;
    }
    for (unsigned each = 0; each < FLIGHT_ARGUMENTS; each++) {
        __atomic_store_n(&site->limits[each], limits[each], __ATOMIC_RELAXED);
        if (limits[each] == FLIGHT_NO_TEXT && kind_of(site, each) == FLIGHT_CHARACTERS)
            __atomic_store_n(&site->kinds[each], FLIGHT_ADDRESS, __ATOMIC_RELAXED);
    }
}

// ---- What is kept of sites.

int flight_make_sites(void)
{
    if (kept_sites)
        return 0;
    int flags = MAP_PRIVATE | MAP_ANONYMOUS | MAP_NORESERVE;
    void *made = mmap(NULL, KEPT_ROOM, PROT_READ | PROT_WRITE, flags, -1, 0);
    kept_sites = made == MAP_FAILED ? NULL : made;
    return kept_sites ? 0 : ENOMEM;
}

const uint32_t *flight_next_site(const uint32_t *known)
{
    const uint32_t *next = known ? known + known[0] / sizeof *known : kept_sites;
    uint64_t used = (uint64_t)(next - kept_sites) * sizeof *next;
    bool is_there = used < KEPT_ROOM && __atomic_load_n(next, __ATOMIC_ACQUIRE);
    return is_there ? next : NULL;
}

// What a site has after its id, as it is kept: how long that is.
static size_t len_of(const struct flight_site *site)
{
    return 3 * 4 + (size_t)site->count + 4 + site->file_len + 4 + site->format_len;
}

static uint8_t *put(uint8_t *at, const void *bytes, size_t len)
{
    memcpy(at, bytes, len);
    return at + len;
}

static uint8_t *put_number(uint8_t *at, uint32_t value)
{
    return put(at, &value, sizeof value);
}

static void put_site(uint8_t *at, const struct flight_site *site)
{
    at = put_number(at, site->line);
    at = put_number(at, site->style);
    at = put_number(at, site->count);
    for (unsigned each = 0; each < site->count; each++)
        *at++ = kind_of(site, each);
    at = put(put_number(at, site->file_len), site->file, site->file_len);
    (void)put(put_number(at, site->format_len), site->format, site->format_len);
}

// Whether this is kept of the site.
static bool is_of(const uint32_t *known, const struct flight_site *site)
{
    const uint8_t *at = (const uint8_t *)(known + 3), *kinds = at + 3 * 4;
    const uint8_t *file = kinds + site->count + 4, *format = file + site->file_len + 4;
    const uint32_t numbers[] = {site->line, site->style, site->count};
    if (known[1] != 4 + len_of(site) || memcmp(at, numbers, sizeof numbers))
        return false;
    for (unsigned each = 0; each < site->count; each++)
        if (kinds[each] != kind_of(site, each))
            return false;
    return !memcmp(file - 4, &site->file_len, 4) && !memcmp(file, site->file, site->file_len)
        && !memcmp(format, site->format, site->format_len);
}

// Gets room after what is kept, or null. (A room is stated before the next one is given: so none is passed over.)
static uint32_t *get_room(size_t room)
{
    for (;;) {
        uint64_t used = __atomic_load_n(&kept_used, __ATOMIC_SEQ_CST);
        if (room > KEPT_ROOM - used)
            return NULL;
        uint32_t *head = kept_sites + used / sizeof *head, found = 0;
        bool is_got = __atomic_compare_exchange_n(head, &found, (uint32_t)room, false, __ATOMIC_SEQ_CST,
            __ATOMIC_SEQ_CST);
        (void)__atomic_compare_exchange_n(&kept_used, &used, used + (is_got ? room : found), false, __ATOMIC_SEQ_CST,
            __ATOMIC_SEQ_CST);
        if (is_got)
            return head;
    }
}

// Keeps a new site, with the next id, from 1 on, and puts it into the recorder's file.
static const uint32_t *keep(const struct flight_site *site)
{
    uint32_t count = load(&site_count);
    do {
        if (count >= MOST_SITES)
            return NULL;
    } while (!__atomic_compare_exchange_n(&site_count, &count, count + 1, false, __ATOMIC_SEQ_CST, __ATOMIC_SEQ_CST));
    size_t len = 4 + len_of(site);
    uint32_t *known = get_room((SITE_HEAD + len + 7) / 8 * 8);
    if (!known)
        return NULL;
    known[2] = count + 1;
    put_site((uint8_t *)(known + 3), site);
    __atomic_store_n(&known[1], (uint32_t)len, __ATOMIC_RELEASE);
    flight_put_site(known);
    flight_stamp();
    return known;
}

static uint64_t hash_bytes(uint64_t hash, const char *bytes, size_t len)
{
    for (size_t at = 0; at < len; at++)
        hash = (hash ^ (uint8_t)bytes[at]) * 0x100000001b3;
    return hash;
}

// What is kept of a site: of one with the same texts and kinds, if that is known (an object may be loaded again and
// again). Null: there are too many. (Two threads may both keep one.)
static const uint32_t *find_or_keep(const struct flight_site *site)
{
    uint64_t hash = hash_bytes(0xcbf29ce484222325 ^ site->line, site->file, site->file_len);
    hash = hash_bytes(hash, site->format, site->format_len);
    for (size_t at = (hash ^ hash >> 32) % INDEX;; at = (at + 1) % INDEX) {
        uint32_t place = load(&site_index[at]);
        if (place && is_of(kept_sites + place - 1, site))
            return kept_sites + place - 1;
        if (place)
            continue;
        const uint32_t *known = keep(site);
        while (known && !exchange_if(&site_index[at], 0, (uint32_t)(known - kept_sites) + 1))
            at = (at + 1) % INDEX;
        return known;
    }
}

// A site that wasn't known gets its id, under which it is in the recorder's file by then.
static bool learn(struct flight_site *site)
{
    find_limits(site);
    const uint32_t *known = find_or_keep(site);
    if (known)
        __atomic_store_n(&site->id, known[2], __ATOMIC_RELEASE);
    else
        flight_count_without_ring();
    return known;
}

// (One that can't become known asks again at each event, which is counted.)
static bool become_known(struct flight_site *site)
{
    uint32_t turn = load(&flight_turn);
    if (!load(&flight_running)) {
        __atomic_store_n(&site->state, turn, __ATOMIC_SEQ_CST);
        return false;
    }
    return (__atomic_load_n(&site->id, __ATOMIC_ACQUIRE) || learn(site)) && apply_rules(site, turn);
}

bool flight_register(struct flight_site *site)
{
    flight_hide();
    bool is_on = become_known(site);
    flight_show();
    return is_on;
}

// What a %.*s was given before its text.
static uint16_t limit_before(const uint8_t *at, const struct flight_site *site, unsigned index)
{
    int32_t limit;
    if (!index || (kind_of(site, index - 1) & 15) != sizeof limit)
        return 0;
    memcpy(&limit, at - sizeof limit, sizeof limit);
    return limit < 0 || limit > FLIGHT_TEXT ? FLIGHT_NO_LIMIT : (uint16_t)limit;
}

uint8_t *flight_put_text(uint8_t *at, const struct flight_site *site, unsigned index, const char *text)
{
    uint16_t limit = __atomic_load_n(&site->limits[index], __ATOMIC_RELAXED);
    if (limit == FLIGHT_NO_TEXT) {
        memcpy(at, &text, sizeof text);
        return at + sizeof text;
    }
    if (limit == FLIGHT_LIMIT_BEFORE)
        limit = limit_before(at, site, index);
    if (!text) {
        text = "(null)";
        limit = FLIGHT_NO_LIMIT;
    }
    size_t len = strnlen(text, limit > FLIGHT_TEXT ? FLIGHT_TEXT + 1 : limit);
    uint16_t head = (uint16_t)(len > FLIGHT_TEXT ? 0x8000 | FLIGHT_TEXT : len);
    len = head & 0x7fff;
    memcpy(at, &head, sizeof head);
    memcpy(at + sizeof head, text, len);
    return at + sizeof head + len;
}
