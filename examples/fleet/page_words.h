// The words of a page's data (docs/formats/pages.md, "Record words"): how many records there are, and their moments.
#ifndef PAGE_WORDS_H
#define PAGE_WORDS_H

#include "fleet.h"

struct page_span {
    uint64_t count, least, greatest; // of no record the least moment is above the greatest
};

enum { WORD_LONG, WORD_PADDING = 29, WORD_EXTEND, WORD_STAMP };

static inline uint32_t word_at(const uint8_t *data, size_t at)
{
    uint32_t word;
    memcpy(&word, data + at, sizeof word);
    return word;
}

static inline void put_word(uint8_t *data, size_t at, uint32_t word)
{
    memcpy(data + at, &word, sizeof word);
}

// How many bytes the word has that begins here, or 0 if there is none: the data's end, an ending padding, or a fault,
// which the call that packs the page has found.
static inline size_t word_len(const uint8_t *data, size_t len, size_t at)
{
    if (len - at < 4)
        return 0;
    uint32_t head = word_at(data, at), kind = head & 31;
    size_t took = kind && kind < WORD_PADDING ? 4 + 4 * (size_t)kind : 8;
    if (kind == WORD_PADDING && !(head >> 5))
        return 0;
    if ((kind == WORD_LONG || kind == WORD_PADDING) && len - at >= 8)
        took = 4 + (size_t)word_at(data, at + 4);
    return took >= 8 && len - at >= took ? took : 0;
}

// The span of a page whose time and data these are.
static inline struct page_span span_of(uint64_t time, const uint8_t *data, size_t len)
{
    struct page_span span = {.least = UINT64_MAX};
    for (size_t at = 0, took; (took = word_len(data, len, at)); at += took) {
        uint32_t head = word_at(data, at), kind = head & 31;
        uint64_t delta = head >> 5;
        if (kind >= WORD_EXTEND)
            delta += (uint64_t)word_at(data, at + 4) << 27;
        time = kind == WORD_STAMP ? delta : kind == WORD_PADDING ? time : time + delta;
        if (kind >= WORD_PADDING)
            continue;
        span.count++;
        span.least = time < span.least ? time : span.least;
        span.greatest = time > span.greatest ? time : span.greatest;
    }
    return span;
}

// The span of a piece that is a whole parcel.
static inline struct page_span span_of_piece(const uint8_t *piece)
{
    return span_of(number_at(piece, TIME_AT), piece + DATA_AT, number_at(piece, COMMIT_AT) & 0x3fffffff);
}
#endif
