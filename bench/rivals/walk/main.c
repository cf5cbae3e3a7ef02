// A bare walk over the records of a page image from standard input, to measure the reading of tracering against:
// the same tests of each word as docs/formats/pages.md has them, nothing copied, and at the end one line printed. Its
// exit status is 0 if the image has at most 4,096 bytes and reads.
#include <stdint.h>
#include <stdio.h>
#include <string.h>

struct walked {
    uint64_t records, time, bytes;
};

static uint32_t word_at(const unsigned char *at) {
    uint32_t word;
    memcpy(&word, at, sizeof word);
    return word;
}

// Walks over the data; 0 where it reads.
__attribute__((noinline)) static int walk(const unsigned char *data, size_t size, uint64_t time, struct walked *to) {
    size_t at = 0;
    while (at < size) {
        if (size - at < 4) return 1;
        uint32_t word = word_at(data + at), kind = word & 31;
        uint64_t delta = word >> 5;
        size_t skip;
        if (kind >= 1 && kind <= 28) {
            skip = 4 + 4 * kind;
        } else {
            if (kind == 29 && delta == 0) return 0;
            if (size - at < 8) return 1;
            uint64_t second = word_at(data + at + 4);
            if (kind == 30) delta += second << 27;
            if (kind == 31) time = 0, delta += second << 27;
            if (kind == 0 || kind == 29) {
                if (second < 4 || second % 4) return 1;
                skip = 4 + second;
            } else {
                skip = 8;
            }
        }
        if (skip > size - at) return 1;
        if (kind != 29 && __builtin_add_overflow(time, delta, &time)) return 1;
        if (kind <= 28) {
            to->records++;
            to->bytes += skip;
            to->time = time;
        }
        at += skip;
    }
    return 0;
}

int main(void) {
    static unsigned char image[4097];
    size_t len = fread(image, 1, sizeof image, stdin);
    struct walked to = {0};
    if (len < 16 || len > 4096) return 1;
    uint64_t time, commit;
    memcpy(&time, image, 8);
    memcpy(&commit, image + 8, 8);
    size_t size = commit & 0x3fffffff;
    if (size > len - 16) return 1;
    if ((commit >> 30 & 3) == 3 && len - 16 - size < 8) return 1;
    int fault = walk(image + 16, size, time, &to);
    printf("%llu %llu %llu\n", (unsigned long long)to.records, (unsigned long long)to.time, (unsigned long long)to.bytes);
    return fault;
}
