// Writes records of 8 to 112 bytes, evenly spread, into pages of 4,080 bytes, for `bench/run write`: by the static
// library of bench/programs/write, by a bare memcpy, and by a plain C writer of the same format. Arguments: the way,
// and how many records.
#include <stdint.h>
#include <stdio.h>
#include <stdlib.h>
#include <string.h>

enum { SIZE = 4080, POOL = 256 };

size_t write_in_place(const uint8_t *pool, size_t pool_len, const uint8_t *lens, size_t lens_len);
size_t write_at_once(const uint8_t *pool, size_t pool_len, const uint8_t *lens, size_t lens_len);
size_t write_in_steps(const uint8_t *pool, size_t pool_len, const uint8_t *lens, size_t lens_len);
size_t write_in_one(const uint8_t *pool, size_t pool_len, const uint8_t *lens, size_t lens_len);

static uint8_t page[SIZE];

__attribute__((noinline)) static size_t write_bare(const uint8_t *pool, const uint8_t *lens, size_t count)
{
    size_t end = 0;
    for (size_t i = 0; i < count; i++) {
        size_t len = lens[i];
        if (SIZE - end < len)
            end = 0;
        memcpy(page + end, pool, len);
        end += len;
    }
    return end;
}

__attribute__((noinline)) static size_t write_plain(const uint8_t *pool, const uint8_t *lens, size_t count)
{
    size_t end = 0;
    uint64_t prev = 0;
    for (size_t i = 0; i < count; i++) {
        size_t len = lens[i];
        size_t slot = len ? (len + 3) & ~(size_t)3 : 4;
        uint64_t delta = end ? i - prev : 0;
        size_t extend = delta >> 27 ? 8 : 0;
        size_t head = slot <= 112 ? 4 : 8;
        if (SIZE - end < extend + head + slot) {
            end = 0;
            delta = 0;
            extend = 0;
        }
        uint8_t *out = page + end;
        uint32_t word;
        if (extend) {
            word = 30 | (uint32_t)(delta % (1 << 27)) << 5;
            memcpy(out, &word, 4);
            word = (uint32_t)(delta >> 27);
            memcpy(out + 4, &word, 4);
            out += 8;
            delta = 0;
        }
        word = (slot <= 112 ? slot / 4 : 0) | (uint32_t)delta << 5;
        memcpy(out, &word, 4);
        if (slot > 112) {
            word = slot + 4;
            memcpy(out + 4, &word, 4);
        }
        word = 0;
        memcpy(out + head + slot - 4, &word, 4);
        memcpy(out + head, pool, len);
        end += extend + head + slot;
        prev = i;
    }
    return end;
}

int main(int argc, char **argv)
{
    if (argc != 3)
        return 2;
    size_t count = strtoul(argv[2], NULL, 10);
    uint8_t pool[POOL];
    memset(pool, 0x5a, sizeof pool);
    uint8_t *lens = malloc(count + 1);
    if (!lens)
        return 4;
    for (size_t i = 0; i < count; i++)
        lens[i] = 8 + i * 13 % 105;
    size_t end;
    if (!strcmp(argv[1], "bare"))
        end = write_bare(pool, lens, count);
    else if (!strcmp(argv[1], "plain"))
        end = write_plain(pool, lens, count);
    else if (!strcmp(argv[1], "in_place"))
        end = write_in_place(pool, POOL, lens, count);
    else if (!strcmp(argv[1], "at_once"))
        end = write_at_once(pool, POOL, lens, count);
    else if (!strcmp(argv[1], "in_steps"))
        end = write_in_steps(pool, POOL, lens, count);
    else if (!strcmp(argv[1], "in_one"))
        end = write_in_one(pool, POOL, lens, count);
    else
        return 2;
    printf("%zu\n", end);
    free(lens);
    return 0;
}
