#include "arguments.h"

#include <stdio.h>
#include <stdlib.h>
#include <string.h>

enum { TEXT_HEAD = 2, TEXT_LENGTH = 0x7fff, TEXT_CUT = 0x8000 };

// Reads a number of `size` bytes. It is extended by its sign if it has one.
static uint64_t read_number(const uint8_t *at, uint8_t class, uint8_t size)
{
    uint64_t value = number_at(at, size);
    if (class == CLASS_SIGNED && size < 8 && value >> (8 * size - 1))
        value |= ~(uint64_t)0 << (8 * size);
    return value;
}

// Reads an argument of this kind from the front. How many bytes it takes; 0: it isn't whole.
static size_t read_argument(struct argument *argument, uint8_t kind, struct bytes payload)
{
    *argument = (struct argument){kind_class(kind), kind_size(kind), false, 0, {NULL, 0}};
    if (argument->class != CLASS_TEXT) {
        if (payload.len < argument->size)
            return 0;
        argument->value = read_number(payload.at, argument->class, argument->size);
        return argument->size;
    }
    if (payload.len < TEXT_HEAD)
        return 0;
    uint32_t head = (uint32_t)number_at(payload.at, TEXT_HEAD);
    argument->cut = head & TEXT_CUT;
    argument->text = (struct bytes){payload.at + TEXT_HEAD, head & TEXT_LENGTH};
    return argument->text.len > payload.len - TEXT_HEAD ? 0 : TEXT_HEAD + argument->text.len;
}

void read_arguments(struct arguments *arguments, const struct site *site, struct bytes payload)
{
    arguments->count = arguments->next = 0;
    for (size_t k = 0; k < site->kinds.len; k++) {
        size_t taken = read_argument(&arguments->at[k], site->kinds.at[k], payload);
        if (!taken)
            break;
        payload.at += taken;
        payload.len -= taken;
        arguments->count++;
    }
    arguments->rest = payload.len;
}

const struct argument *next_argument(struct arguments *arguments)
{
    return arguments->next < arguments->count ? &arguments->at[arguments->next++] : NULL;
}

double double_of(const struct argument *argument)
{
    if (argument->size == 4) {
        uint32_t bits = (uint32_t)argument->value;
        float value;
        memcpy(&value, &bits, sizeof value);
        return (double)value;
    }
    double value;
    memcpy(&value, &argument->value, sizeof value);
    return value;
}

void add_argument_text(struct text *text, const struct argument *argument)
{
    add_bytes(text, argument->text.at, argument->text.len);
    if (argument->cut)
        add_string(text, "...");
}

void add_shortest(struct text *text, const struct argument *argument)
{
    char digits[64];
    double value = double_of(argument);
    bool is_short = argument->size == 4;
    // This many digits survive the way to such a value and back; zeros at the end are no digits of the shortest.
    int sure = is_short ? 6 : 15, most = is_short ? 9 : 17;
    for (int count = sure; count <= most; count++) {
        snprintf(digits, sizeof digits, "%.*e", count - 1, value);
        if (is_short ? (double)strtof(digits, NULL) == value : strtod(digits, NULL) == value)
            break;
    }
    char *exponent = strchr(digits, 'e'), *end = exponent;
    if (!exponent) {
        add_string(text, digits);
        return;
    }
    while (end > digits + 1 && (end[-1] == '0' || end[-1] == '.') && memchr(digits, '.', (size_t)(end - digits)))
        end--;
    add_bytes(text, digits, (size_t)(end - digits));
    add_string(text, exponent);
}
