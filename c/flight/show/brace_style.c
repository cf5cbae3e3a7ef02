// Formats as Rust's format does: {}, {0}, {:?}, and what may be after the colon: fill and alignment, sign, #, 0, width,
// precision, and the type. Arguments with names, and what doesn't fit an argument's kind, are given as they are
// written, in angle brackets.
#include "arguments.h"

#include <math.h>
#include <stdio.h>
#include <stdlib.h>
#include <string.h>

enum { LONGEST_FIELD = 1000, POINTER_WIDTH = 18, NONE = -1 };

struct spec {
    struct bytes fill; // one character
    char align;        // one of <^>, or 0
    bool plus, alternate, zero, is_wrong;
    int width, precision; // or NONE
    struct bytes type;
};

// What is left of a replacement, without its braces.
struct rest {
    const uint8_t *at, *end;
};

// A number as it is printed: sign and prefix stay before zeros that fill its field.
struct number {
    const char *sign, *prefix;
    struct text digits;
};

static bool skip(struct rest *rest, char letter)
{
    if (rest->at == rest->end || *rest->at != (uint8_t)letter)
        return false;
    rest->at++;
    return true;
}

static bool is_space(uint8_t byte)
{
    return byte == ' ' || (byte >= '\t' && byte <= '\r');
}

static void skip_spaces(struct rest *rest)
{
    while (rest->at < rest->end && is_space(*rest->at))
        rest->at++;
}

// Reads digits. NONE: there are none.
static int read_digits(struct rest *rest)
{
    int number = NONE;
    while (rest->at < rest->end && *rest->at >= '0' && *rest->at <= '9') {
        number = number == NONE ? 0 : number;
        if (number <= LONGEST_FIELD)
            number = 10 * number + (*rest->at - '0');
        rest->at++;
    }
    return number;
}

static const struct argument *argument_at(const struct arguments *arguments, int number)
{
    return (size_t)number < arguments->count ? &arguments->at[number] : NULL;
}

// The value of an argument that states a width or a precision.
static int count_of(struct spec *spec, const struct argument *argument)
{
    spec->is_wrong |= !is_integer(argument) || argument->value > LONGEST_FIELD;
    return spec->is_wrong ? NONE : (int)argument->value;
}

// Reads a width or a precision: digits, or the number of an argument and a dollar.
static int read_count(struct rest *rest, struct spec *spec, const struct arguments *arguments)
{
    int number = read_digits(rest);
    if (number != NONE && skip(rest, '$'))
        return count_of(spec, argument_at(arguments, number));
    spec->is_wrong |= number > LONGEST_FIELD;
    return number;
}

static bool is_align(const uint8_t *at, const uint8_t *end)
{
    return at < end && (*at == '<' || *at == '^' || *at == '>');
}

static void read_fill(struct rest *rest, struct spec *spec)
{
    size_t len = 0;
    while (rest->at + len < rest->end && (len == 0 || (rest->at[len] & 0xc0) == 0x80))
        len++;
    if (is_align(rest->at + len, rest->end)) {
        spec->fill = (struct bytes){rest->at, len};
        rest->at += len;
    }
    if (is_align(rest->at, rest->end))
        spec->align = (char)*rest->at++;
}

// Reads what is after the colon.
static void read_spec(struct rest *rest, struct spec *spec, struct arguments *arguments)
{
    read_fill(rest, spec);
    spec->plus = skip(rest, '+');
    if (!spec->plus)
        (void)skip(rest, '-');
    spec->alternate = skip(rest, '#');
    bool is_argument = rest->end - rest->at > 1 && rest->at[1] == '$';
    spec->zero = !is_argument && skip(rest, '0');
    spec->width = read_count(rest, spec, arguments);
    if (skip(rest, '.')) {
        if (skip(rest, '*'))
            spec->precision = count_of(spec, next_argument(arguments));
        else
            spec->precision = read_count(rest, spec, arguments);
        spec->is_wrong |= spec->precision == NONE;
    }
    while (rest->end > rest->at && is_space(rest->end[-1]))
        rest->end--;
    spec->type = (struct bytes){rest->at, (size_t)(rest->end - rest->at)};
}

static bool is_type(const struct spec *spec, const char *name)
{
    return spec->type.len == strlen(name) && (!spec->type.len || !memcmp(spec->type.at, name, spec->type.len));
}

static size_t count_characters(struct bytes bytes)
{
    size_t count = 0;
    for (size_t k = 0; k < bytes.len; k++)
        count += (bytes.at[k] & 0xc0) != 0x80;
    return count;
}

// Adds bytes in a field of the spec's width.
static void add_field(struct text *text, const struct spec *spec, struct bytes bytes, char usual)
{
    size_t len = count_characters(bytes), width = spec->width == NONE ? 0 : (size_t)spec->width;
    size_t fill = width > len ? width - len : 0;
    char align = spec->align ? spec->align : usual;
    size_t before = align == '<' ? 0 : align == '^' ? fill / 2 : fill;
    add_fill(text, (const char *)spec->fill.at, spec->fill.len, before);
    add_bytes(text, bytes.at, bytes.len);
    add_fill(text, (const char *)spec->fill.at, spec->fill.len, fill - before);
}

static void add_number(struct text *text, const struct spec *spec, const struct number *number)
{
    struct text whole = {NULL, 0, 0};
    size_t len = strlen(number->sign) + strlen(number->prefix) + number->digits.len;
    add_string(&whole, number->sign);
    add_string(&whole, number->prefix);
    if (spec->zero && spec->width > 0 && (size_t)spec->width > len)
        add_fill(&whole, "0", 1, (size_t)spec->width - len);
    add_bytes(&whole, number->digits.at, number->digits.len);
    add_field(text, spec, bytes_of(&whole), '>');
    free_text(&whole);
}

// Adds the digits of a number to this base, which is a power of 2.
static void add_power_digits(struct text *text, uint64_t value, unsigned bits, const char *digits)
{
    unsigned count = 1;
    while (count * bits < 64 && value >> (count * bits))
        count++;
    for (unsigned k = count; k > 0; k--)
        add_bytes(text, &digits[value >> ((k - 1) * bits) & ((1u << bits) - 1)], 1);
}

// Makes the digits of an integer with an exponent: those before its last zeros.
static void make_exponent(struct number *number, uint64_t size, char letter)
{
    char digits[24];
    int len = snprintf(digits, sizeof digits, "%llu", (unsigned long long)size), kept = len;
    while (kept > 1 && digits[kept - 1] == '0')
        kept--;
    add_bytes(&number->digits, digits, 1);
    if (kept > 1)
        add_string(&number->digits, ".");
    add_bytes(&number->digits, digits + 1, (size_t)kept - 1);
    add_format(&number->digits, "%c%d", letter, len - 1);
}

static void make_decimal(struct number *number, const struct argument *argument, const struct spec *spec)
{
    bool is_negative = argument->class == CLASS_SIGNED && argument->value >> 63;
    uint64_t size = is_negative ? 0 - argument->value : argument->value;
    number->sign = is_negative ? "-" : number->sign;
    if (is_type(spec, "e") || is_type(spec, "E"))
        make_exponent(number, size, (char)spec->type.at[0]);
    else
        add_format(&number->digits, "%llu", (unsigned long long)size);
}

static bool add_integer(struct text *text, const struct spec *spec, const struct argument *argument)
{
    static const struct {
        const char *type, *prefix, *digits;
        unsigned bits;
    } bases[] = {{"x", "0x", "0123456789abcdef", 4}, {"X", "0x", "0123456789ABCDEF", 4}, {"o", "0o", "01234567", 3},
        {"b", "0b", "01", 1}, {"x?", "0x", "0123456789abcdef", 4}, {"X?", "0x", "0123456789ABCDEF", 4}};
    struct number number = {spec->plus ? "+" : "", "", {NULL, 0, 0}};
    uint64_t unsigned_value = argument->value << (64 - 8 * argument->size) >> (64 - 8 * argument->size);
    for (size_t k = 0; k < sizeof bases / sizeof *bases; k++)
        if (is_type(spec, bases[k].type)) {
            number.prefix = spec->alternate ? bases[k].prefix : "";
            add_power_digits(&number.digits, unsigned_value, bases[k].bits, bases[k].digits);
        }
    bool is_exponent = is_type(spec, "e") || is_type(spec, "E");
    if (!number.digits.len && (is_type(spec, "") || is_type(spec, "?") || (is_exponent && spec->precision == NONE)))
        make_decimal(&number, argument, spec);
    bool is_known = number.digits.len > 0;
    if (is_known)
        add_number(text, spec, &number);
    free_text(&number.digits);
    return is_known;
}

// Adds this many characters of a text's front.
static struct bytes front_of(struct bytes bytes, int precision)
{
    size_t len = 0;
    for (int k = 0; len < bytes.len && k < precision; k++) {
        len++;
        while (len < bytes.len && (bytes.at[len] & 0xc0) == 0x80)
            len++;
    }
    return (struct bytes){bytes.at, len};
}

static void add_quoted(struct text *text, struct bytes bytes)
{
    add_string(text, "\"");
    for (size_t k = 0; k < bytes.len; k++) {
        uint8_t byte = bytes.at[k];
        switch (byte) {
        case '"': add_string(text, "\\\""); break;
        case '\\': add_string(text, "\\\\"); break;
        case '\n': add_string(text, "\\n"); break;
        case '\t': add_string(text, "\\t"); break;
        case '\r': add_string(text, "\\r"); break;
        case '\0': add_string(text, "\\0"); break;
        default:
            if (byte < 0x20 || byte == 0x7f)
                add_format(text, "\\u{%x}", byte);
            else
                add_bytes(text, &byte, 1);
        }
    }
    add_string(text, "\"");
}

static bool add_text(struct text *text, const struct spec *spec, const struct argument *argument)
{
    struct text whole = {NULL, 0, 0};
    add_argument_text(&whole, argument);
    bool is_plain = is_type(spec, ""), is_quoted = is_type(spec, "?");
    struct bytes shown = bytes_of(&whole);
    if (is_plain)
        add_field(text, spec, spec->precision == NONE ? shown : front_of(shown, spec->precision), '<');
    else if (is_quoted)
        add_quoted(text, bytes_of(&whole));
    free_text(&whole);
    return is_plain || is_quoted;
}

static bool add_address(struct text *text, struct spec spec, const struct argument *argument)
{
    if (!is_type(&spec, "p") && !is_type(&spec, "?"))
        return false;
    struct number number = {spec.plus ? "+" : "", "0x", {NULL, 0, 0}};
    if (spec.alternate) {
        spec.zero = true;
        spec.width = spec.width == NONE ? POINTER_WIDTH : spec.width;
    }
    add_power_digits(&number.digits, argument->value, 4, "0123456789abcdef");
    add_number(text, &spec, &number);
    free_text(&number.digits);
    return true;
}

// Adds digits and exponent, as in 1.25e-7, from what C prints: there the exponent has a sign and two digits.
static void add_exponent(struct text *text, const char *printed, char letter)
{
    const char *exponent = strchr(printed, 'e');
    add_bytes(text, printed, (size_t)(exponent - printed));
    add_format(text, "%c%d", letter, atoi(exponent + 1));
}

// Adds the shortest digits without an exponent, and with this many after the point at least.
static void add_plain(struct text *text, const char *shortest, int least)
{
    char digits[32];
    int count = 0, exponent = atoi(strchr(shortest, 'e') + 1);
    for (const char *at = shortest; *at != 'e'; at++)
        if (*at != '.')
            digits[count++] = *at;
    digits[count] = 0;
    int whole = exponent + 1; // digits before the point
    if (whole <= 0)
        add_string(text, "0");
    add_bytes(text, digits, (size_t)(whole < 0 ? 0 : whole < count ? whole : count));
    add_fill(text, "0", 1, whole > count ? (size_t)(whole - count) : 0);
    if (whole >= count && !least)
        return;
    add_string(text, ".");
    add_fill(text, "0", 1, whole < 0 ? (size_t)-whole : 0);
    if (whole < count)
        add_string(text, digits + (whole < 0 ? 0 : whole));
    else
        add_fill(text, "0", 1, (size_t)least);
}

static void add_shortest_digits(struct text *text, const struct spec *spec, const struct argument *argument)
{
    struct text shortest = {NULL, 0, 0};
    double value = double_of(argument);
    add_shortest(&shortest, argument);
    add_bytes(&shortest, "", 1);
    bool is_debug = is_type(spec, "?"), is_far = value != 0 && (value < 1e-4 || value >= 1e16);
    if (spec->type.len && !is_debug)
        add_exponent(text, shortest.at, (char)spec->type.at[0]);
    else if (is_debug && is_far)
        add_exponent(text, shortest.at, 'e');
    else
        add_plain(text, shortest.at, is_debug);
    free_text(&shortest);
}

static void add_digits(struct text *text, const struct spec *spec, const struct argument *argument)
{
    char printed[LONGEST_FIELD + 512];
    double value = double_of(argument);
    bool is_exponent = spec->type.len && !is_type(spec, "?");
    if (isinf(value)) {
        add_string(text, "inf");
    } else if (isnan(value)) {
        add_string(text, "NaN");
    } else if (spec->precision == NONE) {
        add_shortest_digits(text, spec, argument);
    } else if (is_exponent) {
        snprintf(printed, sizeof printed, "%.*e", spec->precision, value);
        add_exponent(text, printed, (char)spec->type.at[0]);
    } else {
        snprintf(printed, sizeof printed, "%.*f", spec->precision, value);
        add_string(text, printed);
    }
}

static bool add_floating(struct text *text, const struct spec *spec, const struct argument *argument)
{
    if (!is_type(spec, "") && !is_type(spec, "?") && !is_type(spec, "e") && !is_type(spec, "E"))
        return false;
    double value = double_of(argument);
    struct argument positive = *argument;
    struct number number = {isnan(value) ? "" : signbit(value) ? "-" : spec->plus ? "+" : "", "", {NULL, 0, 0}};
    positive.value &= ~((uint64_t)1 << (8 * argument->size - 1));
    add_digits(&number.digits, spec, &positive);
    add_number(text, spec, &number);
    free_text(&number.digits);
    return true;
}

// Adds the argument as the spec says. False: it doesn't fit.
static bool add_formatted(struct text *text, const struct spec *spec, const struct argument *argument)
{
    if (spec->is_wrong || !argument)
        return false;
    switch (argument->class) {
    case CLASS_FLOATING: return add_floating(text, spec, argument);
    case CLASS_ADDRESS: return add_address(text, *spec, argument);
    case CLASS_TEXT: return add_text(text, spec, argument);
    default: return add_integer(text, spec, argument);
    }
}

// Adds what is between two braces.
static void add_replacement(struct text *text, struct bytes body, struct arguments *arguments)
{
    struct rest rest = {body.at, body.at + body.len};
    struct spec spec = {bytes_of_string(" "), 0, false, false, false, false, NONE, NONE, {NULL, 0}};
    int number = read_digits(&rest);
    skip_spaces(&rest);
    if (skip(&rest, ':'))
        read_spec(&rest, &spec, arguments);
    else
        spec.is_wrong = rest.at != rest.end;
    const struct argument *argument = number == NONE ? next_argument(arguments) : argument_at(arguments, number);
    if (!add_formatted(text, &spec, argument)) {
        add_string(text, "<{");
        add_bytes(text, body.at, body.len);
        add_string(text, "}>");
    }
}

// The brace that ends a replacement which begins here, or null. It may have another as its fill: {:}>5}.
static const uint8_t *end_of_replacement(struct rest rest)
{
    (void)read_digits(&rest);
    skip_spaces(&rest);
    if (skip(&rest, ':') && rest.at < rest.end && *rest.at == '}' && is_align(rest.at + 1, rest.end))
        rest.at++;
    return rest.at < rest.end ? memchr(rest.at, '}', (size_t)(rest.end - rest.at)) : NULL;
}

void format_braces(struct text *text, struct bytes format, struct arguments *arguments)
{
    struct rest rest = {format.at, format.at + format.len};
    while (rest.at < rest.end) {
        uint8_t letter = *rest.at++;
        bool is_doubled = (letter == '{' || letter == '}') && skip(&rest, (char)letter);
        if (letter != '{' || is_doubled) {
            add_bytes(text, &letter, 1);
            continue;
        }
        const uint8_t *end = end_of_replacement(rest);
        if (!end) {
            add_string(text, "<{");
            add_bytes(text, rest.at, (size_t)(rest.end - rest.at));
            add_string(text, ">");
            return;
        }
        add_replacement(text, (struct bytes){rest.at, (size_t)(end - rest.at)}, arguments);
        rest.at = end + 1;
    }
}
