// Formats as C's printf does. Each conversion is compared with the argument's kind, and then printed by the C
// library, with a format that is made here of the parts that were read.
#include "arguments.h"

#include <stdio.h>
#include <string.h>

// The longest field: a wider one, or more digits, isn't formatted.
enum { LONGEST_FIELD = 1000 };

enum flag { FLAG_LEFT = 1, FLAG_PLUS = 2, FLAG_SPACE = 4, FLAG_OTHER = 8, FLAG_ZERO = 16, FLAG_GROUPS = 32 };

static const char FLAGS[] = "-+ #0'";

struct conversion {
    struct bytes whole; // from its percent sign to its letter
    unsigned flags;
    int width, precision; // precision: -1 if there is none
    uint8_t size;         // of the length modifier, in bytes; 0: none
    bool is_wrong;
    char letter;
};

// What is left of a format.
struct rest {
    const uint8_t *at, *end;
};

static bool is_next(const struct rest *rest, char letter)
{
    return rest->at < rest->end && *rest->at == (uint8_t)letter;
}

static void read_flags(struct rest *rest, struct conversion *c)
{
    const char *found;
    while (rest->at < rest->end && *rest->at && (found = strchr(FLAGS, *rest->at))) {
        c->flags |= 1u << (found - FLAGS);
        rest->at++;
    }
}

// Reads a width or a precision: digits, or a star, which takes an argument.
static int read_count(struct rest *rest, struct arguments *arguments, struct conversion *c)
{
    int64_t count = 0;
    if (is_next(rest, '*')) {
        const struct argument *argument = next_argument(arguments);
        rest->at++;
        c->is_wrong |= !is_integer(argument) || argument->size > 4;
        count = argument ? (int32_t)(uint32_t)argument->value : 0;
    }
    while (rest->at < rest->end && *rest->at >= '0' && *rest->at <= '9') {
        if (count <= LONGEST_FIELD)
            count = 10 * count + (*rest->at - '0');
        rest->at++;
    }
    c->is_wrong |= count > LONGEST_FIELD || count < -LONGEST_FIELD;
    return c->is_wrong ? 0 : (int)count;
}

static void read_fields(struct rest *rest, struct arguments *arguments, struct conversion *c)
{
    c->width = read_count(rest, arguments, c);
    if (c->width < 0) {
        c->flags |= FLAG_LEFT;
        c->width = -c->width;
    }
    if (is_next(rest, '.')) {
        rest->at++;
        c->precision = read_count(rest, arguments, c);
        if (c->precision < 0)
            c->precision = -1;
    }
}

// Reads a length modifier.
static void read_size(struct rest *rest, struct conversion *c)
{
    static const struct {
        const char *name;
        uint8_t size;
    } sizes[] = {{"hh", 1}, {"h", 2}, {"ll", 8}, {"l", 8}, {"q", 8}, {"j", 8}, {"z", 8}, {"t", 8}, {"L", 16}};
    for (size_t k = 0; k < sizeof sizes / sizeof *sizes; k++) {
        size_t len = strlen(sizes[k].name);
        if ((size_t)(rest->end - rest->at) >= len && !memcmp(rest->at, sizes[k].name, len)) {
            c->size = sizes[k].size;
            rest->at += len;
            return;
        }
    }
}

// Reads the conversion whose percent sign is at the front.
static struct conversion read_conversion(struct rest *rest, struct arguments *arguments)
{
    struct conversion c = {{rest->at, 0}, 0, 0, -1, 0, false, 0};
    rest->at++;
    read_flags(rest, &c);
    read_fields(rest, arguments, &c);
    if (is_next(rest, '$')) { // numbered arguments aren't known
        rest->at++;
        c.is_wrong = true;
        read_flags(rest, &c);
        read_fields(rest, arguments, &c);
    }
    read_size(rest, &c);
    if (rest->at < rest->end && *rest->at < 0x80)
        c.letter = (char)*rest->at++;
    c.whole.len = (size_t)(rest->at - c.whole.at);
    return c;
}

// Makes the format of one conversion, with this length modifier.
static void make_format(char *made, size_t room, const struct conversion *c, const char *modifier)
{
    size_t len = 0;
    made[len++] = '%';
    for (size_t k = 0; FLAGS[k]; k++)
        if (c->flags & 1u << k)
            made[len++] = FLAGS[k];
    if (c->width)
        len += (size_t)snprintf(made + len, room - len, "%d", c->width);
    if (c->precision >= 0)
        len += (size_t)snprintf(made + len, room - len, ".%d", c->precision);
    snprintf(made + len, room - len, "%s%c", modifier, c->letter);
}

// The room of a number: its field, or all digits of the largest value.
enum { FORMAT_ROOM = 48, NUMBER_ROOM = 2 * LONGEST_FIELD + 512 };

static void add_integer(struct text *text, const struct conversion *c, const struct argument *argument)
{
    char made[FORMAT_ROOM], digits[NUMBER_ROOM];
    unsigned size = c->size ? c->size : argument->size > 4 ? 8 : 4, unused = 64 - 8 * size;
    uint64_t value = argument->value << unused;
    make_format(made, sizeof made, c, "ll");
    if (c->letter == 'd' || c->letter == 'i')
        snprintf(digits, sizeof digits, made, (long long)value >> unused);
    else
        snprintf(digits, sizeof digits, made, (unsigned long long)value >> unused);
    add_string(text, digits);
}

static void add_floating(struct text *text, const struct conversion *c, const struct argument *argument)
{
    char made[FORMAT_ROOM], digits[NUMBER_ROOM];
    make_format(made, sizeof made, c, "");
    snprintf(digits, sizeof digits, made, double_of(argument));
    add_string(text, digits);
}

static void add_address(struct text *text, const struct conversion *c, const struct argument *argument)
{
    char made[FORMAT_ROOM], digits[NUMBER_ROOM];
    make_format(made, sizeof made, c, "");
    snprintf(digits, sizeof digits, made, (void *)(uintptr_t)argument->value);
    add_string(text, digits);
}

// Adds bytes in a field of the conversion's width.
static void add_field(struct text *text, const struct conversion *c, struct bytes bytes)
{
    size_t width = (size_t)c->width, fill = width > bytes.len ? width - bytes.len : 0;
    if (!(c->flags & FLAG_LEFT))
        add_fill(text, " ", 1, fill);
    add_bytes(text, bytes.at, bytes.len);
    if (c->flags & FLAG_LEFT)
        add_fill(text, " ", 1, fill);
}

static void add_text(struct text *text, const struct conversion *c, const struct argument *argument)
{
    struct bytes bytes = argument->text;
    struct text longer = {NULL, 0, 0};
    if (c->precision >= 0 && (size_t)c->precision <= bytes.len) {
        bytes.len = (size_t)c->precision;
    } else if (argument->cut) {
        add_argument_text(&longer, argument);
        bytes = bytes_of(&longer);
    }
    add_field(text, c, bytes);
    free_text(&longer);
}

static void add_character(struct text *text, const struct conversion *c, const struct argument *argument)
{
    uint8_t byte = (uint8_t)argument->value;
    add_field(text, c, (struct bytes){&byte, 1});
}

// Adds the argument as the conversion says. False: it doesn't fit.
static bool add_converted(struct text *text, const struct conversion *c, const struct argument *argument)
{
    if (c->is_wrong || !argument || !c->letter)
        return false;
    if (strchr("diouxX", c->letter)) {
        if (!is_integer(argument) || c->size > 8)
            return false;
        add_integer(text, c, argument);
    } else if (strchr("fFeEgGaA", c->letter)) {
        if (argument->class != CLASS_FLOATING || (c->size && c->size != 16 && c->size != 8))
            return false;
        add_floating(text, c, argument);
    } else if (c->size) {
        return false;
    } else if (c->letter == 'c' && is_integer(argument)) {
        add_character(text, c, argument);
    } else if (c->letter == 's' && argument->class == CLASS_TEXT) {
        add_text(text, c, argument);
    } else if (c->letter == 'p' && argument->class == CLASS_ADDRESS) {
        add_address(text, c, argument);
    } else {
        return false;
    }
    return true;
}

void format_printf(struct text *text, struct bytes format, struct arguments *arguments)
{
    struct rest rest = {format.at, format.at + format.len};
    while (rest.at < rest.end) {
        const uint8_t *sign = memchr(rest.at, '%', (size_t)(rest.end - rest.at));
        size_t plain = (size_t)((sign ? sign : rest.end) - rest.at);
        add_bytes(text, rest.at, plain);
        rest.at += plain;
        if (!sign)
            break;
        struct conversion c = read_conversion(&rest, arguments);
        if (c.letter == '%' && c.whole.len == 2) {
            add_string(text, "%");
        } else if (!add_converted(text, &c, strchr("%m", c.letter) ? NULL : next_argument(arguments))) {
            add_string(text, "<");
            add_bytes(text, c.whole.at, c.whole.len);
            add_string(text, ">");
        }
    }
}
