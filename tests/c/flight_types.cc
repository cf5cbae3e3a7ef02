// TRACE in C++: in templates, lambdas and inline functions, of arguments of all kinds. Each event's kinds are compared
// with those that its format names; `flight_types FOLDER` ends with 0 if all are as they are to be.
#include "tracering_flight.h"

#include "flight_reader.h"

#include <string>

namespace {

enum color { red, green = 3 };
enum class shade : unsigned char { dark, light = 200 };

struct fields {
    unsigned narrow : 3;
    const char *text;
};

template <typename Number> void trace_number(Number number)
{
    TRACE("%d of a template", static_cast<int>(number));
}

inline void trace_inline(const std::string &text)
{
    auto traced = [&](long number) { TRACE("%ld %s", number, text.c_str()); };
    traced(-5);
}

void trace_all(int given)
{
    const std::string text = "a string";
    char characters[] = "characters";
    fields some = {5, "a field"};
    const volatile double changing = 0.5;
    TRACE("no argument");
    TRACE("%d %ld %lld %u %lu %llu", given, 2L, 3LL, 4U, 5UL, 6ULL);
    TRACE("%f %f %Lf %s %s %s", 1.5, 2.5, 3.5L, "a literal", text.c_str(), characters);
    TRACE("%p %p %d %zu %c %d", static_cast<void *>(&some), static_cast<const void *>(nullptr), true, sizeof given, 'c',
        green);
    TRACE("%d %u %s %f", static_cast<int>(shade::light), some.narrow, some.text, changing);
    TRACE("%hd %hu %hhd %hhu %.*s", static_cast<short>(-1), static_cast<unsigned short>(2),
        static_cast<signed char>(-3), static_cast<unsigned char>(4), 3, "abcdef");
    trace_number(7);
    trace_number(8.5);
    trace_inline(text);
}

std::string kinds_of(const read_dump *dump, const read_record *record)
{
    const read_site *site = site_of(dump, record);
    std::string kinds;
    for (uint32_t each = 0; each < site->count; each++) {
        static const char letters[] = "iufat";
        kinds += letters[site->kinds[each] >> 4];
        kinds += std::to_string(site->kinds[each] & 15) + " ";
    }
    return kinds;
}

std::string text_of(const read_dump *dump, const read_record *record, uint32_t index)
{
    size_t len;
    bool is_cut = false;
    const uint8_t *bytes = argument(dump, record, index, &len, &is_cut);
    return std::string(reinterpret_cast<const char *>(bytes), len);
}

} // namespace

int main(int argc, char **argv)
{
    static const char *const wanted[] = {"", "i4 i8 i8 u4 u8 u8 ", "f8 f8 f8 t0 t0 t0 ", "a8 a8 u1 u8 i1 u4 ",
        "i4 u4 t0 f8 ", "i2 u2 i1 u1 i4 t0 ", "i4 ", "i4 ", "i8 t0 "};
    const std::string path = std::string(argc > 1 ? argv[1] : ".") + "/types.flight";
    want(!flight_start(nullptr), "no start", 0);
    trace_all(1);
    want(!flight_dump(path.c_str()) && !flight_stop(), "no dump", 0);
    read_dump *dump = open_dump(path.c_str());
    const read_ring *ring = &dump->rings[0];
    want(ring->count == sizeof wanted / sizeof *wanted, "other events", ring->count);
    for (size_t each = 0; each < ring->count; each++) {
        std::string kinds = kinds_of(dump, &ring->records[each]);
        if (kinds != wanted[each])
            fprintf(stderr, "flight: kinds %s\n", kinds.c_str());
        want(kinds == wanted[each], "other kinds", each);
    }
    want(text_of(dump, &ring->records[2], 4) == "a string" && text_of(dump, &ring->records[2], 5) == "characters",
        "other texts", 2);
    want(text_of(dump, &ring->records[5], 5) == "abc", "a text that its precision cuts", 5);
    want(text_of(dump, &ring->records[8], 1) == "a string", "a text of a lambda", 8);
    free_dump(dump);
    return 0;
}
