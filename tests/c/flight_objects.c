// TRACE in several translation units and shared objects of one program: compiled with PART 1 and 2 into objects of
// their own, and with PART 0 into the program, whose dump has the events and the sites of all three.
#include "tracering_flight.h"

void trace_one(int number);
void trace_two(int number);

#if PART == 1
void trace_one(int number)
{
    TRACE("part one %d", number);
}
#elif PART == 2
void trace_two(int number)
{
    TRACE("part two %d", number);
}
#else
#include "flight_reader.h"

int main(int argc, char **argv)
{
    static const char *const formats[] = {"part one %d", "part two %d", "part none %d"};
    want(argc == 2 && !flight_start(NULL), "no start", 0);
    trace_one(1);
    trace_two(2);
    TRACE("part none %d", 3);
    want(!flight_dump(argv[1]) && !flight_stop(), "no dump", 0);
    struct read_dump *dump = open_dump(argv[1]);
    want(dump->rings[0].count == 3, "other events", dump->rings[0].count);
    for (uint32_t each = 0; each < 3; each++) {
        const struct read_record *record = &dump->rings[0].records[each];
        want(!strcmp(site_of(dump, record)->format, formats[each]), "another format", each);
        want(argument_number(dump, record, 0) == each + 1, "another argument", each);
    }
    free_dump(dump);
    return 0;
}
#endif
