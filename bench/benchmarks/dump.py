"""`tracering dump`: a page image read and printed

A page of 68 records of 60 bytes, less a page without a record.
"""

from lib import count, pages, tables
from lib.programs import tracering

NEEDS = ("rt", "cc", "valgrind")


def run(folder):
    program = tracering()
    full, empty = pages.write(folder)
    profiles = [folder / "full.profile", folder / "empty.profile"]
    some, none = (count.callgrind([program, "dump"], *given) for given in zip((full, empty), profiles))

    def record(count_full, count_empty):
        return (count_full - count_empty) / pages.RECORDS

    in_full, in_empty = (count.functions(profile) for profile in profiles)
    taken = {name: record(took, in_empty.get(name, 0)) for name, took in in_full.items()}
    printing = max(took for name, took in taken.items() if "put_entries" in name)
    all_of_it = record(some, none)
    yield "Instructions a record; the rival of the reading is a bare walk over the words in C."
    yield ""
    yield from tables.compared_head()
    yield tables.compared("reading the image", all_of_it - printing, pages.bare_walk(folder), digits=1)
    yield tables.compared("printing its records", printing, digits=1)
    yield tables.compared("in all", all_of_it, digits=1)
    yield ""
    yield "Functions of the program with all that they call:"
    yield ""
    yield from tables.head("Function", "Instructions a record")
    for name, took in sorted(taken.items(), key=lambda it: (-it[1], it[0])):
        if took >= 10 and "::" in name:
            yield tables.line([f"`{name}`", f"{took:,.0f}"])
