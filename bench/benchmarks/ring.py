"""The ring as a value: a bulk run, one event at a time by `Core::step`

A ring of 16 pages of 4,080 bytes; 1,000,000 records of 16 bytes, each pushed, reserved, written in place and ended;
each page is taken when it is closed.
"""

from lib import count, tables
from lib.programs import Failure, rival, staged
from made.worked_rows import TEXT, rows_of

NEEDS = ("rt", "rustc", "valgrind")
RECORDS, LENGTH = 1_000_000, 16


def run(folder):
    plain, ours = rival(folder, "ring"), staged("ring")
    rows = folder / "rows"
    rows.write_text("".join(rows_of("rings")))
    if count.output([plain, "answer"], rows) != rows.read_bytes():
        raise Failure(f"the rival's answers aren't those of {TEXT}")
    events = rows.read_text().count(" -> ")
    yield f"The rival, a plain ring of the same rules in Rust, answers {events:,} worked events rightly."
    yield ""
    bulk = ["bulk", str(RECORDS), str(LENGTH)]
    taken = {count.output([program, *bulk]) for program in (ours, plain)}
    if len(taken) > 1:
        raise Failure("the two rings don't take the same")

    def record(program):
        few, many = (count.callgrind([program, "bulk", str(n), str(LENGTH)]) for n in (0, RECORDS))
        return (many - few) / RECORDS

    yield from tables.compared_head()
    yield tables.compared("a record: instructions", record(ours), record(plain), digits=1)
