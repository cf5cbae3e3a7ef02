"""Writing records into pages by the writer's stack and by `Page`, in one thread

Payloads of 8 to 112 bytes, evenly spread, on pages of 4,080 bytes; each page is emptied when it is full.
"""

from lib import count, tables
from lib.programs import kit, rival_in_c, staged

NEEDS = ("rt", "cc", "valgrind")
RECORDS = 105_000
WAYS = (
    ("in_one", "`WriterStack::write` and `pop_bottom`"),
    ("in_steps", "`begin`, `allot`, `top_mut` and a copy, `end`, `pop_bottom`"),
    ("in_place", "`Page::put`, `payload_mut` and a copy"),
    ("at_once", "`Page::put_payload`"),
)


def run(folder):
    library = staged("write")
    program = rival_in_c(folder, "write", library, kit() / "c/liblibc_c.a")

    def record(way):
        few, many = (count.callgrind([program, way, str(n)], function="write_*") for n in (0, RECORDS))
        return (many - few) / RECORDS

    plain = record("plain")
    yield "Instructions a record; the rival is a plain writer of the same format in C."
    yield ""
    yield from tables.compared_head()
    for way, what in WAYS:
        yield tables.compared(what, record(way), plain, digits=1)
    yield tables.compared("only a copy of the same bytes into pages, in C", record("bare"), plain, digits=1)
