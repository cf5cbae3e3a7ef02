"""Reading whole scripts (`read_script` of trace_script), by kinds of lines

A script of one kind of line; a script that is read twice less one that is read once.
"""

from lib import count, tables
from lib.programs import staged

NEEDS = ("rt", "valgrind")
HEADER = b"pages 16\nsize 4080\ncpus 4\ncollectors 2\n"
WRITE = b"c0 w 123456 "
# What is shown, the line, how many of them are read, and the most instructions that one may take.
LINES = (
    ("`c0 w 123456 0102030405060708`", WRITE + b"0102030405060708", 100_000, 330),
    ("`c0 w 123456 -`", WRITE + b"-", 100_000, None),
    ("the same with a payload of 100 bytes", WRITE + b"00" * 100, 20_000, None),
    ("with one of 4,000 bytes", WRITE + b"00" * 4_000, 1_000, None),
    ("`c0 t`", b"c0 t", 100_000, None),
    ("`c0 s 100`", b"c0 s 100", 100_000, None),
    ("`d 1 c0 123456`", b"d 1 c0 123456", 100_000, None),
)


def run(folder):
    program = staged("script")
    script = folder / "script"
    yield from tables.compared_head("A line: instructions")
    for what, line, lines, limit in LINES:
        script.write_bytes(HEADER + (line + b"\n") * lines)
        once, twice = (count.callgrind([program, *words], script) for words in (["once"], ["once", "twice"]))
        yield tables.compared(what, (twice - once) / lines, limit=limit)
