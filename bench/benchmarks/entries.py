"""Going over the entries of a page (`records` of page_borrow)

A page of 68 records of 60 bytes; the numbers and the payloads' lengths are added up, and the last moment is kept.
"""

from lib import count, pages, tables
from lib.programs import staged

NEEDS = ("rt", "cc", "valgrind")
# How often the program goes over the page.
TIMES = 1_000


def run(folder):
    program = staged("entries")
    full, empty = (count.callgrind([program], page) for page in pages.write(folder))
    yield "The rival is a bare walk over the words in C, which tests and keeps as much, but numbers no record."
    yield ""
    yield from tables.compared_head()
    walk = pages.bare_walk(folder)
    yield tables.compared("a record: instructions", (full - empty) / pages.RECORDS / TIMES, walk, digits=1)
