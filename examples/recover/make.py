#!/usr/bin/env python3
"""Writes the regions of this folder, from the format alone: docs/formats/pages.md, "Regions"."""

import importlib.util
import struct
from pathlib import Path

HERE = Path(__file__).resolve().parent
FOUND = importlib.util.spec_from_file_location("pieces", HERE.parent / "streams" / "make.py")
pieces = importlib.util.module_from_spec(FOUND)
FOUND.loader.exec_module(pieces)

ONE, TWO = 0x0000000C_00000003, 0xFEDCBA98_76543210


def words(*records):
    """The data of a page: each record has a word with its length in words and the time since the one before."""
    data, time = b"", records[0][0]
    for moment, payload in records:
        data += struct.pack("<I", len(payload) // 4 | moment - time << 5) + payload
        time = moment
    return data


def slot(cpu, fill, first, *records, missed=0, commit=None, data=None):
    """A page's slot up to the end of its data."""
    data = words(*records) if data is None else data
    commit = len(data) if commit is None else commit
    return struct.pack("<6Q", cpu, fill, first, missed, records[0][0] if records else 0, commit) + data


def region(*slots, size=32, cpu=0, stream=ONE, taken=0, ended=0, version=1, pages=None, letters=b"tracring"):
    """The region of a ring of one page less than there are slots."""
    pages = len(slots) - 1 if pages is None else pages
    head = letters + struct.pack("<7Q", version, pages, size, cpu, stream, taken, ended)
    stride = (48 + size + 63) // 64 * 64
    return head.ljust(128, b"\0") + b"".join(found.ljust(stride, b"\0") for found in slots)


BLANK = struct.pack("<6Q", 0, 9, 9, 9, 9, 0) + b"\xff" * 32
# CPU 0 of stream ONE: its reader took the records 0 and 1, the fills 1 and 2 were overwritten, and the ring was killed.
FIRST = slot(0, 0, 0, (100, b"\0\0\0\1"), (130, b"\0\0\0\2"))
THIRD = slot(0, 3, 6, (140, b"\0\0\0\5\1\2\3\4"), (140, b"\0\0\0\6"))
FOURTH = slot(0, 4, 8, (150, b"\0\0\0\7"))
OPEN = region(THIRD, FOURTH, FIRST, taken=2)
# The same ring, whose writer was freed.
ENDED = region(THIRD, FOURTH, FIRST, taken=2, ended=1)
# What its reader took since: the page of fill 3 lies in its own slot still.
LATER = region(BLANK, FOURTH, THIRD, taken=8)
# Its reader took the page of fill 4, while that of fill 3, which was overwritten, lies in its slot still.
PASSED = region(THIRD, FOURTH, BLANK, taken=9)

FILES = {
    "open.region": OPEN,
    "ended.region": ENDED,
    "later.region": LATER,
    "passed.region": PASSED,
    # Behind the slots anything may follow, and behind a slot's commit anything may stand.
    "behind.region": region(THIRD + b"\xff\xff\xff", FOURTH + b"\1", FIRST, taken=2) + b"tail",
    # All was taken, and lies where later fills weren't begun; or nothing is there of what was taken.
    "taken.region": region(BLANK, slot(1, 7, 20, (5, b"\0\0\0\0")), BLANK, cpu=1, stream=TWO, taken=21, ended=1),
    "none.region": region(BLANK, BLANK, BLANK, cpu=255, stream=TWO, taken=3, ended=1),
    "begun.region": region(BLANK, BLANK, BLANK),
    # The first page that is there begins above what was taken; no record has the numbers between two pages.
    "lost.region": region(slot(3, 9, 40, (7, b"\1\1\1\1")), slot(3, 11, 50, (9, b"\2\2\2\2")), BLANK, cpu=3, taken=30),
    # Each cause of a damaged slot, and a page that is sound.
    "damaged.region": region(
        slot(4, 1, 1, (1, b"\0\0\0\0")),
        slot(5, 2, 2, (1, b"\0\0\0\0"), missed=1),
        slot(5, 3, 3, (1, b"\0\0\0\0"), commit=36),
        slot(5, 4, 4, data=struct.pack("<I", 2) + b"\0\0\0\0"),
        slot(5, 5, 5, data=struct.pack("<2I", 0, 3)),
        slot(5, 6, 6, ((1 << 64) - 1, b"\0\0\0\0"), data=words((0, b"\0\0\0\0")) + struct.pack("<2I", 30 | 1 << 5, 0)),
        slot(5, 7, (1 << 64) - 1, (1, b"\0\0\0\0")),
        slot(5, 8, 60, (70, b"\0\0\0\x08"), (71, b"\0\0\0\x09")),
        slot(5, 8, 62, (72, b"\0\0\0\x0a")),
        slot(5, 9, 61, (73, b"\0\0\0\x0b")),
        slot(5, 10, 62, (74, b"\0\0\0\x0c")),
        cpu=5,
        taken=10,
        ended=1,
    ),
    # It contradicts open.region.
    "clash.region": region(BLANK, slot(0, 4, 8, (150, b"\0\0\0\xff")), BLANK, taken=8),
    # What isn't a region.
    "empty.region": b"",
    "short.region": OPEN[:127],
    "cut.region": OPEN[:-1],
    "letters.region": region(THIRD, FOURTH, FIRST, letters=b"tracrinG"),
    "version.region": region(THIRD, FOURTH, FIRST, version=2),
    "pages.region": region(THIRD, FOURTH, FIRST, pages=1),
    "many_pages.region": region(THIRD, FOURTH, FIRST, pages=1025),
    "size.region": region(THIRD, FOURTH, FIRST, size=34),
    "cpu.region": region(THIRD, FOURTH, FIRST, cpu=256),
    "end.region": region(THIRD, FOURTH, FIRST, ended=2),
    # What `--keep` writes of open.region, ended.region and later.region; of open.region alone; and of no region.
    "kept.log": pieces.parcel(ONE, 0, 0, 0, 0, (100, b"\0\0\0\1"), (130, b"\0\0\0\2"))
    + pieces.parcel(ONE, 0, 3, 6, 4, (140, b"\0\0\0\5\1\2\3\4"), (140, b"\0\0\0\6"))
    + pieces.parcel(ONE, 0, 4, 8, 0, (150, b"\0\0\0\7"))
    + pieces.end(ONE, 0, 9),
    "kept_open.log": pieces.parcel(ONE, 0, 0, 0, 0, (100, b"\0\0\0\1"), (130, b"\0\0\0\2"))
    + pieces.parcel(ONE, 0, 3, 6, 4, (140, b"\0\0\0\5\1\2\3\4"), (140, b"\0\0\0\6"))
    + pieces.parcel(ONE, 0, 4, 8, 0, (150, b"\0\0\0\7")),
    "none.log": b"",
}

if __name__ == "__main__":
    for name, data in FILES.items():
        (HERE / name).write_bytes(data)
