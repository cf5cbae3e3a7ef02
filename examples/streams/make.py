#!/usr/bin/env python3
"""Writes the streams of this folder, from the format alone: docs/formats/pages.md, "Streams of parcels"."""

import struct
from pathlib import Path

HERE = Path(__file__).resolve().parent
ONE, TWO = 0x0000000C_00000003, 0xFEDCBA98_76543210


def crc32c(data):
    remainder = 0xFFFF_FFFF
    for byte in data:
        remainder ^= byte
        for _ in range(8):
            remainder = remainder >> 1 ^ (0x82F6_3B78 if remainder & 1 else 0)
    return remainder ^ 0xFFFF_FFFF


def sealed(kind, stream, body, version=1, length=None):
    length = 40 + len(body) if length is None else length
    piece = b"TRPARCEL" + struct.pack("<2I2Q", version, kind, length, stream) + body
    return piece + struct.pack("<Q", crc32c(piece))


def image(records, missed):
    """A page as long as its data. Each record has a word with its length in words and the time since the one before."""
    start = time = records[0][0] if records else 0
    data = b""
    for moment, payload in records:
        data += struct.pack("<I", len(payload) // 4 | moment - time << 5) + payload
        time = moment
    return struct.pack("<2Q", start, len(data) | (1 << 31 if missed else 0)) + data


def parcel(stream, cpu, fill, first, missed, *records):
    return sealed(0, stream, struct.pack("<4Q", cpu, fill, first, missed) + image(records, missed))


def end(stream, cpu, count):
    return sealed(1, stream, struct.pack("<2Q", cpu, count))


def forgotten(stream, cpu, bound):
    return sealed(2, stream, struct.pack("<2Q", cpu, bound))


def undelivered(stream, cpu, first, behind):
    return sealed(3, stream, struct.pack("<3Q", cpu, first, behind))


# Of stream ONE: CPU 0 has 8 records, of which 2 and 3 were overwritten, and 6 and 7 don't come.
FIRST = parcel(ONE, 0, 0, 0, 0, (100, b"\0\0\0\1"), (130, b"\0\0\0\2"))
SECOND = parcel(ONE, 0, 2, 4, 2, (140, b"\0\0\0\5\1\2\3\4"), (140, b"\0\0\0\6"))
END = end(ONE, 0, 8)
# Of stream TWO: CPU 255 forgot what is below 1000, and 998 was given up; 1001 comes late, and 1003 and 1004 never.
SNAPSHOT = forgotten(TWO, 255, 1000) + undelivered(TWO, 255, 998, 999)
BELOW = parcel(TWO, 255, 7, 990, 0, (10, b"\0\0\0\0"))
LATE = parcel(TWO, 255, 9, 1001, 0, (140, b"\0\0\0\7"))
THIRD = parcel(TWO, 255, 8, 1000, 0, (90, b"\0\0\0\x08"))
LOST = undelivered(TWO, 255, 1003, 1005)
LAST = parcel(TWO, 255, 11, 1006, 1, (2**63, b"\xff\xff\xff\xff"))

FILES = {
    "one.log": FIRST + SECOND + END,
    "two.log": SNAPSHOT + THIRD + LATE + LOST + LAST,
    # What came twice: nothing of it is new but the second parcel, and what is below a bound.
    "again.log": FIRST + SECOND + FIRST + THIRD,
    "below.log": SNAPSHOT + BELOW + THIRD,
    # A mark alone, and parcels that it hides: all of one, and a part of another.
    "mark.log": forgotten(ONE, 0, 5),
    "empty.log": b"",
    # Contradictions.
    "clash.log": FIRST + parcel(ONE, 0, 1, 1, 0, (130, b"\0\0\0\3")),
    "taken.log": SECOND + parcel(ONE, 0, 1, 3, 0, (135, b"\0\0\0\4")),
    "beyond.log": END + parcel(ONE, 0, 3, 8, 0, (200, b"\0\0\0\0")),
    "other_end.log": END + end(ONE, 0, 9),
    # Pieces that can't be read.
    "cut.log": (FIRST + SECOND)[:-1],
    "letter.log": FIRST + b"T",
    "not_packed.log": FIRST + b"X",
    "bad_version.log": sealed(1, ONE, struct.pack("<2Q", 0, 8), version=2),
    "bad_length.log": sealed(1, ONE, struct.pack("<2Q", 0, 8), length=55),
    "bad_sum.log": FIRST + END[:-9] + bytes([END[-9] ^ 1]) + END[-8:],
    "bad_kind.log": sealed(4, ONE, struct.pack("<2Q", 0, 8)),
    "bad_mark.log": undelivered(ONE, 0, 5, 5),
    "bad_cpu.log": sealed(0, ONE, struct.pack("<4Q", 256, 0, 0, 0) + image([(1, b"\0\0\0\0")], 0)),
    "bad_word.log": sealed(0, ONE, struct.pack("<6Q", 0, 0, 0, 0, 1, 4) + struct.pack("<I", 2)),
    "loose.log": sealed(0, ONE, struct.pack("<4Q", 0, 0, 0, 0) + image([(1, b"\0\0\0\0")], 0) + b"\0"),
    # What `--keep` writes of one.log and again.log, and of below.log.
    "kept.log": FIRST + SECOND + END + THIRD,
    "kept_below.log": SNAPSHOT + BELOW + THIRD,
    # What it writes of mark.log and one.log.
    "kept_hidden.log": forgotten(ONE, 0, 5) + FIRST + SECOND + END,
}

if __name__ == "__main__":
    for name, data in FILES.items():
        (HERE / name).write_bytes(data)
