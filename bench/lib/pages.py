"""Two page images, one full of records of 60 bytes and one without a record, and the walk over them in C."""

import struct

from lib import count
from lib.programs import rival_in_c

RECORDS = 68


def write(folder):
    """Writes both images, and answers where they are: the full one first."""
    full, empty = folder / "full", folder / "empty"
    # A word of 4 bytes: the moment is 1 later, and 14 words of payload come.
    records = b"".join(struct.pack("<I56s", 1 << 5 | 14, b"%056d" % number) for number in range(1, RECORDS + 1))
    full.write_bytes(struct.pack("<QQ", 7, len(records)) + records)
    empty.write_bytes(struct.pack("<QQ", 7, 0) + bytes(4_080))
    return full, empty


def bare_walk(folder):
    """How many instructions a record takes of a bare walk over the records in C."""
    walk = rival_in_c(folder, "walk")
    full, empty = (count.callgrind([walk], page, function="walk*") for page in write(folder))
    return (full - empty) / RECORDS
