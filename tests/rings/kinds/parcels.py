"""Random and forged parcels, which are answered as by a plain collector.

Random lists of parcels, some made wrong or damaged, are added to collectors, and these are merged. Each byte of two
parcels is set to each of its values, and what comes of it is added to a collector that has the genuine one. Parcels and
images are cut at every byte.
"""

import struct
import sys
from collections import Counter
from pathlib import Path

from made.parcels import Source, counted_parcel, uncounted_parcel
from oracles.collector import Row
from oracles.ring import compare

EXAMPLES = Path(__file__).resolve().parents[3] / "examples"
# How many lists there are.
LISTS = 1_000
# How often each of these answers comes in the lists at least.
OFTEN = 40
ANSWERS = ["new", "known", "merged", "Clash", "TakenAndMissing", "yes", "no", "missing", "unknown", "BadCpu", "Image"]
ANSWERS += ["NumberOverflow", "MissedTooMany", "MissedDiffers"]
# Where each part of this parcel's bytes ends, which begins where the one before ends, and how many parcels there are
# with one of its bytes set to any of its 256 values.
PARTS = [
    # 256 CPUs, whose number's other seven bytes are 0
    (8, 256 + 7),
    # any fill
    (16, 8 * 256),
    # any first number but 0, before which none can be missing
    (24, 8 * 256 - 1),
    # one number missing and no other
    (32, 8),
    # any time
    (40, 8 * 256),
    # the size of no record and of all, the flag that is set and no other, and four bytes that are not looked at
    (48, 2 + 3 + 4 * 256),
    # the record's word: of its type 7, or as 1, 4, 30 and 31, after which records of type 2 fill the data, with any
    # delta; 29 without one; and the three other bytes of the delta
    (52, 5 * 8 + 1 + 3 * 256),
    # any payload, and any bytes after it
    (84, 32 * 256),
]


def forged_rows(genuine):
    """Each byte of a parcel set to each of its values, and added to a collector that has the genuine one."""
    for at in range(len(genuine)):
        for value in range(256):
            row = Row(f"byte {at} is {value}", 1)
            row.ask("add", 0, genuine)
            before = row.show()
            row.ask("add", 0, genuine[:at] + bytes([value]) + genuine[at + 1 :])
            if row.answers[1] != "new" and row.show() != before:
                sys.exit(f"random: the plain collector changes with byte {at}, {value}: {row.answers[1]}")
            row.ask("show")
            yield row


def check_often(rows):
    """Whether each kind of answer comes often enough in the lists."""
    found = Counter(answer.partition("(")[0] for row in rows for answer in row.answers)
    seldom = [name for name in ANSWERS if found[name] < OFTEN]
    if seldom:
        sys.exit(f"random: seldom answered: {', '.join(seldom)}")


def is_parcel(answer):
    return answer in ("new", "known") or answer.startswith(("Clash", "TakenAndMissing"))


def check_parts(rows):
    """Whether there are as many parcels as the table says."""
    start = 0
    for end, wanted in PARTS:
        found = sum(is_parcel(row.answers[1]) for row in rows[256 * start : 256 * end])
        if found != wanted:
            sys.exit(f"random: {found} parcels by the bytes from {start} to {end}, and not {wanted}")
        start = end


def cut_rows(source):
    """Parcels and images cut at every byte, and images that state each size from 0 on."""
    source.begin()
    parcels = [counted_parcel(), uncounted_parcel(), *(source.parcel() for _ in range(12))]
    pages = sorted(file for file in EXAMPLES.glob("**/*.page"))
    images = [page.read_bytes() for page in pages]
    images = [image for image in images if len(image) > 15]
    sizes = [struct.unpack_from("<Q", image, 8)[0] & 0x3FFF_FFFF for image in images]
    images = [image[: 16 + size + 12] for image, size in zip(images, sizes)]
    for data in parcels:
        row = Row("cut", 1)
        for end in range(len(data) + 1):
            row.ask("parcel", data[:end])
            row.ask("add", 0, data[:end])
        row.ask("show")
        yield row
    for image in [image for image in images if len(image) < 700]:
        row = Row("cut", 0)
        commit = struct.unpack_from("<Q", image, 8)[0] >> 30 << 30
        for end in range(len(image) + 1):
            row.ask("image", image[:end])
            if end >= 16:
                row.ask("image", image[:8] + struct.pack("<Q", commit | (end - 16)) + image[16:])
        yield row


def tried(program, seed=1, share=1):
    """Tries the cuts, and one of `share` lists and forged parcels."""
    source, share = Source(seed), int(share)
    lists = [*map(source.row, range(LISTS))]
    uncounted = [*forged_rows(uncounted_parcel())]
    forged = [*uncounted, *forged_rows(counted_parcel())]
    cut = [*cut_rows(source)]
    check_often(lists)
    check_parts(uncounted)
    lists, forged = lists[::share], forged[::share]
    for what, rows in (("lists", lists), ("forged parcels", forged), ("cuts", cut)):
        compare(program, [row.lines for row in rows], f"random: seed {seed}, {what}")
    cuts = sum(len(row.answers) for row in cut)
    return (
        f"{len(lists):,} random lists of parcels, {len(forged):,} forged parcels and {cuts:,} questions on cut ones,\n"
        "and images that are cut or state another size, are answered as by the plain collector"
    )
