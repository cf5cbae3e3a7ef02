"""Streams of parcels for the benchmarks: small pages, as a fleet publishes them."""

import random
import struct

from made.images import word
from oracles.fleet import sealed

# How many records a parcel has, of what payload, and how long after each other.
RECORDS, PAYLOAD, DELTA = 10, 24, 100


def parcel(rng, stream, number, time):
    """The parcel of this number of a stream of one CPU."""
    data = b"".join(word(PAYLOAD // 4, DELTA) + rng.randbytes(PAYLOAD) for _ in range(RECORDS))
    return sealed(0, stream, struct.pack("<6Q", 0, number, RECORDS * number, 0, time, len(data)) + data)


def pieces(number, streams=1, is_shuffled=False):
    """So many parcels of these streams, in turn or in any order, in the bytes of one file."""
    rng = random.Random(number)
    made = [parcel(rng, at % streams, at // streams, DELTA * RECORDS * at) for at in range(number)]
    if is_shuffled:
        rng.shuffle(made)
    return b"".join(made)
