"""Streams of pieces made at random, of several streams and CPUs, by a seed.

Parcels have pages of made histories, as those of parcels.py, and pages of running kernels; they overlap, come
again and in any order, and some are forged. Marks are true or not. Bytes are changed, with a right checksum or without,
and cut.
"""

import random
import struct

from made import parcels
from made.texts import CAPTURES, data_of
from oracles.fleet import HEAD, SUM, Collected, mark_bytes, sealed
from oracles.image import LIMIT, Fault, reading

# Captures whose pages have been read, and are numbered here anew; and how many pages a CPU has of them at most.
REAL, PAGES = ("exact/cpu0.raw.gz", "stamps/cpu0.raw.gz", "overrun/cpu1.raw", "live/cpu0.raw.gz"), 3
STREAMS = [0, 1, 2, 7, 1 << 32, 1 << 63, LIMIT - 1]
PIECES, FILES = 14, 3

def trimmed(image):
    """The image of a page without the room behind its data."""
    time, commit = struct.unpack_from("<QQ", image)
    size = commit & 0x3FFF_FFFF
    return time, image[16 : 16 + size]


def real_pages():
    """The time, the data and the number of records of each page that has been read from a kernel."""
    found = []
    for name in REAL:
        data = data_of(CAPTURES / name)
        for at in range(0, len(data), 4096):
            try:
                read = reading(data[at : at + 4096])[3]
            except Fault:
                continue
            if 0 < len(read) < 120:
                found.append((*trimmed(data[at : at + 4096]), len(read)))
    return found


class Owner:
    """A CPU of a stream: what it may say of itself. It has numbers from `least` up to its end."""

    def __init__(self, source, stream, cpu):
        self.source, self.random, self.stream, self.cpu = source, source.random, stream, cpu

    def number(self):
        """A number of the CPU, above 0 and at most its end."""
        near = self.random.randrange(self.least, self.end + 1)
        return max(1, self.random.choice([near, near, near, self.end, self.random.randrange(self.end + 1)]))

    def packed(self, first, missed, time, data, fill=None):
        """The bytes of a parcel's piece."""
        commit = len(data) | bool(missed) << 31
        fill = self.random.choice([0, 1, LIMIT - 1]) if fill is None else fill
        body = struct.pack("<6Q", self.cpu, fill, first, missed, time, commit) + data
        return sealed(0, self.stream, body)

    def mark(self, kind, *numbers):
        return mark_bytes(kind, self.stream, self.cpu, *numbers)

    def true_mark(self):
        kind = self.random.choice(["end", "forgotten", "forgotten", "undelivered", "undelivered"])
        if kind == "end":
            return self.mark(kind, self.end)
        first, last = sorted([self.number(), self.number()])
        return self.mark(kind, first) if kind == "forgotten" else self.mark(kind, first - 1, last)

    def false_mark(self):
        """A mark of another end, or of numbers that may be beyond it; or one that says nothing."""
        number = self.number()
        numbers = {
            "end": [self.random.choice([number, self.end + 1, 0])],
            "forgotten": [self.random.choice([0, self.end + 1, self.end + 1, LIMIT - 1])],
            "undelivered": self.random.choice([[number, number], [number, self.end + 1], [self.end, self.end + 2]]),
        }
        kind = self.random.choice([*numbers])
        return self.mark(kind, *(min(number, LIMIT - 1) for number in numbers[kind]))


class Made(Owner):
    """It has a made history."""

    def __init__(self, source, stream, cpu, history):
        super().__init__(source, stream, cpu)
        self.history, self.least = history, min(history)
        self.end = min(max(history) + 1 + self.random.choice([0, 0, 1, 5]), LIMIT - 1)

    def parcel(self, is_forged=False):
        made = self.source.parcels
        made.histories = {self.cpu: self.history}
        cpu, first, missed, records = made.genuine()
        if is_forged:
            _, first, missed, records = made.forged(cpu, first, missed, records)
        return self.packed(first, missed, *made.data(records))


class Real(Owner):
    """It has pages of a running kernel, with a loss before some."""

    def __init__(self, source, stream, cpu, pages):
        super().__init__(source, stream, cpu)
        self.pages, number = [], self.random.choice(parcels.BASES)
        number = min(number, LIMIT - 1000)
        self.least = number
        for time, data, count in pages:
            missed = self.random.choice([0, 0, 1, 30])
            self.pages.append((number + missed, missed, time, data))
            number += missed + count
        self.end = number + self.random.choice([0, 0, 7])

    def parcel(self, is_forged=False):
        first, missed, time, data = self.random.choice(self.pages)
        if is_forged:
            first, missed, time = self.random.choice(
                [(first + 1, missed, time), (first, min(missed + 1, first), time), (first, missed, (time + 1) % LIMIT)]
            )
        return self.packed(first, missed, time, data)


class Source:
    """Makes cases."""

    def __init__(self, seed):
        self.random = random.Random(seed)
        self.parcels = parcels.Source(0)
        self.parcels.random = self.random
        self.real = real_pages()

    def owners(self):
        """CPUs of streams, some of which have the same history, so that they have records of one moment."""
        found, known = [], []
        for stream in self.random.sample(STREAMS, self.random.choice([1, 1, 2, 3])):
            self.parcels.begin()
            for cpu, history in self.parcels.histories.items():
                if self.random.random() < 0.15:
                    at = self.random.randrange(len(self.real) - PAGES)
                    found.append(Real(self, stream, cpu, self.real[at : at + self.random.randint(1, PAGES)]))
                else:
                    known.append(history)
                    found.append(Made(self, stream, cpu, self.random.choice([history, known[0]])))
        return found

    def pieces(self, owners, falsehood):
        """The bytes of pieces, of which a part is false."""
        found = []
        for _ in range(self.random.choice([1, 2, PIECES, PIECES, 2 * PIECES])):
            owner, is_false = self.random.choice(owners), self.random.random() < falsehood
            if self.random.random() < 0.75:
                found.append(owner.parcel(is_false))
            else:
                found.append(owner.false_mark() if is_false else owner.true_mark())
            if self.random.random() < 0.2:
                found.append(self.random.choice(found))
        for owner in owners * 2:
            if self.random.random() < 0.3:
                is_false = self.random.random() < 3 * falsehood
                found.append(owner.mark("end", owner.number() if is_false else owner.end))
        return found

    def damaged(self, data):
        """A piece with a byte changed, or cut, or one that says something else with a right checksum."""
        what, changed = self.random.random(), bytearray(data)
        if what < 0.2:
            return data[: self.random.randrange(1, len(data))]
        if what < 0.4:
            changed[self.random.randrange(len(data))] ^= 1 << self.random.randrange(8)
            return bytes(changed)
        if what < 0.55:
            # Of the letters, the version or the length.
            changed[self.random.choice([0, 7, 8, 11, 16, 17, 18, 19, 23])] ^= 1 << self.random.randrange(8)
            return bytes(changed)
        kind, stream = struct.unpack_from("<I8xQ", data, 12)
        return sealed(*self.otherwise(kind, stream, data[HEAD:-SUM]))

    def otherwise(self, kind, stream, body):
        """A kind, a stream and a body that differ in one of them from these."""
        what, changed = self.random.random(), bytearray(body)
        if what < 0.3:
            return self.random.choice([0, 1, 2, 3, 4, 255, (1 << 32) - 1]), stream, body
        if what < 0.5:
            return kind, stream, body + bytes(self.random.choice([1, 4, 8]))
        if what < 0.6:
            return kind, stream, body[:16]
        changed[self.random.choice([self.random.randrange(len(body)), *range(8)])] = self.random.randrange(256)
        return kind, stream, bytes(changed)

    def inputs(self):
        """The bytes of one to three inputs, each of which begins as a stream does; and whether all is true."""
        falsehood = self.random.choice([0, 0, 0.05, 0.1, 0.3])
        pieces = self.pieces(self.owners(), falsehood)
        self.random.shuffle(pieces)
        is_true = falsehood == 0
        if self.random.random() < 0.3:
            is_true, at = False, self.random.randrange(len(pieces))
            pieces[at] = self.damaged(pieces[at])
            if self.random.random() < 0.2:
                pieces.append(self.random.choice([b"T", b"TRPARCEL", b"X", b"\0" * 40]))
        files = [[] for _ in range(self.random.choice([1, 1, 2, FILES]))]
        for piece in pieces:
            self.random.choice(files).append(piece)
        inputs = [b"".join(file) for file in files]
        inputs = [data for data in inputs if data.startswith(b"TRPARCEL")]
        return (inputs, is_true) if inputs else self.inputs()


def texts(count, seed, is_json=False):
    """What is printed of so many fleets, of which all that pieces say is true."""
    source = Source(seed)
    for at in range(count):
        pieces = source.pieces(source.owners(), 0)
        yield f"fleet-{at}", Collected(pieces, is_json).text
