"""Parcels made at random, by a seed: parts of made histories, some of them made wrong or damaged; and lists of events with
collectors that they are added to, with what a plain collector answers.
"""

import random
import struct

from made.images import word
from oracles.collector import MAX_CPUS, NUMBERS, Row
from oracles.image import LIMIT

# Of how many events a list is, and how many parcels these choose from.
EVENTS, POOL = 30, 12
# How many numbers the records of a CPU in a list have, and what they begin with.
HISTORY = 40
BASES = [0, 0, 0, 5, 1 << 32, LIMIT - HISTORY - 2]
KINDS = ["add", "merge", "same", "holds", "get", "parcel", "of", "image", "show"]
MIX = [60, 14, 4, 8, 20, 5, 3, 2, 4]
STEPS = [0, 0, 1, 7, 1_000, (1 << 27) - 1, 1 << 27, 1 << 31]
# From this distance on, a record needs a time extend before it.
EXTEND_FROM = 1 << 27


def long_word(kind, delta, second):
    return word(kind, delta) + struct.pack("<I", second)


def image_of(time, data, missed, rest=b"", flags=None, ignored=0):
    """An image with this rest after its data, in which the count is put if it has room."""
    if flags is None:
        flags = 0 if not missed else 3 if len(rest) >= 8 else 1
    if flags == 3 and len(rest) >= 8:
        rest = struct.pack("<Q", missed) + rest[8:]
    commit = len(data) | (flags & 1) << 31 | (flags >> 1) << 30 | ignored << 32
    return struct.pack("<QQ", time, commit) + data + rest


def parcel_bytes(cpu, fill, first, missed, image):
    return struct.pack("<4Q", cpu, fill, first, missed) + image


class Source:
    """Makes parcels of random histories, one for each CPU of a list."""

    def __init__(self, seed):
        self.random = random.Random(seed)

    def history(self, base):
        """The records of a CPU, some of which are lost, by their numbers."""
        moment, lost, records = self.random.randrange(1 << 40), False, {}
        for number in range(base, base + HISTORY):
            moment += self.random.choice(STEPS)
            lost = lost != (self.random.random() < 0.15)
            payload = self.random.randbytes(4 * self.random.choice([1, 1, 1, 2, 3, 0, 28, 29]))
            records[number] = None if lost else (moment, payload)
        return records

    def begin(self):
        cpus = self.random.sample([0, 1, 2, 63, 64, MAX_CPUS - 1], self.random.choice([1, 1, 2, 3]))
        base = self.random.choice(BASES)
        self.histories = {cpu: self.history(base) for cpu in cpus}

    def genuine(self):
        """The CPU, the first number, the missed count and the records of a part of a history."""
        cpu, history = self.random.choice([*self.histories.items()])
        first = self.random.choice([*history])
        while history.get(first - 1, 0) is None and self.random.random() < 0.8:
            first -= 1
        missed = 0
        while history.get(first, 0) is None:
            first, missed = first + 1, missed + 1
        records = []
        while history.get(first + len(records)) and self.random.random() < 0.8:
            records.append(history[first + len(records)])
        # All that is before a history is lost too.
        if first - missed == min(history) and self.random.random() < 0.5:
            missed = first
        return cpu, first, missed, records

    def number(self):
        """A CPU and a number of which something may be known."""
        cpu, history = self.random.choice([*self.histories.items()])
        number = self.random.choice([*history, min(history) - 1, max(history) + 1, self.random.randrange(LIMIT)])
        return cpu, min(max(number, 0), LIMIT - 1)

    def forged(self, cpu, first, missed, records):
        """The same with something wrong."""
        what = self.random.randrange(6)
        if what == 0 and records:
            at = self.random.randrange(len(records))
            moment, payload = records[at]
            records[at] = (max(moment + self.random.choice([-1, 1]), 0), payload)
        elif what == 1 and records:
            at = self.random.randrange(len(records))
            moment, payload = records[at]
            records[at] = (moment, payload[:-1] + bytes([payload[-1] ^ 1]) if payload else b"\0" * 4)
        elif what == 2:
            missed = self.random.choice([missed + 1, max(missed - 1, 0), first, first + 1, LIMIT - 1])
        elif what == 3:
            first = self.random.choice([first + 1, max(first - 1, 0), LIMIT - 1, LIMIT - 2])
        elif what == 4:
            cpu = self.random.choice([0, 1, 255, 256, 1 << 32])
        else:
            records = records + [(5, b"\7\7\7\7")]
        return cpu, first, missed, records

    def data(self, records):
        """The time and the data of a page of these records, in any of the forms that words have."""
        time = start = records[0][0] if records else self.random.randrange(LIMIT)
        data = b""
        for moment, payload in records:
            delta, chance = moment - time, self.random.random()
            if delta < 0 or (chance < 0.1 and moment < 1 << 59):
                data, delta = data + long_word(31, moment % EXTEND_FROM, moment >> 27), 0
            elif delta >= EXTEND_FROM or chance < 0.2:
                data, delta = data + long_word(30, delta % EXTEND_FROM, delta >> 27), 0
            elif chance < 0.25:
                data += long_word(29, 5, 8) + b"\1\2\3\4"
            short = 1 <= len(payload) // 4 <= 28 and self.random.random() < 0.9
            data += word(len(payload) // 4, delta) if short else long_word(0, delta, len(payload) + 4)
            data, time = data + payload, moment
        return start, data + (word(29, 0) + b"\1" * 5 if self.random.random() < 0.05 else b"")

    def damaged(self, data):
        if self.random.random() < 0.5:
            return data[: self.random.randrange(len(data))]
        data = bytearray(data)
        for _ in range(self.random.choice([1, 1, 2])):
            data[self.random.randrange(len(data))] = self.random.choice([0, 1, 29, 30, 128, 255])
        return bytes(data)

    def parcel(self):
        """The bytes of a parcel, of which one in four is wrong."""
        cpu, first, missed, records = self.genuine()
        chance = self.random.random()
        if chance < 0.2:
            cpu, first, missed, records = self.forged(cpu, first, missed, records)
        rest = self.random.choice([b"", bytes(4), bytes(8), self.random.randbytes(self.random.choice([3, 8, 9, 20]))])
        flags = self.random.choice([None] * 12 + [0, 1, 2, 3]) if missed else self.random.choice([None, None, 2])
        ignored = self.random.choice([0, 0, 0, (1 << 32) - 1])
        image = image_of(*self.data(records), missed, rest, flags, ignored)
        data = parcel_bytes(cpu, self.random.choice([0, 1, LIMIT - 1]), first, missed, image)
        return self.damaged(data) if chance > 0.92 else data

    def event(self, count):
        """The next event, of so many collectors."""
        kind, data = self.random.choices(KINDS, MIX)[0], self.random.choice(self.pool)
        at = self.random.randrange(count)
        if kind in ("merge", "same"):
            return kind, at, (at + self.random.randrange(1, count)) % count
        if kind in ("add", "holds"):
            return kind, at, data
        if kind == "get":
            return kind, at, *self.number()
        if kind == "of":
            numbers = [self.random.choice([0, 1, 2, 7, MAX_CPUS]), 3]
            numbers += [self.random.choice([0, 1, 5, LIMIT - 2, LIMIT - 1]) for _ in range(2)]
            return kind, *numbers, data[NUMBERS:]
        return {"parcel": ("parcel", data), "image": ("image", data[NUMBERS:]), "show": ("show",)}[kind]

    def row(self, number):
        """A list of events, with what is answered."""
        self.begin()
        self.pool = [self.parcel() for _ in range(POOL)]
        count = self.random.choice([2, 3, 4])
        row = Row(f"list {number}", count)
        for _ in range(EVENTS):
            row.ask(*self.event(count))
            if row.answers[-1].startswith(("Clash", "TakenAndMissing")) and self.random.random() < 0.5:
                row.ask("show")
        row.ask("show")
        return row


def counted_parcel():
    """Of CPU 1 and fill 7, with the numbers 5 to 7 and three missing before them; the image stores their count."""
    data = word(1, 0) + b"abcd" + word(2, 9) + b"efghijkl" + long_word(0, 1, 12) + b"mnopqrst"
    return parcel_bytes(1, 7, 5, 3, image_of(1_000, data, 3, bytes(16)))


def uncounted_parcel():
    """Of CPU 0 and fill 1, with the number 1 and one missing before it; the image has no room for their count."""
    return parcel_bytes(0, 1, 1, 1, image_of(2, word(7, 0) + b"\2" * 28, 1, bytes(4)))
