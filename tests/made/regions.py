"""Regions made at random, by a seed: what made rings leave at any moment. Of many some bits are changed, a commit is
torn, slots are exchanged, or the file is cut.
"""

import random
import struct

from oracles.region import START, stride

STREAMS = (0, 1, 0x0000000C_00000003, (1 << 64) - 1)
BASES = (0, 0, 0, 7, (1 << 32) - 3, (1 << 64) - 5_000)


class Ring:
    """A made ring: its writer opens fill after fill, and its reader takes the oldest closed page that is unread."""

    def __init__(self, rng):
        self.random = rng
        self.pages, self.size = rng.choice([2, 2, 3, 4, 9]), rng.choice([32, 32, 64, 100, 2048])
        self.cpu, self.stream = rng.choice([0, 1, 255]), rng.choice(STREAMS)
        self.next, self.moment, self.fill, self.taken = rng.choice(BASES), rng.randrange(1000), -1, 0
        self.base = self.next
        # The slot of each place, and the reader's; in each slot a fill, a first number, a time and data.
        self.order, self.spare = [*range(self.pages)], self.pages
        self.slots = [[0, 0, 0, b""] for _ in range(self.pages + 1)]
        self.ends, self.unread, self.records = {}, [], {}
        if self.next and rng.random() < 0.5:
            self.taken = self.next

    def open(self):
        self.fill += 1
        self.unread = [fill for fill in self.unread if fill > self.fill - self.pages]
        self.slots[self.order[self.fill % self.pages]] = [self.fill, self.next, self.moment, b""]

    def write(self):
        """Writes a record, on the next page if there is no room for it."""
        payload = self.random.randbytes(4 * self.random.choice([1, 1, 1, 2, 6]))
        delta = self.random.choice([0, 1, 1, 7, 1 << 20])
        if self.fill < 0 or len(self.slots[self.order[self.fill % self.pages]][3]) + 4 + len(payload) > self.size:
            if self.fill >= 0:
                self.unread.append(self.fill)
                self.ends[self.fill] = self.next
            self.open()
        slot = self.slots[self.order[self.fill % self.pages]]
        self.moment += delta
        if not slot[3]:
            slot[2], delta = self.moment, 0
        slot[3] += struct.pack("<I", len(payload) // 4 | delta << 5) + payload
        self.records[self.next] = (self.moment, payload)
        self.next += 1

    def take(self):
        if self.unread:
            fill = self.unread.pop(0)
            place = fill % self.pages
            self.order[place], self.spare = self.spare, self.order[place]
            self.taken = self.ends[fill]

    def go_on(self):
        for _ in range(self.random.choice([0, 3, 20, 60])):
            self.write() if self.random.random() < self.random.choice([0.7, 0.9]) else self.take()

    def region(self):
        """Its bytes now."""
        ended = self.random.choice([0, 0, 1])
        head = struct.pack("<7Q", 1, self.pages, self.size, self.cpu, self.stream, self.taken, ended)
        data = (b"tracring" + head).ljust(START, b"\0")
        for fill, first, time, found in self.slots:
            slot = struct.pack("<6Q", self.cpu, fill, first, 0, time, len(found)) + found
            data += slot.ljust(stride(self.size), self.random.choice([b"\0", b"\xff"]))
        return data + self.random.choice([b"", b"", b"behind"])


class Source:
    """Makes cases."""

    def __init__(self, seed):
        self.random = random.Random(seed)

    def forged(self, data, ring):
        """A region with something changed."""
        what, changed, width = self.random.random(), bytearray(data), stride(ring.size)
        slots = [START + at * width for at in range(ring.pages + 1)]
        at = self.random.choice(slots)
        if what < 0.1:
            return data[: self.random.randrange(len(data))]
        if what < 0.25:
            # A header that says something else.
            place = self.random.choice([0, 8, 16, 24, 32, 40, 48, 56])
            few = [0, 1, 2, 3, 33, 64, 256, 1025, 65_524, (1 << 64) - 1, self.random.randrange(1 << 64)]
            changed[place : place + 8] = struct.pack("<Q", self.random.choice(few))
        elif what < 0.45:
            # A commit that is torn, or that says too much.
            commit = struct.unpack_from("<Q", data, at + 40)[0]
            few = [0, 4, commit // 2, commit - 4, commit + 4, ring.size, ring.size + 4, 1 << 31, commit | 1 << 32]
            changed[at + 40 : at + 48] = struct.pack("<Q", self.random.choice(few) % (1 << 64))
        elif what < 0.7:
            # Numbers of a slot.
            place = at + self.random.choice([0, 8, 16, 24, 32])
            other = struct.unpack_from("<Q", data, self.random.choice(slots) + place - at)[0]
            few = [other, other + 1, 0, 1, (1 << 64) - 1, self.random.randrange(1 << 64)]
            changed[place : place + 8] = struct.pack("<Q", self.random.choice(few) % (1 << 64))
        elif what < 0.8:
            # One slot in the place of another.
            there = self.random.choice(slots)
            changed[there : there + width] = data[at : at + width]
        else:
            for _ in range(self.random.choice([1, 1, 2, 8])):
                changed[self.random.randrange(len(data))] ^= 1 << self.random.randrange(8)
        return bytes(changed)

    def inputs(self):
        """The bytes of one to three regions, and the rings that left them, if none is forged."""
        rings = [Ring(self.random) for _ in range(self.random.choice([1, 1, 2]))]
        found, is_forged = [], self.random.random() < 0.6
        for _ in range(self.random.choice([1, 1, 2, 3])):
            ring = self.random.choice(rings)
            ring.go_on()
            data = ring.region()
            found.append((self.forged(data, ring) if is_forged and self.random.random() < 0.7 else data, ring))
        return [data for data, _ in found], [] if is_forged else [ring for _, ring in found]
