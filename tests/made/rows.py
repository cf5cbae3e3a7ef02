"""Random exchanges with a ring, by a seed, and what a plain ring answers.

Payloads are often shorter than what is reserved for them, on pages of up to 4,080 bytes, so that a slot which isn't all
zeros at first is noticed.
"""

import random

from oracles.ring import EXTEND_FROM, LINK_FILLS, MOMENT_LIMIT, Ends, Value, line_of

SIZES = [32, 36, 40, 64, 116, 120, 124, 128, 160, 256, 256, 256, 4080, 4080, 4080]
STEPS = [0, 1, 7, 1_000, EXTEND_FROM - 1, EXTEND_FROM]
LENGTHS = [0, 1, 4, 5, 8, 10, 12, 28, 29, 112, 113]
# How often each kind of event comes: a push, a close, what brings the frame on top further (its end if its record is
# reserved, else steps), the other of both, reads, wishes, records that are written whole, and questions.
KINDS = ["push", "push_close", "further", "other", "read", "wish", "write", "question"]
MIXES = [
    [30, 10, 120, 6, 60, 10, 0, 2],
    [40, 10, 140, 6, 30, 5, 10, 2],
    [20, 10, 80, 4, 140, 10, 5, 2],
    [50, 3, 200, 8, 20, 2, 0, 2],
    [5, 5, 30, 2, 10, 5, 120, 2],
    [60, 2, 160, 2, 4, 2, 20, 2],
]


class Source:
    """Makes random lists of events for two plain rings, with what they answer."""

    def __init__(self, seed):
        self.random = random.Random(seed)
        self.pool = self.random.randbytes(1 << 14)

    def begin(self, number):
        pages, size = self.random.choice([2, 3, 4, 5]), self.random.choice(SIZES)
        last = LINK_FILLS - 1 - pages - self.random.randrange(12)
        start = self.random.choice([0, 0, 0, 1, 7, 1_000, last])
        self.value, self.ends = Value(pages, size, start), Ends(pages, size, start)
        self.mix, self.moment = self.random.choice(MIXES), self.random.randrange(5)
        # Of single steps, or of whole calls alone.
        self.step, self.read = self.random.choice([("step", "read"), ("step", "take"), ("finish", "take")])
        return f"[{number}] pages {pages} size {size} start {start}"

    def next_moment(self):
        self.moment += self.random.choice(STEPS)
        kind = self.random.randrange(1_000)
        kinds = [MOMENT_LIMIT - 1, MOMENT_LIMIT, max(self.moment - 9, 0), self.moment]
        return kinds[sum(kind >= at for at in (1, 50, 100))]

    def length(self):
        size = self.value.size
        near = [size - 8, size - 7, size - 4, size - 3, size, size + 1]
        return self.random.choice(LENGTHS * 2 + near + [self.random.randrange(size + 2)])

    def payload(self, length):
        """A payload of at most that length, and often shorter."""
        length = self.random.choice([length, self.random.randrange(length + 1)])
        at = self.random.randrange(len(self.pool) - length)
        return self.pool[at : at + length]

    def event(self):
        """The next event: a call with its arguments."""
        kind, wanted = self.random.choices(KINDS, self.mix)[0], self.value.wanted()
        if kind == "push" or (kind == "further" and not self.value.frames):
            return "push", self.next_moment(), self.length()
        if kind == "write":
            length = self.length()
            return "write", self.next_moment(), self.pool[:length]
        if (kind, wanted is None) in (("further", False), ("other", True)):
            return "end", self.payload(wanted or 0)
        if kind in ("further", "other"):
            return (self.step,)
        if kind == "question":
            return (self.random.choice(["top", "depth"]),)
        return (self.read if kind == "read" else kind,)

    def row(self, number):
        """A row of events, with what is answered."""
        lines, rings = [self.begin(number)], (self.value, self.ends)
        for _ in range(self.random.choice([30, 30, 30, 60, 100])):
            lines.append(line_of(rings, *self.event()))
        return [*lines, line_of(rings, "take"), line_of(rings, "settle")]
