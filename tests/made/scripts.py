"""Scripts made at random, by a seed: with few small pages, so that rings are often full, and with nested frames.

Now and then the first fill is near the last one that may be begun.
"""

import random

from oracles.history import EXTEND_FROM, LINK_FILLS, MOMENT_LIMIT

LINES = "wbsfctrad"
# How often each of these lines comes.
MIXES = (
    (9, 0, 0, 0, 3, 4, 0, 1, 3),
    (6, 5, 0, 5, 1, 3, 0, 1, 2),
    (3, 6, 0, 5, 2, 1, 0, 0, 1),
    (4, 3, 0, 3, 1, 4, 0, 5, 2),
    (9, 2, 0, 2, 0, 4, 0, 4, 2),
    (6, 3, 3, 3, 1, 3, 0, 1, 2),
    (6, 1, 1, 1, 1, 3, 3, 2, 2),
    (3, 4, 4, 4, 1, 2, 2, 2, 1),
)
# By how much the moment moves, how long a script is, and how many fills are delivered at its end.
DELTAS = (0, 1, 3, 40, -7, EXTEND_FROM - 1, EXTEND_FROM)
LENGTHS, DELIVERED = (8, 16, 16, 24, 24, 40), 9


class Source:
    """Makes one script after the other."""

    def __init__(self, seed):
        self.random = random.Random(seed)

    def begin(self):
        choice = self.random.choice
        self.pages, self.size, self.cpus, self.collectors = choice((2, 2, 3, 4)), choice((32, 32, 36, 48, 128)), 1, 1
        if self.random.random() < 0.3:
            self.cpus, self.collectors = choice((1, 2)), choice((1, 2))
        self.start = choice((0, 0, 0, 0, 0, 1, 9, LINK_FILLS - 1 - self.pages - self.random.randrange(5)))
        self.moment, self.mix = 0, choice(MIXES)
        values = {"pages": self.pages, "size": self.size, "cpus": self.cpus, "collectors": self.collectors}
        return [f"{word} {value}" for word, value in values.items()] + [f"start {self.start}"] * (self.start > 0)

    def record(self):
        """The moment and the payload of a record: some are too late, and some have no room in a page."""
        choice = self.random.choice
        self.moment = max(self.moment + choice(DELTAS), 0)
        moment = choice((self.moment,) * 30 + (MOMENT_LIMIT - 1, MOMENT_LIMIT))
        length = choice((0, 3, 4, 8, 12, 12, 20, self.size - 8, self.size - 4, self.size - 4, self.size - 3))
        return f"{moment} {self.random.randbytes(length).hex() or '-'}"

    def line(self):
        kind, cpu = self.random.choices(LINES, self.mix)[0], f"c{self.random.randrange(self.cpus)}"
        if kind == "d":
            return f"d {self.random.randrange(self.collectors)} {cpu} {self.start + self.random.randrange(6)}"
        if kind in "sr":
            return f"{cpu} {kind} {self.random.choice((1, 1, 2, 3, 5, 9))}"
        return f"{cpu} {kind} {self.record()}" if kind in "wb" else f"{cpu} {kind}"

    def script(self):
        lines = self.begin() + [self.line() for _ in range(self.random.choice(LENGTHS))]
        for cpu in range(self.cpus):
            lines += [f"d 0 c{cpu} {fill}" for fill in range(self.start, self.start + DELIVERED)]
        return "\n".join(lines).encode() + b"\n"

    def scripts(self, count):
        return (self.script() for _ in range(count))
