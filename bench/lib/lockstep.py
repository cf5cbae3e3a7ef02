"""Scripts that the kernel's ring and ours are to obey alike, made from seeds.

A script has one CPU, one collector and pages of 4,080 bytes. Records are written whole, or by frames that interrupt
each other up to four deep, each after the one below has reserved; pages are taken where no frame is open, and each is
delivered. Payloads have any length but 5 to 8 bytes, for which the kernel makes longer records. No record is refused
but for its length: while frames are open, others write only as long as the ring has a closed page to lose.
"""

import random

SIZE = 4_080
MOST_FRAMES = 4
LONGEST = SIZE - 8


class Ring:
    """As much of a ring as tells how many steps a frame takes until it has reserved, and which fill is taken next."""

    def __init__(self, pages):
        self.pages = pages
        self.head, self.done, self.opened = 0, 0, 1
        self.used = self.count = self.last = 0
        self.depth = 0

    def begin(self, moment, length):
        """A frame of this moment and payload reserves: how many steps that takes."""
        slot = max(length, 1) + 3 & ~3
        size = slot + (4 if slot <= 112 else 8)
        extend = 8 if self.count and moment - self.last >= 1 << 27 else 0
        steps = 1
        if self.used + extend + size > SIZE:
            steps += self.turn() + 1
            extend = 0
        self.used += extend + size
        self.count += 1
        self.last = moment
        self.depth += 1
        return steps

    def turn(self):
        """The next page is opened: how many steps that takes. The oldest page is lost if it lies there."""
        oldest = self.opened - self.pages
        loses = self.head == oldest
        self.head += loses
        self.opened += 1
        self.used = self.count = 0
        return 6 if loses else 2

    def end(self):
        self.depth -= 1
        if not self.depth:
            self.done = self.opened - 1

    def has_room(self):
        """Whether a record of any length may be written."""
        return self.opened - self.done < self.pages


class Maker:
    """Makes one script; `nested` says whether frames interrupt each other."""

    def __init__(self, seed, nested):
        self.rng = rng = random.Random(seed)
        self.ring, self.nested = Ring(rng.choice([2, 2, 3, 3, 4, 5, 6, 8, 11, 16])), nested
        self.lines = [f"pages {self.ring.pages}", f"size {SIZE}", "cpus 1", "collectors 1"]
        self.now = rng.choice([0, 1, 1_000, 1 << 40])
        self.serial = self.records = 0
        self.lengths = rng.choice([self.tiny, self.small, self.mixed, self.mixed, self.large, self.edge])
        self.deltas = rng.choice(["slow", "mixed", "leaps"])

    # ---- lengths, moments and payloads

    def tiny(self):
        return self.rng.randint(0, 24)

    def small(self):
        return self.rng.randint(0, 112)

    def mixed(self):
        least, most = self.rng.choice([(0, 4), (9, 112), (9, 112), (100, 130), (113, 600), (600, LONGEST)])
        return self.rng.randint(least, most)

    def large(self):
        return self.rng.choice([self.rng.randint(9, 112), self.rng.randint(1_000, LONGEST), LONGEST, LONGEST - 1])

    def edge(self):
        """Often what just fits the tail page, or leaves few bytes of it."""
        left = SIZE - self.ring.used
        if left > 700 or self.rng.random() < 0.3:
            return self.rng.randint(9, 600)
        length = left - self.rng.choice([0, 0, 4, 4, 8, 12, -4, 16]) - 4
        return max(length - 4 if length > 112 else length, 0)

    def length(self):
        while 5 <= (length := self.lengths()) <= 8:
            pass
        return length

    def moment(self):
        rng = self.rng
        steps = [0, rng.randrange(5_000)]
        if self.deltas != "slow":
            steps += [rng.randrange(1 << 20), (1 << 27) + rng.randint(-2, 2)]
        if self.deltas == "leaps":
            steps += [rng.randrange(1 << 33), rng.randrange(1 << 46)]
        self.now += rng.choice(steps)
        return self.now

    def payload(self, length):
        self.serial += 1
        return (self.serial.to_bytes(4, "little") + self.rng.randbytes(length))[:length].hex() or "-"

    # ---- what happens

    def begin(self, word):
        length, moment = self.length(), self.moment()
        self.lines.append(f"c0 {word} {moment} {self.payload(length)}")
        self.records += 1
        return self.ring.begin(moment, length)

    def write(self):
        self.begin("w")
        self.ring.end()

    def write_too_long(self):
        self.lines.append(f"c0 w {self.moment()} {self.payload(self.rng.randint(LONGEST + 1, 5_000))}")

    def frame(self, going_on):
        """A frame, and what interrupts it."""
        rng, ring = self.rng, self.ring
        if ring.depth == MOST_FRAMES - 1 or rng.random() < 0.3:
            return self.write()
        self.lines.append(f"c0 s {self.begin('b')}")
        while rng.random() < going_on and ring.has_room():
            self.frame(going_on * 0.8)
        self.lines.append("c0 f")
        ring.end()

    def take(self):
        """Says whether a page was there."""
        ring = self.ring
        self.lines.append("c0 t")
        if ring.head == ring.done:
            return False
        self.lines.append(f"d 0 c0 {ring.head}")
        ring.head += 1
        return True

    def drain(self):
        """All closed pages are taken, and then the tail page."""
        while self.take():
            pass
        if self.ring.count:
            self.lines.append("c0 c")
            self.ring.turn()
            self.ring.done = self.ring.opened - 1
            self.take()

    def make(self):
        rng, ring = self.rng, self.ring
        rounds, eager = rng.choice([2, 4, 8]), rng.choice([0.0005, 0.003, 0.01, 0.03, 0.1])
        while ring.opened < ring.pages * rounds + 2:
            if self.nested:
                self.frame(0.8)
            else:
                self.write()
            if rng.random() < 0.002:
                self.write_too_long()
            if rng.random() < eager:
                for _ in range(rng.randint(1, ring.pages)):
                    if not self.take():
                        break
        self.drain()
        return "\n".join(self.lines) + "\n"
