"""Makes flight files from their format alone (docs/formats, "Flight file" and "Regions")."""

from dataclasses import dataclass, field

from made.flight_dumps import MONOTONIC, Page, u32, u64

HEADER, SLOT, SITES, COUNTS = 4096, 1088, 1 << 20, 2048
LEASES, LEVELS, REASONS = 8, 4, 6


def rounded(size, align):
    return size + -size % align


def at(content, offset, changed):
    """The bytes with others from this offset on."""
    return content[:offset] + changed + content[offset + len(changed) :]


@dataclass
class Ring:
    """A ring's region: its pages by fill, those that are on no slot being overwritten."""

    pages: dict = field(default_factory=dict)  # by fill

    def region(self, cpu, pages, size, stream):
        made = b"tracring" + u64(1, pages, size, cpu % 256, stream, 0, 0) + bytes(64)
        room = rounded(48 + size, 64)
        for fill, page in sorted(self.pages.items()):
            data, time = page.data(), page.records[0][0] if page.records else 0
            made += (u64(cpu, fill, page.first, 0, time, len(data)) + data).ljust(room, b"\0")
        unused = (u64(cpu) + bytes(40)).ljust(room, b"\0")
        return made + unused * (pages + 1 - len(self.pages))


@dataclass
class Slot:
    """What is noted of a thread's slot: leases as the first numbers on each level, the thread and its name."""

    leases: list = field(default_factory=list)
    refused: list = field(default_factory=lambda: [[0] * REASONS for _ in range(LEVELS)])
    version: int = 0
    count: int | None = None  # if not as many as there are

    def bytes(self):
        places = [bytes(8 * (LEVELS + 1) + 64)] * LEASES
        for number, (firsts, thread, name) in enumerate(self.leases):
            firsts = [*firsts, *[0] * (LEVELS - len(firsts))]
            name = name if isinstance(name, bytes) else name.encode()
            places[number % LEASES] = u64(*firsts, thread) + name.ljust(64, b"\0")
        count = len(self.leases) if self.count is None else self.count
        made = u64(self.version, count) + b"".join(places) + b"".join(u64(*counts) for counts in self.refused)
        return made.ljust(SLOT, b"\0")


def site_bytes(site, room=None, length=None):
    """A site of the list, with another room or length than it has."""
    has = site.section()[1]
    room = rounded(8 + len(has), 8) if room is None else room
    return (u32(room, len(has) if length is None else length) + has).ljust(rounded(8 + len(has), 8), b"\0")


@dataclass
class File:
    rings: dict = field(default_factory=dict)  # by slot and level
    slots: dict = field(default_factory=dict)  # by number
    sites: list = field(default_factory=list)  # of bytes, or of Site
    threads: int = 2  # slots
    ring_slots: int = 0  # those that have rings; 0: all
    levels: int = 2
    pages: int = 4
    size: int = 256
    clock: int = MONOTONIC
    pid: int = 1200
    boot: tuple = (0, 0)
    start: tuple = (0, 0)  # the clock, and the nanoseconds from 1970 on
    stamps: int = 2
    stamp: list = field(default_factory=lambda: [(0, 0), (0, 0)])
    no_ring: int = 0
    ended: int = 0
    name: str = "program"

    def room(self, level):
        pages = 2 if level else self.pages
        return rounded(128 + (pages + 1) * rounded(48 + self.size, 64), 4096)

    def areas(self):
        """Where the slots, the sites and the rings begin, and how long they are."""
        slots, sites = self.threads * SLOT, rounded(HEADER + self.threads * SLOT, 4096)
        rings = (self.ring_slots or self.threads) * sum(map(self.room, range(self.levels)))
        return [HEADER, slots, sites, SITES, sites + SITES, rings]

    def ring_at(self, slot, level):
        """Where the region of a ring begins."""
        before = slot * sum(map(self.room, range(self.levels))) + sum(map(self.room, range(level)))
        return self.areas()[4] + before

    def bytes(self):
        sites = b"".join(site if isinstance(site, bytes) else site_bytes(site) for site in self.sites)
        made = b"TRLIVING" + u64(2, self.threads, self.levels, self.pages, self.size, self.clock, self.pid)
        made += u64(*self.areas(), *self.boot, *self.start, self.stamps, *self.stamp[0], *self.stamp[1])
        made += u64(0, len(sites), self.ended, 0, 0, self.ring_slots)
        made = made.ljust(256, b"\0") + self.name.encode().ljust(64, b"\0")
        # (Of the counts of events that had no ring all are summed.)
        counts = [self.no_ring - self.no_ring // 3, *[0] * 30, self.no_ring // 3]
        made = made.ljust(COUNTS, b"\0") + b"".join(u64(count).ljust(64, b"\0") for count in counts)
        made += b"".join(self.slots.get(slot, Slot()).bytes() for slot in range(self.threads))
        made = made.ljust(self.areas()[2], b"\0") + sites.ljust(SITES, b"\0")
        for slot in range(self.ring_slots or self.threads):
            for level in range(self.levels):
                ring = self.rings.get((slot, level), Ring())
                region = ring.region(slot * self.levels + level, 2 if level else self.pages, self.size, 7)
                made += region.ljust(self.room(level), b"\0")
        return made


__all__ = ["File", "Page", "Ring", "Slot", "at", "rounded", "site_bytes"]
