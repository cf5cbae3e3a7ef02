"""Makes dumps of the flight recorder from their format alone (docs/formats, "Flight dump" and "Parcel bytes")."""

import struct
from dataclasses import dataclass, field

from oracles.fleet import crc32c

MONOTONIC, TSC, CALLER = range(3)
PRINTF, BRACES, FIELDS = range(3)
# Levels, as they are added to a style.
ERROR, WARNING, INFO, DEBUG, TRACE = (level << 4 for level in range(1, 6))
# Kinds of arguments.
I8, I16, I32, I64, U8, U16, U32, U64, F32, F64, ADDRESS, TEXT = (
    0x01, 0x02, 0x04, 0x08, 0x11, 0x12, 0x14, 0x18, 0x24, 0x28, 0x38, 0x40,
)


def u32(*numbers):
    return struct.pack(f"<{len(numbers)}I", *numbers)


def u64(*numbers):
    return struct.pack(f"<{len(numbers)}Q", *numbers)


def text(said):
    """A length, and so many bytes."""
    said = said if isinstance(said, bytes) else said.encode()
    return u32(len(said)) + said


def argument(kind, value):
    """The bytes of an argument. A text that is a pair of bytes and True was longer."""
    size = kind & 15
    if kind == TEXT:
        said, cut = value if isinstance(value, tuple) else (value, False)
        said = said if isinstance(said, bytes) else said.encode()
        return struct.pack("<H", len(said) | cut << 15) + said
    if kind >> 4 == 2:
        return struct.pack("<f" if size == 4 else "<d", value)
    return (value % (1 << 8 * size)).to_bytes(size, "little")


@dataclass
class Site:
    id: int
    format: str | bytes
    kinds: list = field(default_factory=list)
    file: str = "main.c"
    line: int = 1
    style: int = PRINTF

    def payload(self, *values):
        return u32(self.id) + b"".join(map(argument, self.kinds, values))

    def section(self):
        kinds = bytes(self.kinds)
        return b"SITE", u32(self.id, self.line, self.style, len(kinds)) + kinds + text(self.file) + text(self.format)


@dataclass
class Page:
    """Records as pairs of a moment and a payload; moments don't fall."""

    first: int
    records: list
    fill: int = 0

    def data(self):
        made, time = b"", None
        for moment, payload in self.records:
            payload += bytes(-len(payload) % 4)
            delta = 0 if time is None else moment - time
            if delta >= 1 << 27:
                made += u32(30 | delta % (1 << 27) << 5, delta >> 27)
                delta = 0
            head = [len(payload) // 4] if len(payload) <= 112 else [0, len(payload) + 4]
            made += u32(head[0] | delta << 5, *head[1:]) + payload
            time = moment
        return made

    def parcel(self, ring):
        data = self.data()
        time = self.records[0][0] if self.records else 0
        return u64(ring % 256, self.fill, self.first, 0, time, len(data)) + data


@dataclass
class Ring:
    number: int
    slot: int = 0
    level: int = 0
    written: int = 0
    refused: list = field(default_factory=lambda: [0] * 6)
    leases: list = field(default_factory=list)  # first number, thread, name
    pages: list = field(default_factory=list)

    def sections(self):
        made = u32(self.number, self.slot, self.level, len(self.pages)) + u64(self.written, *self.refused)
        made += u32(len(self.leases))
        made += b"".join(u64(first) + u32(thread) + text(name) for first, thread, name in self.leases)
        return [(b"RING", made)] + [(b"PAGE", page.parcel(self.number)) for page in self.pages]


@dataclass
class Dump:
    rings: list
    sites: list
    pid: int = 1200
    tid: int = 1200
    signal: int = 0
    clock: int = MONOTONIC
    start: tuple = (0, 0)  # the clock, and the nanoseconds from 1970 on
    end: tuple = (0, 0)
    no_ring: int = 0
    name: str = "program"
    names: list = field(default_factory=list)  # of each slot without rings: moments, threads and their names

    def sections(self):
        process = u32(self.pid, self.tid, self.signal, self.clock) + u64(*self.start, *self.end, self.no_ring)
        made = [(b"PROC", process + text(self.name))]
        for ring in self.rings:
            made += ring.sections()
        for slot in self.names:
            leases = [u64(moment) + u32(thread) + text(name) for moment, thread, name in slot]
            made.append((b"NAME", u32(len(leases)) + b"".join(leases)))
        made += [site.section() for site in self.sites]
        return made + [(b"ENDS", u32(len(made), 0))]

    def bytes(self):
        return joined(self.sections())


def of_thread(thread, payload):
    """The payload of a record that has its thread's number."""
    [id] = struct.unpack_from("<I", payload)
    return u32(id | 1 << 31, thread) + payload[4:]


def section(kind, has):
    """A section, with its checksum."""
    whole = kind + u32(0) + u64(len(has)) + has
    return whole + u64(crc32c(whole))


def joined(sections):
    """The file of these sections, as pairs of a kind and of what they have, or as they are."""
    return b"TRFLIGHT" + u32(2, 0) + b"".join(it if isinstance(it, bytes) else section(*it) for it in sections)
