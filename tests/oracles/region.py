"""A plain `recover` of regions, to compare with the program's: it works out from their bytes what docs/formats says is
recovered of them, in "Regions", and prints it as "Recovery" and "Fleets" there say.

    PYTHONPATH=tests python3 -m oracles.region [--json] [--keep FILE] FILE..     - is standard input

The pieces that regions tell are packed as a stream for each, and fleet.py lists these.
"""

import struct
import sys
from pathlib import Path

from oracles.collector import MAX_CPUS
from oracles.fleet import Collected, json_line, mark_bytes, name_of, sealed
from oracles.image import Fault, reading

MAGIC, VERSION = b"tracring", 1
# How many bytes are before the first slot, how many of a slot are before its data, and of what each slot's are a
# multiple.
START, HEAD, ALIGN = 128, 48, 64
LEAST_PAGES, MOST_PAGES, LEAST_SIZE, MOST_SIZE = 2, 1024, 32, 65_520
LIMIT = 1 << 64


class NoRegion(Exception):
    """What is wrong with a header, and where, if it is somewhere."""


class Damage(Exception):
    """What is wrong with a slot, and where in it."""


def stride(size):
    """How many bytes a slot takes."""
    return -(-(HEAD + size) // ALIGN) * ALIGN


class Page:
    """A slot whose page reads: its fill, its first number, its records, its time and its data."""

    def __init__(self, slot, fill, first, time, data, records):
        self.slot, self.fill, self.first, self.time, self.data, self.missed = slot, fill, first, time, data, 0
        self.past = first + len(records)


def page_in(cpu, size, slot, data):
    """The page in a slot, or nothing if nothing is committed."""
    own, fill, first, missed, time, commit = struct.unpack_from("<6Q", data)
    if commit == 0:
        return None
    if own != cpu:
        raise Damage("OtherCpu", 0)
    if missed != 0:
        raise Damage("Missed", 24)
    if commit > size:
        raise Damage("BadCommit", 40)
    try:
        records = reading(data[32 : HEAD + commit])[3]
    except Fault as fault:
        cause, at = str(fault).split(" at ")
        raise Damage(cause, HEAD + int(at)) from fault
    if first + len(records) >= LIMIT:
        raise Damage("NumberOverflow", 16)
    return Page(slot, fill, first, time, data[HEAD : HEAD + commit], records)


class Region:
    """What a region has: its pages by fill, and its damaged slots."""

    def __init__(self, data):
        self.read_header(data)
        self.pages, self.damaged = [], []
        pages = []
        for slot in range(self.count + 1):
            at = START + slot * stride(self.size)
            try:
                pages.append(page_in(self.cpu, self.size, slot, data[at : at + HEAD + self.size]))
            except Damage as damage:
                self.damage(slot, *damage.args)
        # What ends below `taken` was taken before the last page that was, or is overwritten.
        unpassed = [page for page in pages if page and page.past >= self.taken]
        self.keep(sorted(unpassed, key=lambda page: (page.fill, page.slot)))

    def read_header(self, data):
        if len(data) < START:
            raise NoRegion("TooShort")
        version, self.count, self.size, self.cpu, self.stream, self.taken, ended = struct.unpack_from("<7Q", data, 8)
        checks = (
            ("NotARegion", 0, data[:8] == MAGIC),
            ("BadVersion", 8, version == VERSION),
            ("BadPages", 16, LEAST_PAGES <= self.count <= MOST_PAGES),
            ("BadSize", 24, LEAST_SIZE <= self.size <= MOST_SIZE and self.size % 4 == 0),
            ("BadCpu", 32, self.cpu < MAX_CPUS),
            ("BadEnd", 56, ended in (0, 1)),
        )
        for name, at, holds in checks:
            if not holds:
                raise NoRegion(f"{name} at {at}")
        if len(data) < START + (self.count + 1) * stride(self.size):
            raise NoRegion("TooShort")
        self.ended = ended == 1

    def damage(self, slot, cause, at):
        self.damaged.append((slot, START + slot * stride(self.size) + at, cause))

    def keep(self, pages):
        """Keeps each page that may follow the one that was kept before it, and works out what is missing before it."""
        for page in pages:
            last = self.pages[-1] if self.pages else None
            if last and page.fill == last.fill:
                self.damage(page.slot, "SameFill", 8)
            elif last and page.first < last.past:
                self.damage(page.slot, "Overlap", 16)
            else:
                self.pages.append(page)
        if not self.damaged:
            past = self.taken
            for page in self.pages:
                page.missed, past = max(page.first - past, 0), page.past

    def pieces(self):
        """The bytes of the pieces that it tells."""
        found = []
        for page in self.pages:
            commit = len(page.data) | (1 << 31 if page.missed else 0)
            numbers = struct.pack("<6Q", self.cpu, page.fill, page.first, page.missed, page.time, commit)
            found.append(sealed(0, self.stream, numbers + page.data))
        if self.ended and not self.damaged:
            end = max([self.taken, *(page.past for page in self.pages)])
            found.append(mark_bytes("end", self.stream, self.cpu, end))
        return b"".join(found)

    def lines(self, is_json):
        for slot, at, cause in self.damaged:
            if is_json:
                head = {"stream": f"{self.stream:016x}", "cpu": self.cpu}
                yield json_line(**head, damaged=slot, byte=at, fault=cause)
            else:
                yield f"damaged {name_of(self.stream, self.cpu)} slot {slot} byte {at}: {cause}"


class Recovered:
    """What `recover` does with inputs: its exit status, the lines that it prints, the bytes that it keeps, and which
    input has the fault, if there is one."""

    def __init__(self, inputs, is_json=False):
        self.status, self.kept, self.faulty, regions = 1, b"", None, []
        for at, data in enumerate(inputs):
            try:
                regions.append(Region(data))
            except NoRegion as fault:
                self.lines, self.faulty = [f"region: {fault}"], at
                return
        found = Collected([region.pieces() for region in regions], is_json)
        self.status, self.lines, self.kept, self.faulty = found.status, found.lines, found.kept, found.faulty
        if self.status == 0:
            damaged = [line for region in regions for line in region.lines(is_json)]
            self.lines, self.status = self.lines + damaged, 1 if damaged else 0

    @property
    def text(self):
        return "".join(f"{line}\n" for line in self.lines)


def main(words):
    is_json = "--json" in words
    words, keep = [word for word in words if word != "--json"], None
    if words[:1] == ["--keep"]:
        keep, words = Path(words[1]), words[2:]
    inputs = [sys.stdin.buffer.read() if word == "-" else Path(word).read_bytes() for word in words]
    found = Recovered(inputs, is_json)
    if keep:
        keep.write_bytes(found.kept)
    sys.stdout.write(found.text)
    sys.exit(found.status)


if __name__ == "__main__":
    main(sys.argv[1:])
