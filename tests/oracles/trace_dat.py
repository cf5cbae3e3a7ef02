"""A plain reader of the files of trace-cmd, to compare with `rows`: it steps through the bytes by offsets, as
docs/formats/files.md says, and says what a file holds in the same words."""

from dataclasses import dataclass, field


class Fault(Exception):
    """The first thing that is wrong with a file, and its offset."""


@dataclass
class Contents:
    """What a file holds: formats of events, each with its system; trace buffers, each with its name, the size of its
    pages, and for each CPU its number, its pages and their fault; texts of counters, of processes and of symbols; and
    what the machine is."""

    formats: list
    buffers: list = field(default_factory=list)
    counters: list = field(default_factory=list)
    tasks: list = field(default_factory=list)
    symbols: list = field(default_factory=list)
    machine: bytes | None = None

    def add_options(self, chosen):
        self.counters += [body.value() for kind, body in chosen if kind == 2]
        for kind, body in chosen:
            if kind == 5:
                self.machine = body.value().split(b"\0")[0]


class Bytes:
    """The bytes of a file from an offset on, up to an end."""

    def __init__(self, file, at, end):
        self.file, self.at, self.end = file, at, end

    def take(self, length):
        if self.end - self.at < length:
            raise Fault("Cut", self.at)
        self.at += length
        return Bytes(self.file, self.at - length, self.at)

    def value(self):
        return self.file[self.at : self.end]

    def number(self, length):
        return int.from_bytes(self.take(length).value(), "little")

    def block(self, length):
        return self.take(self.number(length))

    def text(self):
        zero = self.file.find(0, self.at, self.end)
        if zero < 0:
            raise Fault("Cut", self.at)
        text = self.file[self.at : zero]
        self.at = zero + 1
        return text

    def expect(self, text, cause):
        if not self.file[self.at : self.end].startswith(text):
            raise Fault(cause, self.at)
        self.at += len(text)

    def pointed(self):
        here = self.at
        offset = self.number(8)
        if offset > len(self.file):
            raise Fault("OutsideFile", here)
        return Bytes(self.file, offset, len(self.file))

    def range(self):
        """The bytes that the file has of a range, and the range's fault if it ends before the range does."""
        here = self.at
        offset, size = self.number(8), self.number(8)
        fault = ("OutsideFile", here) if offset + size > len(self.file) else None
        return self.file[offset : offset + size], fault


def formats(part, system):
    return [(system, part.block(8).value()) for _ in range(part.number(4))]


def systems(part):
    found = []
    for _ in range(part.number(4)):
        found += formats(part, part.text())
    return found


def options(part):
    found = []
    while kind := part.number(2):
        found.append((kind, part.block(4)))
    return found


def section(part, kind):
    part.expect(kind.to_bytes(2, "little"), "Misplaced")
    flags_at = part.at
    if part.number(2) % 2:
        raise Fault("Compressed", flags_at)
    part.number(4)
    return part.block(8)


def ranges(part, name, page_size, count):
    part.expect(b"flyrecord\0", "Misplaced")
    return name, page_size, [(cpu, *part.range()) for cpu in range(count)]


def version_six(part, page_size):
    for title in b"header_page\0", b"header_event\0":
        part.expect(title, "Misplaced")
        part.block(8)
    found = Contents(formats(part, b"ftrace"))
    found.formats += systems(part)
    found.symbols.append(part.block(4).value())
    part.block(4)
    found.tasks.append(part.block(8).value())
    count = part.number(4)
    chosen = []
    if part.file[part.at : part.end].startswith(b"options  \0"):
        part.take(10)
        chosen = options(part)
    found.buffers.append(ranges(part, b"", page_size, count))
    for kind, body in chosen:
        if kind == 3:
            there = body.pointed()
            found.buffers.append(ranges(there, body.text(), page_size, count))
    found.add_options(chosen)
    return found


def chain(pointer):
    """The options of all sections."""
    found, least = [], 0
    while True:
        here = Bytes(pointer.file, pointer.at, pointer.end)
        if here.number(8) == 0:
            return found
        part = pointer.pointed()
        if part.at < least:
            raise Fault("Backward", here.at - 8)
        least = part.at + 1
        body = section(part, 0)
        found += options(body)
        pointer = body.block(4)


def stated_buffer(part):
    part.pointed()
    name = part.text()
    part.text()
    page_size, count = part.number(4), part.number(4)
    cpus = []
    for _ in range(count):
        cpu = part.number(4)
        cpus.append((cpu, *part.range()))
    return name, page_size, cpus


def version_seven(part):
    part.expect(b"none\0", "Compressed")
    part.text()
    chosen = chain(part)
    found = Contents([])
    for kind, body in chosen:
        if kind == 17:
            found.formats += formats(section(body.pointed(), 17), b"ftrace")
        elif kind == 18:
            found.formats += systems(section(body.pointed(), 18))
    found.buffers += [stated_buffer(body) for kind, body in chosen if kind == 3]
    found.symbols += [section(body.pointed(), 19).block(4).value() for kind, body in chosen if kind == 19]
    found.tasks += [section(body.pointed(), 21).block(8).value() for kind, body in chosen if kind == 21]
    found.add_options(chosen)
    return found


def reading(file):
    """What a file holds."""
    part = Bytes(file, 0, len(file))
    part.expect(b"\x17\x08Dtracing", "NotTraceDat")
    version = file[part.at : part.at + 2]
    if version not in (b"6\0", b"7\0"):
        raise Fault("BadVersion", part.at)
    part.at += 2
    part.expect(b"\0\x08", "OtherMachine")
    page_size = part.number(4)
    return version_six(part, page_size) if version == b"6\0" else version_seven(part)


def value(text, key):
    """What is after a key in the first line that begins with it."""
    for line in text.split(b"\n"):
        if line.startswith(key):
            return line[len(key) :]
    return None


def number(text, limit):
    if text is None or not text or any(digit not in b"0123456789" for digit in text) or int(text) >= limit:
        return None
    return int(text)


def spelled(text):
    return text.hex() or "-"


def answer(file):
    """The lines that `rows` writes of a file."""
    try:
        found = reading(file)
    except Fault as fault:
        return ["  fault %s %d" % fault.args]
    lines = [f"  format {spelled(system)} {spelled(text)}" for system, text in found.formats]
    events = {}
    for system, text in found.formats:
        kind, name = number(value(text, b"ID: "), 1 << 16), value(text, b"name: ")
        if kind is not None and name is not None:
            events[kind] = (system, name)
    lines += [f"  event {kind} {spelled(events[kind][0])} {spelled(events[kind][1])}" for kind in sorted(events)]
    for name, page_size, cpus in found.buffers:
        lines.append(f"  buffer {spelled(name)} {page_size}")
        for cpu, pages, fault in cpus:
            lines.append(f"  pages {cpu} {spelled(pages)}" + (" fault %s %d" % fault if fault else ""))
    for text in found.counters:
        stated = number(value(text, b"CPU: "), 1 << 64), number(value(text, b"overrun: "), 1 << 64)
        lines.append(f"  counters {spelled(text)} " + ("none" if None in stated else "%d %d" % stated))
    return lines
