"""Files of trace-cmd, version 7, taken apart into their sections, and put together again: compressed, or not."""

import ctypes
import struct
import zlib
from dataclasses import dataclass

HEAD = b"\x17\x08Dtracing7\0\0\x08"
PAGE = 4096
OPTIONS, BUFFER, BUFFER_TEXT = 0, 3, 22
# The options that are the place of a section.
PLACES = {*range(16, 23)}


@dataclass
class Section:
    """A section: what it has; or, if it is one of options, these, each with the section that it names, by its index, or
    None; or, if it is a buffer's, the pages of each CPU."""

    kind: int
    description: int = 0
    body: bytes = b""
    options: list | None = None
    pages: list | None = None


def by_zstd():
    """What zstd makes of bytes, or None if it isn't here."""
    try:
        library = ctypes.CDLL("libzstd.so.1")
    except OSError:
        return None
    library.ZSTD_compressBound.restype = library.ZSTD_compress.restype = ctypes.c_size_t

    def compress(data):
        room = library.ZSTD_compressBound(ctypes.c_size_t(len(data)))
        made = ctypes.create_string_buffer(room)
        size = library.ZSTD_compress(made, ctypes.c_size_t(room), data, ctypes.c_size_t(len(data)), 3)
        return made.raw[:size]

    return compress


# How each algorithm compresses.
ALGORITHMS = {"zlib": zlib.compress, "zstd": by_zstd()}


def number(file, at, size):
    return int.from_bytes(file[at : at + size], "little")


def after_text(file, at):
    return file.index(b"\0", at) + 1


def sections_of(file):
    """The sections of an uncompressed file, and the index of the first one of options."""
    at = after_text(file, after_text(file, len(HEAD) + 4))
    first, at, heads = number(file, at, 8), at + 8, {}
    while at < len(file):
        kind, _, description, size = struct.unpack_from("<HHIQ", file, at)
        heads[at] = Section(kind, description, file[at + 16 : at + 16 + size])
        at += 16 + size
    indexes = {place: index for index, place in enumerate(heads)}
    sections = list(heads.values())
    for section in sections:
        if section.kind == OPTIONS:
            section.options = options_of(file, section.body, sections, indexes)
    return sections, indexes[first]


def options_of(file, body, sections, indexes):
    """The options in the body of a section. The pages that one of a buffer names become those of its section."""
    at, found = 0, []
    while not found or found[-1][0] != OPTIONS:
        kind, size = struct.unpack_from("<HI", body, at)
        data = body[at + 6 : at + 6 + size]
        is_place = kind in PLACES or kind == BUFFER or (kind == OPTIONS and number(data, 0, 8) != 0)
        found.append((kind, data, indexes[number(data, 0, 8)] if is_place else None))
        if kind == BUFFER:
            begin = after_text(data, after_text(data, 8)) + 4
            rows = [struct.unpack_from("<IQQ", data, begin + 4 + 20 * k) for k in range(number(data, begin, 4))]
            sections[found[-1][2]].pages = [file[place : place + length] for _, place, length in rows]
        at += 6 + size
    return found


class Writer:
    """Puts sections together. An algorithm of None compresses nothing; a chunk has this many pages."""

    def __init__(self, sections, first, algorithm=None, chunk_pages=10, release=b"", packs_options=False):
        self.sections, self.first = sections, first
        self.compress = ALGORITHMS[algorithm] if algorithm else None
        self.name = (algorithm or "none").encode()
        self.release, self.chunk, self.packs_options = release, chunk_pages * PAGE, packs_options
        self.places, self.ranges = [0] * len(sections), {}

    def file(self):
        """The file, made twice, as the places are known only then, or more often if options are compressed."""
        made = b""
        for _ in range(9 if self.packs_options else 2):
            made = HEAD + struct.pack("<I", PAGE) + self.name + b"\0" + self.release + b"\0"
            made += struct.pack("<Q", self.places[self.first])
            for index, section in enumerate(self.sections):
                self.places[index] = len(made)
                made += self.spelled(index, section, len(made))
        return made

    def spelled(self, index, section, at):
        is_packed = bool(self.compress) and (section.options is None or self.packs_options)
        if section.pages is not None:
            body = self.buffer(index, section, at + 16)
        elif section.options is not None:
            body = b"".join(map(self.option, section.options))
        else:
            body = section.body
        if is_packed and section.kind == BUFFER_TEXT:
            body = self.chunks(body)
        elif is_packed and section.pages is None:
            body = self.packed(body)
        return struct.pack("<HHIQ", section.kind, is_packed, section.description, len(body)) + body

    def packed(self, data):
        made = self.compress(data)
        return struct.pack("<II", len(made), len(data)) + made

    def chunks(self, data):
        parts = [data[at : at + self.chunk] for at in range(0, len(data), self.chunk)]
        return struct.pack("<I", len(parts)) + b"".join(map(self.packed, parts))

    def buffer(self, index, section, begin):
        """The pages of each CPU from a multiple of a page's size on. (Of chunks trace-cmd states no bytes of their
        number.)"""
        body, self.ranges[index] = b"", []
        for pages in section.pages:
            body += bytes(-(begin + len(body)) % PAGE)
            data = self.chunks(pages) if self.compress and pages else pages
            self.ranges[index].append((begin + len(body), len(data) - 4 * (data is not pages)))
            body += data
        return body

    def option(self, option):
        kind, data, target = option
        if target is not None:
            data = struct.pack("<Q", self.places[target]) + data[8:]
        if kind == BUFFER:
            # (The ranges of a first pass may be of a section that isn't there yet.)
            rows = self.ranges.get(target, [(0, 0)] * len(self.sections[target].pages))
            begin = len(data) - 20 * len(rows)
            cpus = [data[begin + 20 * k :][:4] for k in range(len(rows))]
            data = data[:begin] + b"".join(cpu + struct.pack("<QQ", *row) for cpu, row in zip(cpus, rows))
        return struct.pack("<HI", kind, len(data)) + data


def random_file(chance):
    """Sections at random, and the index of the first one of options: formats, buffers, texts, and what isn't read."""
    sections, plain = [], []
    for kind in chance.sample([16, 19, 20, 21, 30], chance.randrange(4)):
        sections.append(Section(kind, chance.randrange(99), bytes(chance.choices(b"ab\0", k=chance.randrange(300)))))
        plain += [(kind, bytes(8) + chance.randbytes(chance.randrange(3)), len(sections) - 1)] if kind in PLACES else []
    if chance.random() < 0.3:
        sections.append(Section(BUFFER_TEXT, 5, b"text\n" * chance.randrange(30_000)))
        plain.append((BUFFER_TEXT, bytes(8) + b"\0local\0", len(sections) - 1))
    plain.append((2, b"CPU: 0\noverrun: 3\n\0", None))
    chance.shuffle(plain)
    first, buffers = len(sections), chance.randrange(4)
    sections.append(Section(OPTIONS, options=plain))
    for number_of in range(buffers):
        pages = [chance.randbytes(64) * 64 * chance.randrange(4) for _ in range(chance.randrange(4))]
        sections.append(Section(BUFFER, pages=pages))
        cpus = b"".join(struct.pack("<IQQ", cpu, 0, 0) for cpu in range(len(pages)))
        body = bytes(8) + b"i" * number_of + b"\0local\0" + struct.pack("<II", PAGE, len(pages)) + cpus
        sections.append(Section(OPTIONS, options=[(BUFFER, body, len(sections) - 1)]))
    chains = [k for k, section in enumerate(sections) if section.options is not None]
    for here, after in zip(chains, [*chains[1:], None]):
        sections[here].options.append((OPTIONS, bytes(8), after))
    sections.append(Section(15, 9, b"strings\0"))
    return sections, first
