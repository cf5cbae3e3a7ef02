"""Files of trace-cmd made at random, of both versions, and changes of numbers in them to such that lead to the file's end,
after it, or elsewhere.
"""

import struct

HEAD = b"\x17\x08Dtracing"


def block(length, body):
    return len(body).to_bytes(length, "little") + body


def formats(texts):
    return struct.pack("<I", len(texts)) + b"".join(block(8, text) for text in texts)


def systems(parts):
    named = (name + b"\0" + formats(texts) for name, texts in parts)
    return struct.pack("<I", len(parts)) + b"".join(named)


def option(kind, body):
    return struct.pack("<H", kind) + block(4, body)


class Source:
    """Makes files at random."""

    def __init__(self, chance):
        self.chance = chance

    def word(self):
        return bytes(self.chance.choices(b"abz_", k=self.chance.randrange(4)))

    def some(self, most, make):
        return [make() for _ in range(self.chance.randrange(most + 1))]

    def text(self):
        lines = [b"name: " + self.word(), b"ID: %d" % self.chance.choice([0, 3, 7, 65535, 65536, 1 << 64])]
        lines += [self.chance.choice([b"format:", b" ID: 4", b"ID:5", b"ID: ", b"ID: 4x"])]
        self.chance.shuffle(lines)
        return b"\n".join(lines[: self.chance.randrange(1, 4)]) + self.chance.choice([b"", b"\n"])

    def system(self):
        return self.word(), self.some(3, self.text)

    def counters(self):
        lines = [b"CPU: %d" % self.chance.randrange(4), b"commit overrun: 9"]
        lines.append(b"overrun: %d" % self.chance.randrange(99))
        return b"\n".join(lines[: self.chance.randrange(2, 4)]) + b"\n\0"

    def pages(self):
        return bytes(self.chance.randrange(256) for _ in range(self.chance.choice([0, 1, 8])))

    def plain_options(self):
        return self.some(2, lambda: option(2, self.counters())) + self.some(1, lambda: option(9, self.word()))

    def six(self):
        """A file of version 6, made twice, as the offsets are known only then."""
        texts, parts, cpus = self.some(2, self.text), self.some(2, self.system), self.some(3, self.pages)
        names, extra = self.some(2, self.word), self.plain_options()
        has_options = self.chance.random() < 0.8
        head = HEAD + b"6\0\0\x08" + struct.pack("<I", 4096) + b"header_page\0" + block(8, self.word())
        head += b"header_event\0" + block(8, self.word()) + formats(texts) + systems(parts)
        head += block(4, self.word()) + block(4, self.word()) + block(8, self.word()) + struct.pack("<I", len(cpus))
        places, file = [0] * (len(cpus) + len(names)), b""
        for _ in range(2):
            file = head
            if has_options:
                parts = zip(places[len(cpus) :], names)
                named = (option(3, struct.pack("<Q", at) + name + b"\0") for at, name in parts)
                file += b"options  \0" + b"".join([*extra, *named]) + b"\0\0"
            table = zip(places, map(len, cpus))
            file += b"flyrecord\0" + b"".join(struct.pack("<QQ", at, size) for at, size in table)
            places = []
            for pages in cpus:
                places.append(len(file))
                file += pages
            for _ in names:
                places.append(len(file))
                file += b"flyrecord\0" + b"".join(struct.pack("<QQ", places[0], len(cpus[0])) for _ in cpus)
        return file

    def section(self, kind, body, flags=0):
        return struct.pack("<HHI", kind, flags, self.chance.randrange(9)) + block(8, body)

    def seven(self):
        """A file of version 7."""
        file = HEAD + b"7\0\0\x08" + struct.pack("<I", 8192) + b"none\0" + self.word() + b"\0"
        pointer = len(file)
        file += bytes(8)
        for _ in range(self.chance.randrange(3)):
            chosen = self.plain_options()
            flags = self.chance.choice([0, 0, 0, 0, 2, 1])
            if self.chance.random() < 0.8:
                chosen.append(option(17, struct.pack("<Q", len(file))))
                file += self.section(17, formats(self.some(2, self.text)), flags)
            if self.chance.random() < 0.8:
                chosen.append(option(18, struct.pack("<Q", len(file))))
                file += self.section(18, systems(self.some(2, self.system)))
            for _ in range(self.chance.randrange(2)):
                cpus = self.some(3, self.pages)
                entries = b""
                for cpu, pages in enumerate(cpus):
                    entries += struct.pack("<IQQ", cpu, len(file), len(pages))
                    file += pages
                body = struct.pack("<Q", len(file)) + self.word() + b"\0local\0" + struct.pack("<II", 4096, len(cpus))
                chosen.append(option(3, body + entries))
            file = file[:pointer] + struct.pack("<Q", len(file)) + file[pointer + 8 :]
            start = len(file)
            file += self.section(0, b"".join(chosen) + struct.pack("<HIQ", 0, 8, 0))
            pointer = len(file) - 8
            assert start < pointer
        return file

    def changed(self, file):
        """The file with one number in it changed."""
        width = self.chance.choice([1, 2, 4, 8])
        at = self.chance.randrange(len(file) - width + 1)
        number = int.from_bytes(file[at : at + width], "little")
        others = [0, 1, len(file), len(file) + 1, len(file) - at, (1 << 8 * width) - 1, 1 << (8 * width - 1)]
        others += [number + 1, number - 1, number ^ (1 << self.chance.randrange(8 * width))]
        others.append(self.chance.randrange(len(file)))
        number = self.chance.choice(others) % (1 << 8 * width)
        return file[:at] + number.to_bytes(width, "little") + file[at + width :]
