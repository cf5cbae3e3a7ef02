"""Formats of events and payloads made at random, with what `collect --fields` has to print of them.

A format has lines of every kind that a kernel writes. A wild one has lines that are malformed by a little, and offsets
and sizes that don't fit, overlap, or lie beyond the payload; the words of fields that are elsewhere name bytes at the
payload's end, or a little beyond it. Numbers are keys of the tables in the print format, and the sums of these;
addresses are near functions.
"""

import random
import re
import struct
import subprocess

from made import tables
from made.cases import SECONDS
from oracles.collect import Collected
from oracles.fields import MOST, TYPES, Field

# The first fields of every event of a kernel.
COMMON = [
    "\tfield:unsigned short common_type;\toffset:0;\tsize:2;\tsigned:0;",
    "\tfield:unsigned char common_flags;\toffset:2;\tsize:1;\tsigned:0;",
    "\tfield:unsigned char common_preempt_count;\toffset:3;\tsize:1;\tsigned:0;",
    "\tfield:int common_pid;\toffset:4;\tsize:4;\tsigned:1;",
]
SIZED = [(name, size) for size, names in TYPES.items() for name in names.split(",")]
# Types whose size no table has.
OTHER = ["struct timespec64", "cpumask_t", "enum hrtimer_mode", "xfs_ino_t", "uint8_t(*)", "u128"]
COUNTS = ["", "1", "2", "3", "4", "5", "8", "16", "0", "03", "TASK_COMM_LEN", "2 * 4", "4294967296", "-1"]
# Names of fields that have addresses, and such addresses.
ADDRESSES, FUNCTIONS = ["ip", "parent_ip", "func"], [0xFFFFFFFF81000000, 0xFFFFFFFF81000020, 0xFFFFFFFFFFFFFF00, 0x1000]
# Pieces of texts, and bytes that aren't UTF-8.
TEXTS = [b"", b"sh", b"swapper/1", b'"\\\t\n\r\x01\x7f', "é€".encode(), b"\xff\xc3", b"a\0b", bytes(3)]
# What a line has in which numbers have names.
NAMED = {
    "JSON names": re.compile(rb'"names":\{"'), "names": re.compile(rb"=[-0-9a-fx]+:[^ ]"),
    "function": re.compile(rb"=[-0-9a-fx]+:[^ ]+\+0x"), "bits": re.compile(rb":[^ ]+\|0x[0-9a-f]+[ \n]"),
    "quoted": re.compile(rb'=[-0-9a-fx]+:"'), "task": re.compile(rb'^0 \d+ \d+ -?\d+ "', re.M),
    "JSON task": re.compile(rb'"task":"'),
}
# What is changed in a line that is malformed: a text of it, and what is in its place.
CHANGES = [
    ("\toffset:", " offset:"), ("\tsize:", "  size:"), (";\tsigned:0;", ";"), (";\tsigned:1;", ";"),
    ("signed:", "signed:1"), ("signed:1;", "signed:1;\r"), ("signed:0;", "signed:0"), ("signed:", "sign:"),
    ("offset:", "offset:-"), ("offset:", "offset:0x"), ("offset:", "offset:42949672"), ("size:", "size:+"),
    ("size:", "size:99999999999999999999"),
    ("\tfield:", "\tfield"), ("\tfield:", "\tfield: "), ("field:", "fields:"), (" ", ""), (" ", "["), ("[", "[["),
    ("]", ""), ("]", "];"), (";\toffset", "-x;\toffset"), (";\toffset", ".x;\toffset"), (";", ";;"), ("size:", "Size:"),
    ("offset:", "offset: "), ("\tsize:4;", "\tsize:8;"), ("\tsize:4;", "\tsize:;"), (";\toffset", ":3;\toffset"),
]


class Format:
    """A format, and those of its lines that describe fields."""

    def __init__(self, chance, kind, is_wild):
        self.chance, self.kind, self.is_wild, self.at = chance, kind, is_wild, 8
        self.system = chance.choice(["made", "made", "ftrace"])
        self.lines = [*COMMON] if chance.random() < 0.9 else []
        count = chance.choice([0, 1, 3, 3, 5, 9] * 5 + [MOST - len(self.lines), MOST + 1 if is_wild else MOST // 2])
        for number in range(count):
            has_address = self.system == "ftrace" and number < len(ADDRESSES)
            self.lines.append(self.line(ADDRESSES[number] if has_address else f"f{number}"))
        if is_wild and chance.random() < 0.2 and self.lines:
            self.malform()
        self.name = chance.choice(["ev", "sched_switch", 'a"b', "é"]) + str(kind)
        self.fields = [*self.described()]
        named = [field.name.decode() for field in self.fields if field.is_shown()]
        self.print_format, self.keys = tables.Maker(chance, is_wild).print_format(named[:20])

    def malform(self):
        """Changes a line so that it may describe no field, or the field of another."""
        at = self.chance.randrange(len(self.lines))
        if self.chance.random() < 0.2:
            others = [self.lines[at], "\tfield:", "\tfield", "\tfielding", "\tfield:int x"]
            self.lines.append(self.chance.choice(others))
            return
        fitting = [change for change in CHANGES if change[0] in self.lines[at]]
        old, new = self.chance.choice(fitting)
        self.lines[at] = self.lines[at].replace(old, new, self.chance.choice([1, 1, -1]))

    def placed(self, size):
        """The offset of a field that has so many bytes."""
        chance, kind = self.chance, self.chance.random()
        if self.is_wild and kind < 0.08:
            return chance.choice([0, 2, 4, self.at // 2, 100, (1 << 32) - 1, (1 << 32) - size, (1 << 31)]) % (1 << 32)
        align = 1 if kind < 0.15 else min(size, 8) if size in (1, 2, 4, 8) else 4 if size else 1
        at = self.at + -self.at % align
        self.at = at + size
        return at

    def line(self, name):
        chance = self.chance
        name = chance.choice([name] * 9 + [f"common_{name}", f"_{name.upper()}", f"{name}_x9"])
        base, size = chance.choice([*SIZED, *[(other, chance.choice([1, 2, 3, 4, 8, 12, 16])) for other in OTHER]])
        if chance.random() < 0.4:
            base, size = chance.choice([("char", 1), ("unsigned long", 8), ("const char", 1), ("volatile  int", 4)])
        if chance.random() < 0.12:
            base, size = f"{chance.choice(['void', 'const char', base])} {chance.choice(['*', '**', '* const'])}", 8
        declared, size = chance.choice([self.single, self.array, self.elsewhere])(base, name, size)
        at = self.placed(size)
        number = chance.choice([str(at)] * 20 + [f"0{at}"])
        return f"\tfield:{declared};\toffset:{number};\tsize:{size};\tsigned:{chance.randrange(2)};"

    def single(self, base, name, size):
        """One value, and how many bytes it has."""
        return f"{base} {name}", self.chance.choice([size] * 8 + [0, 1, 2, 3, 4, 5, 8, 16]) if self.is_wild else size

    def array(self, base, name, size):
        count = self.chance.choice(COUNTS)
        size *= int(count) if count.isdigit() and int(count) < 20 else 3
        if self.is_wild:
            size = self.chance.choice([size] * 5 + [0, 0, 1, 2, 6, 8, 12])
        elif count == "":
            size = 0
        return f"{base} {name}[{count}]", size

    def elsewhere(self, base, name, size):
        word = self.chance.choice(["__data_loc", "__data_loc", "__rel_loc"])
        declared = self.chance.choice([f"{base}[] {name}"] * 4 + [f"{base} {name}[]", f"{base} {name}"])
        return f"{word} {declared}", self.chance.choice([4] * 40 + [8]) if self.is_wild else 4

    def text(self):
        chance = self.chance
        head = f"name: {self.name}\nID: {self.kind}\nformat:\n"
        others = ['\nprint fmt: "%d", REC->a\n', "", "\nprint fmt: \n\tfield:x\n", "print fmt:\n"]
        end = chance.choice([f"\n{self.print_format}\n{chance.choice(others)}"] * 3 + others)
        lines = [line for each in self.lines for line in (each, chance.choice([""] * 4 + ["field:", " \tfield:"]))]
        return (head + "\n".join(lines) + "\n" * chance.choice([1, 1, 1, 0]) + end).encode()

    def described(self):
        """The fields of the lines that describe one."""
        for line in self.lines:
            try:
                yield Field(line.encode())
            except ValueError:
                pass

    def payload(self):
        """A payload, as long as its fields mostly, with texts, and words of fields that are elsewhere."""
        chance = self.chance
        length = min(self.at, 3000) + chance.choice([0, 0, 4, 8, 20, 60])
        length = max(8, length - chance.choice([0] * 9 + [1, 4, 9]) * self.is_wild)
        length += -length % 8
        data = bytearray(chance.choice([bytes(length), chance.randbytes(length), b"\xff" * length]))
        for field in self.fields:
            if field.at + 4 > length or self.is_wild and chance.random() < 0.3:
                continue
            if field.place in ("located", "relative"):
                data[field.at : field.at + 4] = self.word(length - (field.place == "relative") * (field.at + 4))
            elif field.kind == "text":
                text = chance.choice(TEXTS)[: length - field.at]
                data[field.at : field.at + len(text)] = text
            elif field.kind == "number" and field.at + field.size <= length:
                number = self.number(field)
                data[field.at : field.at + field.size] = number.to_bytes(8, "little")[: field.size]
        data[:8] = struct.pack("<HBBi", self.kind, chance.randrange(256), 0, chance.choice([0, 7, -1, (1 << 31) - 1]))
        return bytes(data[: chance.choice([length] * 15 + [8, 0, 4, length // 8 * 4]) if self.is_wild else length])

    def number(self, field):
        """A number of a field, as 64 bits: one that has names, if there is one."""
        chance, keys = self.chance, self.keys.get(field.name.decode(), [])
        others = [chance.choice(FUNCTIONS) + chance.randrange(-2, 40)]
        others += [] if field.name.decode() in ADDRESSES else [0, 1, chance.randrange(1 << 64), -1]
        if not keys or chance.random() < 0.2:
            return chance.choice(others) % (1 << 64)
        some = chance.sample(keys, min(len(keys), chance.choice([1, 1, 2, 3])))
        number = chance.choice([0, 0, 1 << chance.randrange(64)])
        for key in some:
            number |= key
        return number % (1 << 64)

    def word(self, room):
        """The word of bytes that lie in this room, at its end or a little beyond it."""
        chance = self.chance
        if not self.is_wild:
            count = chance.choice([0, 8, 16])
            return struct.pack("<HH", chance.choice([0, max(room - count, 0)]), count * (room >= count))
        count = chance.choice([0, 1, 2, 4, 7, 8, 12, 16, 24])
        offset = chance.choice([8, room - count, room - count, room // 2, 0, room, room - count + 1, room + 1, 65535])
        count = chance.choice([count] * 30 + [65535])
        return struct.pack("<HH", max(offset, 0) % 65536, count)


def page(payloads):
    """A page with the records of these payloads, of rising moments."""
    data = b""
    for number, payload in enumerate(payloads):
        head = len(payload) // 4 | 5 << 5
        small = 0 < len(payload) <= 112 and number % 2
        data += (struct.pack("<I", head) if small else struct.pack("<II", 5 << 5, len(payload) + 4)) + payload
    return struct.pack("<QQ", 1000, len(data)) + data


class Case:
    """A file of a few events' records, their formats, and lists of processes and symbols, or neither, with what has to
    be printed and said."""

    def __init__(self, chance, folder):
        self.folder, self.json, is_wild = folder, chance.random() < 0.4, chance.random() < 0.6
        self.formats = [Format(chance, kind, is_wild) for kind in chance.sample([*range(5, 40), 65534, 65535], 4)]
        written = [(each.system, f"e{at}", each.text()) for at, each in enumerate(self.formats)]
        if chance.random() < 0.2:
            again = Format(chance, self.formats[0].kind, is_wild)
            written.append((again.system, "later", again.text()))
        # The program reads them by their names.
        written.sort(key=lambda each: each[:2])
        payloads, size = [], 0
        while len(payloads) < 24:
            payload = chance.choice(self.formats).payload()
            payloads.append(payload if chance.random() < 0.97 else struct.pack("<Hhi", 4, 0, 9) + payload[8:])
            size += len(payloads[-1]) + 8
            if size > 60_000:
                payloads.pop()
                break
        self.written, self.data = written, page(payloads)
        self.tasks = tables.tasks(chance) if chance.random() < 0.4 else None
        self.symbols = tables.symbols(chance, FUNCTIONS) if chance.random() < 0.5 else None
        given = [(system.encode(), text) for system, _, text in written]
        lists = {name: None if text is None else [text] for name, text in self.lists()}
        self.wanted = Collected([(0, self.data)], 65536, self.json, formats=given, has_fields=True, **lists)

    def lists(self):
        """The lists that are given, each by the option that names it."""
        return ("tasks", self.tasks), ("symbols", self.symbols)

    def differs(self, program):
        """How the program differs from the plain one, or nothing."""
        self.keep(self.folder)
        words = ["collect", "--page", "65536", "--fields", *["--json"] * self.json]
        words += [f"--{name}-from={self.folder / name}" for name, text in self.lists() if text is not None]
        words += ["--formats", str(self.folder / "events"), str(self.folder / "raw")]
        ran = subprocess.run([program, *words], capture_output=True, timeout=SECONDS, check=False)
        found = ran.returncode, ran.stdout, ran.stderr
        wanted = self.wanted.status, self.wanted.output, self.wanted.errors
        if found == wanted:
            return None
        lines = zip(ran.stdout.splitlines(), self.wanted.output.splitlines())
        differing = next((pair for pair in lines if pair[0] != pair[1]), "no line")
        return f"{' '.join(words)}: {found[::2]}, and not {wanted[::2]}; {differing}"

    def keep(self, folder):
        """Keeps its file, its lists, and its formats in a folder `events`."""
        folder.mkdir(exist_ok=True)
        (folder / "raw").write_bytes(self.data)
        for name, text in self.lists():
            if text is not None:
                (folder / name).write_bytes(text)
        for system, name, text in self.written:
            event = folder / "events" / system / name
            event.mkdir(parents=True, exist_ok=True)
            (event / "format").write_bytes(text)

    def kinds(self):
        """What is printed, and of which fields."""
        output = self.wanted.output
        yield "status 1" if self.wanted.status else "status 0"
        for said in (b"malformed", b"not whole"):
            if said in self.wanted.errors:
                yield said.decode()
        uncut = b'"uncut":' if self.json else b"=!"
        if uncut in output:
            yield "JSON uncut" if self.json else "uncut"
        for what, form in NAMED.items():
            if form.search(output):
                yield what
        for each in self.formats:
            if len(each.lines) > MOST:
                yield "too many"
            for field in each.fields:
                yield f"{field.place} {field.kind}"
                yield field.base


def cases(seed, folder):
    """One case after the other."""
    chance, at = random.Random(seed), 0
    while True:
        yield Case(chance, folder / str(at))
        at += 1
