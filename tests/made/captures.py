"""Captures made at random, whole and forged, with what has to be printed of them.

Raw pages are made word by word, of one CPU and of several, in one file and in several; captures of a running kernel
have bytes changed and are cut; files of trace-cmd have numbers changed, and ranges that lie anywhere. They are listed
as text and as JSON, with names, with fields, and without; all of them, or a part.
"""

import re
import struct
import subprocess
from pathlib import Path

from made import tables
from made.cases import SECONDS
from made.texts import CAPTURES, data_of
from oracles.collect import MAGIC, Collected, Files, Refused

# Events with the lines of their formats; that of the last one has no fields that are known.
MARKER = b"\tfield:unsigned long ip;\toffset:8;\tsize:8;\tsigned:0;\n"
MARKER += b"\tfield:char buf[];\toffset:16;\tsize:0;\tsigned:1;\n"
SWITCH = b"\tfield:char comm[4];\toffset:8;\tsize:4;\tsigned:1;\n\tfield:long state;\toffset:12;\tsize:8;\tsigned:1;\n"
FORMATS = [
    (b"ftrace", b"print", 5, MARKER),
    (b"sched", b"sched_switch", 314, SWITCH),
    (b"odd", b'a"b\\c \x80', 7, b"\tfield:int x;\n"),
]
# What is said of a listing on standard error, which isn't about a file.
SAID = re.compile(rb"tracering: (the format of|records with a field|no event is named|there is no instance|instances) ")
# Which CPUs and events may be asked for, and which instances.
LISTS = ["0", "0,2", "1-255", "007,255", "0-0,3", "254-255", "1,1", "0-9,5-7"]
PATTERNS = [
    "print", "*", "ftrace:*", "s*d:*switch", "?????", "*:*", "odd:a?b*", "nosuch", "*_*_*", "sched_switch:", "::", "p*t",
    "*n*t*", "ftrace:p[rq]int", "???", "**", "é*",
]
INSTANCES = ["one", "two", "one", "nosuch", "o"]
# A host, and another one.
MACHINES = [b"Linux a 6.1.0 x86_64\0", b"Linux a 6.1.0 x86_64\0more", b"Linux b 6.1.0 x86_64", b""]


def kept_captures():
    """The captures of running kernels that are kept: raw pages, and files of trace-cmd."""
    raw = [CAPTURES / "damaged.raw", *(CAPTURES / name / "cpu0.raw.gz" for name in ("exact", "stamps", "clock_tai"))]
    dat = [CAPTURES / "dat_v7none" / "trace.dat", CAPTURES / "dat_v6" / "trace.dat.gz"]
    read = [[data_of(file) for file in files] for files in (raw, dat)]
    return read


class Source:
    """Makes captures at random."""

    def __init__(self, chance):
        self.chance = chance
        self.raw, self.dat = kept_captures()

    def payload(self):
        """The payload of a marker, of another event, or no event's."""
        chance = self.chance
        if chance.random() < 0.2:
            return chance.randbytes(chance.choice([4, 8, 12]))
        kind, pid = chance.choice([5, 5, 7, 9, 314, 65535]), chance.choice([0, 1, 146, -1, -(1 << 31), (1 << 31) - 1])
        text = chance.choice([b"", b"k0 1 ab\n\0", b'"\\\t\r\x01\x7f', "é€".encode(), b"\xff\xc3", chance.randbytes(9)])
        data = struct.pack("<HBBiQ", kind, 1, 2, pid, 99)[: chance.choice([8, 16, 16, 16])] + text
        return data + bytes(-len(data) % 4)

    def word(self):
        chance, kind = self.chance, self.chance.random()
        delta = chance.choice([0, 1, 5, chance.randrange(1 << 27)])
        if kind < 0.7:
            data = self.payload()
            if len(data) <= 112 and chance.random() < 0.8:
                return struct.pack("<I", len(data) // 4 | delta << 5) + data
            return struct.pack("<II", delta << 5, len(data) + 4) + data
        if kind < 0.8:
            return struct.pack("<II", 29 | 1 << 5, 8) + bytes(4)
        high = chance.choice([0, 1, (1 << 32) - 1, chance.randrange(1 << 32)])
        return struct.pack("<II", (31 if kind < 0.93 else 30) | delta << 5, high)

    def page(self, size, time):
        chance, data = self.chance, b""
        room = size - 16
        for _ in range(chance.choice([0, 1, 2, 4, 40])):
            word = self.word()
            if len(data) + len(word) <= room:
                data += word
        flags, count = chance.choice([0, 0, 0, 1 << 31, 3 << 30]), b""
        if flags == 3 << 30:
            large = chance.choice([(1 << 63) + 1, (1 << 64) - 2, (1 << 64) - 1])
            count = struct.pack("<Q", chance.choice([0, 1, 2, 500, large]))
            flags = flags if len(data) + 8 <= room else 1 << 31
        commit = (len(data) + chance.choice([0] * 12 + [4, -4, 1 << 20])) % (1 << 30) | flags
        page = bytearray((struct.pack("<QQ", time, commit) + data + count).ljust(size, b"\0")[:size])
        if chance.random() < 0.1:
            page[chance.randrange(size)] = chance.randrange(256)
        return bytes(page)

    def pages(self, size):
        """Some pages, most of which rise in time; the last may be cut."""
        time, pages = self.chance.choice([0, 1000, 1 << 59, (1 << 59) + 77, (1 << 64) - 5000]), b""
        for _ in range(self.chance.choice([0, 1, 2, 3, 6])):
            pages += self.page(size, time)
            time = (time + self.chance.choice([10, 500, 1 << 30, -300])) % (1 << 64)
        return pages[: len(pages) - self.chance.choice([0, 0, 0, 1, 8, size // 2])]

    def forged_raw(self):
        data = bytearray(self.chance.choice(self.raw))
        for _ in range(self.chance.choice([0, 1, 3, 20])):
            page = self.chance.randrange(len(data) // 4096) * 4096
            value = self.chance.randrange(256)
            data[page + self.chance.choice([self.chance.randrange(4096), self.chance.randrange(24)])] = value
        return bytes(data[: self.chance.choice([len(data), len(data), self.chance.randrange(len(data))])])

    def forged_dat(self):
        """A file of trace-cmd with some numbers changed, mostly among the last ones, which say where the pages are."""
        data = bytearray(self.chance.choice(self.dat))
        for _ in range(self.chance.choice([0, 1, 1, 2, 5])):
            width = self.chance.choice([1, 2, 4, 8])
            near_end = len(data) - self.chance.randrange(8, 200)
            at = self.chance.choice((self.chance.randrange(len(data) - 8), self.chance.randrange(40), near_end))
            number = int.from_bytes(data[at : at + width], "little")
            others = [0, 1, 255, 256, 4095, 8192, 65537, len(data), number + 1, number - 1]
            others.append(number ^ 1 << self.chance.randrange(8 * width))
            data[at : at + width] = (self.chance.choice(others) % (1 << 8 * width)).to_bytes(width, "little")
        return bytes(data[: self.chance.choice([len(data)] * 4 + [self.chance.randrange(len(data))])])

    def own_dat(self, page_size):
        """A file of version 7 with few pages of two CPUs and of an instance, and counters."""
        chance, pages = self.chance, [self.pages(4096), self.pages(4096)]
        file = b"\x17\x08Dtracing7\0\0\x08" + struct.pack("<I", 4096) + b"none\0\0"
        pointer = len(file)
        file += bytes(8)
        cpus = chance.sample([0, 1, 1, 3, 255, 256 if chance.random() < 0.1 else 2], 2)
        entries = b""
        for cpu, own in zip(cpus, pages):
            entries += struct.pack("<IQQ", cpu, len(file), len(own))
            file += own
        if chance.random() < 0.05:
            entries = struct.pack("<IQQ", 0, 0, len(file)) * 2
        name = chance.choice([b"\0"] * 4 + [b"one\0"])
        buffer = bytes(8) + name + b"local\0" + struct.pack("<II", page_size, 2) + entries
        other = bytes(8) + b"two\0local\0" + struct.pack("<II", 4096, 0)
        options = [(3, buffer), *((2, text) for text in self.counters(cpus)), (3, other)]
        options += [(5, chance.choice(MACHINES))] * (chance.random() < 0.7)
        for kind, width in ((19, 4), (21, 8)):
            if chance.random() < 0.3:
                text = tables.symbols(chance, [99, 1 << 40]) if kind == 19 else tables.tasks(chance)
                options.insert(chance.randrange(len(options)), (kind, struct.pack("<Q", len(file))))
                body = len(text).to_bytes(width, "little") + text
                file += struct.pack("<HHIQ", kind, 0, 0, len(body)) + body
        body = b"".join(struct.pack("<HI", kind, len(own)) + own for kind, own in options)
        body += struct.pack("<HIQ", 0, 8, 0)
        file = file[:pointer] + struct.pack("<Q", len(file)) + file[pointer + 8 :]
        return file + struct.pack("<HHI", 0, 0, 0) + struct.pack("<Q", len(body)) + body

    def counters(self, cpus):
        """Texts of counters, of the main buffer and of an instance."""
        chance, texts = self.chance, []
        for _ in range(chance.choice([2, 2, 4])):
            few = [0, 0, 1, 7, 900, (1 << 64) - 1]
            lines = [b"CPU: %d" % chance.choice([*cpus, 9]), b"overrun: %d" % chance.choice(few)]
            lines += [b"commit overrun: %d" % chance.choice(few)] * chance.choice([0, 1])
            lines += [b"dropped events: %d" % chance.choice([*few, 1 << 64])] * chance.choice([0, 1])
            texts.append(b"\n".join(lines) + b"\n")
        if chance.random() < 0.4:
            named = chance.choice([b"Buffer: one\n", b"\nBuffer: two\n", b"Buffer: \n"])
            texts.insert(chance.randrange(len(texts)), named)
        return texts

    def file(self, size):
        kind = self.chance.random()
        if kind < 0.1:
            return self.forged_raw()
        if kind < 0.18:
            return self.forged_dat()
        if kind < 0.4:
            return self.own_dat(self.chance.choice([4096] * 8 + [65536, 65537, 4095]))
        if size > 4096 and kind < 0.45:
            return self.pages(4096)
        return self.pages(size)


class Part:
    """What is asked for of files beside the form of a listing: the words, and what they say to the plain program."""

    def __init__(self, chance, folder, made, moments):
        self.chance, self.folder, self.moments, self.words, self.says = chance, folder, moments, [], {}
        for choose in (self.names, self.cpus, self.span, self.events):
            if chance.random() < 0.25:
                choose()
        # Of raw pages none are of an instance.
        if chance.random() < (0.4 if all(data.startswith(MAGIC) for data in made) else 0.02):
            self.instance()

    def names(self):
        """Names of processes or of functions: those of the files, or of a file too."""
        texts = tables.tasks(self.chance), tables.symbols(self.chance, [99, 1 << 40])
        for option, text in zip(("tasks", "symbols"), texts):
            kind = self.chance.random()
            if kind < 0.6:
                self.says[option] = []
                self.words.append(f"--{option}")
            if kind < 0.3:
                path = Path(f"{self.folder}-{option}")
                path.write_bytes(text)
                self.says[option] = [text]
                self.words[-1] += f"-from={path}"

    def cpus(self):
        text, cpus = self.chance.choice(LISTS), set()
        for each in text.split(","):
            first, _, last = each.partition("-")
            cpus |= {*range(int(first), int(last or first) + 1)}
        self.words += ["--cpu", text]
        self.says["cpus"] = cpus

    def span(self):
        """From one moment to another, or one of both."""
        chance = self.chance
        around = [(moment + chance.choice([-1, 0, 0, 1])) % (1 << 64) for moment in chance.choices(self.moments, k=2)]
        for option, moment in zip(("since", "until"), sorted(around)):
            if chance.random() < 0.8:
                self.words += [f"--{option}", str(moment)]
                self.says[option] = moment

    def events(self):
        """Events by a pattern, processes, or both."""
        if self.chance.random() < 0.7:
            pattern = self.chance.choice(PATTERNS)
            self.words.append(f"--event={pattern}")
            self.says["event"] = pattern.encode()
        if self.chance.random() < 0.5:
            pids = self.chance.choice([[0], [1, 146], [(1 << 31) - 1, 0, 0]])
            self.words += ["--pid", ",".join(map(str, pids))]
            self.says["pids"] = {*pids}

    def instance(self):
        name = self.chance.choice(INSTANCES)
        self.words.append(f"--instance={name}")
        self.says["instance"] = name.encode()


def moments_in(files, size):
    """The moments of the records that files have."""
    try:
        cpus = Files(files, size, b"").cpus.values()
    except Refused:
        return [0, 1000]
    return [0, (1 << 64) - 1, *(record[0] for cpu in cpus for record in cpu.records)]


class Case:
    """Files with the words of a call, and what has to be printed."""

    def __init__(self, source, folder, at):
        chance = source.chance
        size = chance.choice([48, 64, 100, 4096, 8192, 65_552])
        made = [source.file(size) for _ in range(chance.choice([1, 1, 2, 3]))]
        # Of two files of trace-cmd the machines may differ.
        if chance.random() < 0.05:
            made = [source.own_dat(4096) for _ in range(2)]
        self.words, self.input, files = ["collect"], b"", []
        if size != 4096 or chance.random() < 0.2:
            self.words += ["--page", str(size)]
        json, names, formats, fields = (chance.random() < likely for likely in (0.5, 0.5, 0.5, 0.3))
        self.words += ["--json"] * json + ["--names"] * names + ["--fields"] * fields
        self.words += ["--formats", str(folder / "events")] * formats
        stdin = chance.choice([None, None, 0])
        words = []
        for position, data in enumerate(made):
            cpu = chance.choice([None, None, 0, 7, 255])
            path = folder / f"{at}-{position}"
            path.write_bytes(data)
            self.input = data if position == stdin else self.input
            word = "-" if position == stdin else str(path)
            words.append(word if cpu is None else f"{cpu}={word}")
            files.append((position if cpu is None else cpu, data))
        part = Part(chance, folder / str(at), made, moments_in(files, size))
        self.words += [*part.words, *words]
        given = [(system, text_of(*event)) for system, *event in FORMATS] if formats else ()
        self.wanted = Collected(files, size, json, names or formats, given, fields, **part.says)

    def differs(self, program):
        """How the program differs from the plain one, or nothing."""
        command = [program, *self.words]
        ran = subprocess.run(command, input=self.input, capture_output=True, timeout=SECONDS, check=False)
        said = b"".join(line for line in ran.stderr.splitlines(keepends=True) if SAID.match(line))
        if (ran.returncode, ran.stdout, said) == (self.wanted.status, self.wanted.output, self.wanted.errors):
            return None
        found = ran.returncode, ran.stdout, ran.stderr
        return f"{' '.join(self.words)}: {found}, wanted {self.wanted.status} {self.wanted.errors}"

    def kinds(self):
        """The first words of the lines of text, and which faults files of trace-cmd have."""
        lines = [line.decode().split(" ") for line in self.wanted.output.splitlines() if b"{" not in line[:1]]
        first = {"records" if words[0].isdigit() else words[0] for words in lines}
        return first | {words[1] for words in lines if words[0] == "trace.dat:"}

    def keep(self, folder):
        """Keeps its files and what has to be printed."""
        for word in self.words:
            file = Path(word.rpartition("=")[2])
            if file.is_file():
                (folder / file.name).write_bytes(file.read_bytes())
        (folder / "wanted").write_bytes(self.wanted.output)


def text_of(name, kind, lines):
    """The text of an event's format."""
    return b"name: %s\nID: %d\nformat:\n%s\nprint fmt: \"\"\n" % (name, kind, lines)


def write_formats(folder):
    """Writes the formats of the events that are made, to the folder that `Case` names."""
    for system, name, kind, lines in FORMATS:
        event = folder / "events" / system.decode() / f"event{kind}"
        event.mkdir(parents=True)
        (event / "format").write_bytes(text_of(name, kind, lines))
