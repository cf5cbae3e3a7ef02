"""A plain collector, to compare with `rows`: it keeps its records in a dictionary and its missing numbers in
a list, and works out from them what the rules say: those of docs/formats, in "Page image", "Parcel bytes" and "Printed
text", and those of docs/PROVED.md, in "`collector`".
"""

import re
import struct

from oracles.image import Fault, reading

MAX_CPUS, NUMBERS, SHORTEST = 256, 32, 48


def number_word(number):
    return struct.pack("<Q", number)


def named(fault):
    """The fault of an image by its name in the library."""
    return re.sub(r"(\w+) at (\d+)", r"Word(\1(\2))", str(fault))


class Parcel:
    """A page under its CPU, fill, first number and missed count. Its records are found by CPU and number, and of what
    it misses it has the CPU, the first number and the one after the last."""

    def __init__(self, cpu, fill, first, missed, image):
        self.cpu, self.fill, self.first, self.missed = cpu, fill, first, missed
        self.time, size, self.told, read = reading(image)
        self.data, self.size = image[16 : 16 + size], len(image) - 16
        self.records = {(cpu, first + at): record for at, record in enumerate(read)}
        self.missing = [(cpu, first - missed, first)] if missed else []

    def check(self):
        """Whether its records have numbers, and whether so many numbers are before them."""
        if self.first + len(self.records) >= 1 << 64:
            raise Fault("NumberOverflow")
        if self.missed > self.first:
            raise Fault("MissedTooMany")

    def text(self):
        numbers = f"cpu {self.cpu} fill {self.fill} first {self.first}"
        return f"{numbers} count {len(self.records)} missed {self.missed}"

    def written(self):
        """The bytes that are written of it."""
        commit, room = len(self.data), self.size - len(self.data)
        count = b""
        if self.missed:
            commit |= 1 << 31
            if room >= 8:
                commit |= 1 << 30
                count = number_word(self.missed)
        head = [self.cpu, self.fill, self.first, self.missed, self.time, commit]
        return b"".join(map(number_word, head)) + self.data + count + bytes(room - len(count))


def parcel_of(data):
    """The parcel with these bytes."""
    if len(data) < SHORTEST:
        raise Fault("Image(TooShort)")
    numbers = struct.unpack_from("<4Q", data)
    if numbers[0] >= MAX_CPUS:
        raise Fault("BadCpu")
    try:
        parcel = Parcel(*numbers, data[NUMBERS:])
    except Fault as fault:
        raise Fault(f"Image({named(fault)})") from fault
    parcel.check()
    agrees = {"none": parcel.missed == 0, "unknown": parcel.missed > 0}
    if not agrees.get(parcel.told, 0 < parcel.missed == parcel.told):
        raise Fault("MissedDiffers")
    return parcel


class Collector:
    """What the parcels that were added have and miss together, in the form in which a parcel has it."""

    def __init__(self):
        self.records, self.missing, self.kept = {}, [], []

    def runs(self, cpu):
        """The runs of the CPU's missing numbers: of each the first one and the one after the last."""
        runs = []
        for first, end in sorted(run[1:] for run in self.missing if run[0] == cpu):
            if runs and first <= runs[-1][1]:
                runs[-1] = (runs[-1][0], max(end, runs[-1][1]))
            else:
                runs.append((first, end))
        return runs

    def all_runs(self):
        return [(cpu, *run) for cpu in sorted({run[0] for run in self.missing}) for run in self.runs(cpu)]

    def odds(self, other):
        """Each number at which a parcel, or another collector, is at odds with this one, and how."""
        for place, record in other.records.items():
            if self.records.get(place, record) != record:
                yield place, "Clash"
        for one, two in ((self, other), (other, self)):
            for cpu, first, end in one.missing:
                yield from (((c, n), "TakenAndMissing") for c, n in two.records if c == cpu and first <= n < end)

    def check(self, other):
        odds = min(self.odds(other), default=None)
        if odds:
            raise Fault("{1}({0[0]}, {0[1]})".format(*odds))

    def has(self, parcel):
        """Whether all that a parcel has and misses is here."""
        runs = self.runs(parcel.cpu)
        return all(self.records.get(place) == record for place, record in parcel.records.items()) and all(
            any(low <= first and end <= high for low, high in runs) for _, first, end in parcel.missing
        )

    def add(self, parcel):
        self.check(parcel)
        if self.has(parcel):
            return "known"
        self.records.update(parcel.records)
        self.missing += parcel.missing
        self.kept.append(parcel)
        return "new"

    def merge(self, other):
        self.check(other)
        for parcel in other.kept:
            self.add(parcel)
        return "merged"

    def same(self, other):
        return self.records == other.records and self.all_runs() == other.all_runs()

    def lines(self):
        """Its text below the head line."""
        for moment, cpu, number, payload in sorted((r[0], *place, r[1]) for place, r in self.records.items()):
            yield f"{cpu} {number} {moment} {payload.hex() or '-'}"
        yield from (f"missing {cpu} {first}-{end - 1}" for cpu, first, end in self.all_runs())


def yes(holds):
    return "yes" if holds else "no"


class Row:
    """A row of the text: collectors, and the events that they were asked with what they answered."""

    def __init__(self, name, count):
        self.lines, self.answers = [f"[{name}] collectors {count}"], []
        self.collectors = [Collector() for _ in range(count)]

    def ask(self, call, *words):
        """Carries out an event, and keeps its lines and what it is answered."""
        try:
            answer = getattr(self, call)(*words)
        except Fault as fault:
            answer = str(fault)
        texts = [word.hex() if isinstance(word, bytes) else str(word) for word in words]
        self.lines += f"{' '.join([call, *texts]).rstrip()} -> {answer}".split("\n")
        self.answers.append(answer)

    @staticmethod
    def image(image):
        try:
            time, size, missed, read = reading(image)
        except Fault as fault:
            return named(fault)
        return f"time {time} size {size} count {len(read)} missed {missed}"

    @staticmethod
    def of(cpu, fill, first, missed, image):
        try:
            parcel = Parcel(cpu, fill, first, missed, image)
        except Fault as fault:
            return named(fault)
        if cpu >= MAX_CPUS:
            return "BadCpu"
        parcel.check()
        return f"{parcel.text()} bytes {parcel.written().hex()}"

    @staticmethod
    def parcel(data):
        parcel = parcel_of(data)
        written = parcel.written()
        return f"{parcel.text()} {'same bytes' if written == data else f'bytes {written.hex()}'}"

    def add(self, at, data):
        return self.collectors[at].add(parcel_of(data))

    def holds(self, at, data):
        collector, parcel = self.collectors[at], parcel_of(data)
        return yes(collector.has(parcel) and not any(collector.odds(parcel)))

    def merge(self, at, other):
        return self.collectors[at].merge(self.collectors[other])

    def same(self, at, other):
        return yes(self.collectors[at].same(self.collectors[other]))

    def get(self, at, cpu, number):
        collector = self.collectors[at]
        if any(run[0] == cpu and run[1] <= number < run[2] for run in collector.missing):
            return "missing"
        record = collector.records.get((cpu, number))
        return f"{record[0]} {record[1].hex() or '-'}" if record else "unknown"

    def show(self):
        lines = ["keeps" + "".join(f" {len(collector.kept)}" for collector in self.collectors)]
        for number, collector in enumerate(self.collectors):
            lines += [f"  collector {number}", *(f"  {line}" for line in collector.lines())]
        return "\n".join(lines)
