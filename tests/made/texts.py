"""Texts as `tracering replay`, `run` and `collect` print them, to try what reads such texts: the stored ones of
examples/, those of its captures by the plain `collect` of tests/oracles/collect.py, and made ones; and what they say.
"""

import gzip

from made.calls import EXAMPLES, read_calls
from oracles import collect

CAPTURES = EXAMPLES / "captures"
# Captures that are listed whole; those of trace-cmd, and damaged.raw, are named below.
FOLDERS = ("exact", "filter", "gaps", "idle", "live", "overrun", "quiet", "stamps")


KINDS = ("records", "missing", "unknown", "damaged", "awaited", "undelivered", "forgotten", "hidden")


class Section:
    """What a text says of one collector, or of captures or a fleet: its collector is None then. The CPU of a fleet's
    row is the id of its stream, as it is printed, and the CPU. What a fleet has as unknown are runs: awaited ones."""

    def __init__(self, collector=None):
        self.collector, self.audit = collector, None
        # What a trace-cmd file's own counters say of each CPU: overrun, commit overrun and dropped events.
        self.counters = {}
        for kind in KINDS:
            setattr(self, kind, [])

    def cpus(self):
        return sorted({row[0] for kind in KINDS for row in getattr(self, kind)})

    def of(self, kind, cpu):
        return [row for row in getattr(self, kind) if row[0] == cpu]

    def count(self, kind, cpus=None):
        """How many numbers the runs of a kind have."""
        return sum(last - first + 1 for cpu, first, last in getattr(self, kind) if cpus is None or cpu in cpus)

    def lost(self, cpu=None):
        """How many numbers are missing."""
        return self.count("missing", None if cpu is None else [cpu])

    def is_fleet(self):
        return any(isinstance(cpu, tuple) for cpu in self.cpus())

    def streams(self):
        """What a fleet's text says of each stream, by its id: the rows have CPUs alone."""
        found = {}
        for kind in KINDS:
            for (stream, cpu), *row in getattr(self, kind):
                getattr(found.setdefault(stream, Section()), kind).append((cpu, *row))
        return found


def sections(text):
    """What a text that isn't JSON says, which has no faulty line."""
    found = []
    for line in text.splitlines():
        words = line.split(" ")
        if words[0] == "collector":
            found.append(Section(int(words[1])))
        elif words[0] == "audit":
            found[-1].audit = " ".join(words[1:])
        elif is_log(words):
            continue
        else:
            if not found:
                found.append(Section())
            add_line(found[-1], words)
    return found


def is_log(words):
    return words[0].isdigit() and (words[1][0] == "c" or words[1] == "d")


def add_line(section, words):
    if words[0] == "losses":
        section.counters[int(words[1])] = [int(word) for word in words[4:]]
    elif words[0] == "damaged":
        section.damaged.append((int(words[1]), int(words[2]), " ".join(words[3:])))
    elif words[0] in ("missing", "unknown", "undelivered", "forgotten", "hidden"):
        numbers, cpu = tuple(map(int, words[2].split("-"))), cpu_of(words[1])
        is_awaited = words[0] == "unknown" and isinstance(cpu, tuple)
        getattr(section, "awaited" if is_awaited else words[0]).append((cpu, *numbers))
    else:
        payload = "" if words[-1] == "-" else words[-1]
        section.records.append((cpu_of(words[0]), int(words[1]), int(words[2]), payload))


def cpu_of(word):
    """A CPU's number; before it the id of its stream, if there is one."""
    stream, _, cpu = word.rpartition(":")
    return (stream, int(cpu)) if stream else int(cpu)


# ---- texts


def stored():
    """The outputs of scripts, by the files' names; not their steps, of which these readers know nothing."""
    for call in read_calls():
        if call.stored and call.words[0] in (b"replay", b"run"):
            yield call.stored.removesuffix(".stdout"), call.wanted.decode()


def data_of(file):
    return gzip.decompress(file.read_bytes()) if file.suffix == ".gz" else file.read_bytes()


def formats():
    """The formats of events, as `--formats examples/captures/events` reads them."""
    for file in sorted((CAPTURES / "events").glob("*/*/format")):
        yield file.parent.parent.name.encode(), file.read_bytes()


def listed(files, **how):
    return collect.Collected(files, formats=formats(), **how).output.decode()


def captured(names=True, json=False):
    """What `collect` prints of captures, by their name."""
    for folder in FOLDERS:
        files = [(cpu, data_of(next((CAPTURES / folder).glob(f"cpu{cpu}.raw*")))) for cpu in (0, 1)]
        yield folder, listed(files, names=names, json=json)
    for path in ("damaged.raw", "dat_lost/trace.dat.gz", "dat_split/trace.dat.gz"):
        yield path.split("/")[0].removesuffix(".raw"), listed([(0, data_of(CAPTURES / path))], names=names, json=json)


def made(random, collectors, cpus, pages, first=17, audits=False):
    """A text of several collectors, with pages of some records; of the pages that aren't lost each collector gets most.

    Below a collector are the records of its pages, and the numbers that are missing directly before these.
    """
    log, taken = [], []
    for cpu in range(cpus):
        taken += taken_pages(random, cpu, pages, first)
    log += [f"{9 + at} c{cpu} taken fill {fill} first {records[0][2]} count {len(records)} missed {missed}"
            for at, (cpu, fill, missed, records) in enumerate(taken)]
    parts = []
    for collector in range(collectors):
        got = taken if collector == 0 else [page for page in taken if random.random() < 0.7]
        log += [f"{9 + len(log)} d {collector} c{cpu} {fill} new" for cpu, fill, _, _ in got]
        parts.append(collector_text(collector, got, audits))
    return "".join(f"{line}\n" for line in log if not audits) + "".join(parts)


def taken_pages(random, cpu, pages, moment):
    """The pages of a CPU that are taken: its number, the fill's, how many are missing before it, its records."""
    found, number, missed, moment = [], 0, 0, moment + cpu
    for fill in range(pages):
        pace = random.choice((4, 40, 400))
        records = []
        for _ in range(random.randrange(1, 30)):
            moment += random.randrange(pace)
            records.append((moment, cpu, number, f"{random.getrandbits(64):016x}"))
            number += 1
        if random.random() < 0.2:
            missed += len(records)
        else:
            found.append((cpu, fill, missed, records))
            missed = 0
    return found


def collector_text(collector, pages, audits):
    lines = [f"collector {collector}"]
    lines += [f"{cpu} {number} {moment} {payload}" for moment, cpu, number, payload in
              sorted(record for page in pages for record in page[3])]
    runs = sorted((cpu, records[0][2] - missed, records[0][2] - 1) for cpu, _, missed, records in pages if missed)
    lines += [f"missing {cpu} {first}-{last}" for cpu, first, last in runs]
    lines += ["audit yes"] if audits else []
    return "".join(f"{line}\n" for line in lines)
