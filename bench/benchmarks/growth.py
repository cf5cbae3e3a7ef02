"""Growth: ten times the pages, CPUs, collectors or records, and how many times as much that takes

Instructions; of `run`, whose threads meet as they happen to, the median of five times. Ten times as many may take 10.5
times as much, and other steps as much in proportion. The most memory is beside it. A record has 8 bytes of payload, and
a page 4,080.
"""

import gzip
import os
import time
from statistics import median
from typing import NamedTuple

from benchmarks import collect, collectors
from lib import count, scripts, streams, tables
from lib.programs import Failure, tracering

NEEDS = ("rt", "rustc", "valgrind", "/usr/bin/time")
# How often as much ten times as much may take.
TENFOLD = 10.5
ROUNDS = 5

# What grows, from where to where, and the script of a size.
REPLAYED = (
    ("records", (20_000, 200_000), lambda size: scripts.writes(size, 8)),
    ("records, by writers three deep", (20_010, 200_100), scripts.nested),
    ("pages, the same 20,000 records", (16, 160, 1_024), lambda size: scripts.writes(20_000, 8, pages=size)),
    ("pages, all full before one is taken", (16, 160, 1_024), scripts.full_ring),
    ("CPUs, the same 20,000 records", (2, 20, 200), lambda size: scripts.many_cpus(20_000, size, 1)),
    ("CPUs, each with 1,000 records", (2, 20, 200), lambda size: scripts.many_cpus(1_000 * size, size, 1)),
    ("collectors, each gets 20,000 records", (1, 10, 16), lambda size: scripts.writes(20_000, 8, collectors=size)),
    ("deliveries of one page", (20_000, 200_000), scripts.deliveries),
    ("fills of a page, delivered in any order", (2_000, 20_000), scripts.shuffled),
)
RUN = (
    ("records", (100_000, 1_000_000), lambda size: scripts.writes(size, 8)),
    ("CPUs, each with 10,000 records", (2, 20, 200), lambda size: scripts.many_cpus(10_000 * size, size, 1)),
    ("collectors, each gets what is taken", (1, 10), lambda size: scripts.writes(200_000, 8, collectors=size)),
)
# What grows, from where to where, and of each of the CPUs how many pages its capture has.
CAPTURED = (
    ("raw pages of two CPUs", (200, 2_000), lambda size: [size // 2] * 2),
    ("CPUs, the same 2,000 raw pages", (2, 20, 200), lambda size: [2_000 // size] * size),
    ("CPUs, each with 10 raw pages", (2, 20, 200), lambda size: [10] * size),
)
STREAMED = (
    ("parcels of a stream", (2_000, 20_000), streams.pieces),
    ("parcels of a stream, in any order", (2_000, 20_000), lambda size: streams.pieces(size, is_shuffled=True)),
    ("streams, the same 20,000 parcels", (10, 100, 1_000), lambda size: streams.pieces(20_000, size)),
    ("streams, each with 20 parcels", (10, 100, 1_000), lambda size: streams.pieces(20 * size, size)),
)
LOADS, GATHERED = ("in-order", "shuffled", "forged", "overlapping"), (20_000, 200_000)


class Cost(NamedTuple):
    """What a size takes: instructions or milliseconds, and the most memory in bytes."""

    amount: float
    memory: float


def counted(command, source=None):
    _, memory = count.most_memory(command, source, os.devnull)
    return Cost(count.callgrind(command, source), memory)


def timed(command, source):
    rounds = []
    for _ in range(ROUNDS):
        begun = time.monotonic()
        status, memory = count.most_memory(command, source, os.devnull)
        rounds.append(Cost(1_000 * (time.monotonic() - begun), memory))
        if status:
            raise Failure(f"{' '.join(map(str, command))} ends with status {status}")
    return Cost(*map(median, zip(*rounds)))


def lines(what, sizes, costs, digits=0):
    """A line for each step from a size to the next."""
    for (size, few), (larger, many) in zip(zip(sizes, costs), zip(sizes[1:], costs[1:])):
        factor, limit = many.amount / few.amount, TENFOLD / 10 * larger / size
        if factor > limit:
            tables.OVER.append(f"{what}, {size:,} to {larger:,}")
        cells = [what, f"{size:,}", f"{larger:,}", *(f"{cost.amount:,.{digits}f}" for cost in (few, many))]
        cells += [f"{factor:.2f}", f"{limit:.2f}", *(f"{cost.memory / 1e6:,.1f}" for cost in (few, many))]
        yield tables.line(cells)


def from_input(folder, command, rows, measured=counted, unit="", digits=0):
    """The lines of a command that reads what is made of each size."""
    source = folder / "source"
    for what, sizes, make in rows:
        costs = []
        for size in sizes:
            source.write_bytes(make(size))
            costs.append(measured(command, source))
        yield from lines(f"`{command[1]}`{unit}: {what}", sizes, costs, digits)


def captures(folder, command):
    file = gzip.decompress(collect.KEPT.read_bytes())
    for what, sizes, pages_of in CAPTURED:
        costs = []
        for size in sizes:
            words = []
            for cpu, pages in enumerate(pages_of(size)):
                path = folder / f"cpu{cpu}.raw"
                path.write_bytes(collect.capture(file, cpu % collect.CPUS, pages)[0])
                words.append(f"{cpu}={path}")
            costs.append(counted([*command, *words]))
        yield from lines(f"`collect`: {what}", sizes, costs)


def files(folder, command):
    """Files of trace-cmd, with names."""
    file, path, sizes, costs = gzip.decompress(collect.KEPT.read_bytes()), folder / "trace.dat", (200, 2_000), []
    for size in sizes:
        made = [collect.capture(file, cpu, size // collect.CPUS)[0] for cpu in range(collect.CPUS)]
        path.write_bytes(collect.trace_dat(file, made))
        costs.append(counted([*command, "--names", path]))
    yield from lines("`collect --names`: pages of a `trace.dat`", sizes, costs)


def gathered(folder):
    """The calls of a collector: records, or parcels of loads that aren't genuine, added and listed."""
    ours, calls = collectors.Collectors(folder), collectors.MORE[:2]
    for load in LOADS:
        found = []
        for size in GATHERED:
            ours.make(load, size)
            found.append(ours.measure(ours.ours, size, calls))
        for what, _, _ in calls:
            costs = [Cost(*(max(0, of_one * size) for of_one in each[what])) for size, each in zip(GATHERED, found)]
            yield from lines(f"collector: {what.lower()}, {load}", GATHERED, costs)


def run(folder):
    program = tracering()
    yield from tables.head("What grows", "From", "To", "Takes", "Takes then", "Factor", "Limit", "MB", "MB then")
    yield from from_input(folder, [program, "replay"], REPLAYED)
    yield from captures(folder, [program, "collect"])
    yield from files(folder, [program, "collect"])
    yield from from_input(folder, [program, "collect", "-"], STREAMED)
    yield from gathered(folder)
    yield from from_input(folder, [program, "run"], RUN, timed, ", milliseconds", 1)
