"""Collectors: pages added, listed by time, and two collectors merged

Genuine pages have 62 records with payloads of 60 bytes, on pages of 4,080 bytes and 8 CPUs, and each is delivered
twice; some pages were overwritten. Forged parcels have one record each, of 4 CPUs; overlapping ones up to 62, of 8
CPUs.
"""

import os
import shutil
import tempfile
from pathlib import Path

from lib import count, tables
from lib.programs import Failure, rival, staged

NEEDS = ("rt", "rustc", "valgrind", "/usr/bin/time")
# What is measured: which step takes how much more than which.
MORE = (("Adding", "add", "read"), ("Listing", "list", "add"), ("Merging", "merge", "halves"))
# How many times the rival's instructions listing a record of a genuine page may take. Other loads have no limit.
LISTING = 1.3
GENUINE, FORGED = ("in-order", "reverse", "shuffled"), ("forged", "overlapping")
LOADS = [("in-order", 10_000), ("in-order", 100_000), ("in-order", 1_000_000), ("reverse", 100_000)]
LOADS += [("shuffled", 100_000), ("forged", 10_000), ("forged", 100_000), ("overlapping", 100_000)]
COMPARED = [(load, many) for load in GENUINE for many in (1, 62, 63, 5_000)]
COMPARED += [(load, many) for load in FORGED for many in (10, 100, 3_000)]
SEEDS = 5


class Collectors:
    def __init__(self, folder):
        self.folder, self.file = folder, folder / "parcels"
        self.plain, self.ours = rival(folder, "collectors"), staged("collectors")

    def make(self, load, many, seed=1):
        self.file.write_bytes(count.output([self.plain, "generate", load, str(many), str(seed)]))

    def alike(self, step, load):
        """Fails if the two programs don't print the same."""
        if len({count.output([program, step], self.file) for program in (self.ours, self.plain)}) > 1:
            kept = Path(tempfile.gettempdir()) / "differs.parcels"
            shutil.copy(self.file, kept)
            raise Failure(f"the two differ by `{step}` on {kept}, a load {load}")

    def compare(self):
        """Compares every answer of both on small loads, and answers on how many."""
        for load, many in COMPARED:
            for seed in range(SEEDS):
                self.make(load, many, seed)
                self.alike("tell", load)
        return SEEDS * len(COMPARED)

    def measure(self, program, many, more=MORE):
        """The instructions and the bytes of memory that each of these takes of a record, or of a forged parcel."""
        steps = {step for _, *steps in more for step in steps}
        counts = {step: count.callgrind([program, step], self.file) for step in steps}
        memory = {step: count.most_memory([program, step], self.file, os.devnull)[1] for step in steps}
        return {
            what: [(found[step] - found[before]) / many for found in (counts, memory)] for what, step, before in more
        }


def is_over(what, load, ours, plain):
    """Whether the instructions are over the limit."""
    return what == "Listing" and load in GENUINE and ours > LISTING * plain


def run(folder):
    collectors = Collectors(folder)
    yield f"The same answers as the rival's on {collectors.compare()} files of parcels."
    found = []
    for load, many in LOADS:
        collectors.make(load, many)
        collectors.alike("list", load)
        collectors.alike("merge", load)
        found.append((load, many, *(collectors.measure(it, many) for it in (collectors.ours, collectors.plain))))
    for what, _, _ in MORE:
        yield ""
        yield f"{what}, of a record, or of a forged or overlapping parcel:"
        yield ""
        yield from tables.head("Load", "Records", "Instructions", "Rival", "Ratio", "Bytes of memory", "Rival")
        for load, many, ours, plain in found:
            (counted, memory), (other, others) = ours[what], plain[what]
            if is_over(what, load, counted, other):
                tables.OVER.append(f"listing of {many:,} records, {load}")
            cells = [f"{counted:,.0f}", f"{other:,.0f}", f"{counted / other:.2f}", f"{memory:,.0f}", f"{others:,.0f}"]
            yield tables.line([load, f"{many:,}", *cells])
