"""Threaded runs from seeds, each audited: `bench/run soak MINUTES`, or `bench/run soak COUNT short` for short ones

Scripts have 1 to 8 CPUs, 1 to 3 collectors, rings of 2 to 5 small pages, and nested writers. Each audit has to be yes,
all collectors have to be the same, and each CPU's records and missing numbers together the numbers from 0 on.
"""

import random
import subprocess
import time
from concurrent.futures import ThreadPoolExecutor

from lib import tables
from lib.programs import Failure, tracering

NEEDS = ("rt",)
SECONDS = 120
# How many lines of writers a script has.
LONG, SHORT = (20, 200, 2_000, 10_000), (5, 10, 20, 40)
# How many runs there are at a time, in long ones each with many threads.
AT_A_TIME = 4


def payload(rng):
    return rng.randbytes(rng.choice([0, 1, 4, 8, 12, 20])).hex() or "-"


def made_script(rng, lengths):
    """A script, how many records each CPU may write at most, and how many collectors there are."""
    cpus, collectors = rng.randint(1, 8), rng.randint(1, 3)
    lines = [f"pages {rng.randint(2, 5)}", f"size {rng.choice([32, 36, 64, 128])}", f"cpus {cpus}"]
    lines.append(f"collectors {collectors}")
    written, depth = [0] * cpus, [0] * cpus
    for moment in range(rng.choice(lengths)):
        cpu, what = rng.randrange(cpus), rng.random()
        if what < 0.6:
            lines.append(f"c{cpu} w {moment} {payload(rng)}")
            written[cpu] += 1
        elif what < 0.75 and depth[cpu] < 3:
            lines += [f"c{cpu} b {moment} {payload(rng)}", f"c{cpu} s {rng.randint(1, 9)}"]
            written[cpu] += 1
            depth[cpu] += 1
        elif what < 0.9 and depth[cpu]:
            lines.append(f"c{cpu} f")
            depth[cpu] -= 1
        else:
            lines.append(f"c{cpu} c")
    return "\n".join(lines).encode() + b"\n", written, collectors


def fault_of(output, written, collectors):
    """What is wrong with the output of a run, if anything."""
    parts = output.split("collector ")[1:]
    if len(parts) != collectors or any(not part.endswith("\naudit yes\n") for part in parts):
        return "an audit isn't yes"
    if len({part.partition("\n")[2] for part in parts}) > 1:
        return "two collectors differ"
    numbers = [[] for _ in written]
    for line in parts[0].splitlines()[1:-1]:
        words = line.split()
        if words[0] == "missing":
            first, last = map(int, words[2].split("-"))
            numbers[int(words[1])] += range(first, last + 1)
        else:
            numbers[int(words[0])].append(int(words[1]))
    for found, most in zip(numbers, written):
        if sorted(found) != list(range(len(found))) or len(found) > most:
            return "numbers are left out, or there twice"
    return None


def audited_run(program, seed, lengths):
    """How many records were delivered, and how many runs of numbers are missing."""
    script, written, collectors = made_script(random.Random(seed), lengths)
    done = subprocess.run([program, "run"], input=script, stdout=subprocess.PIPE, timeout=SECONDS, check=False)
    wrong = f"status {done.returncode}" if done.returncode else fault_of(done.stdout.decode(), written, collectors)
    if wrong:
        raise Failure(f"seed {seed}: {wrong}")
    part = done.stdout.split(b"collector ")[1].splitlines()
    return sum(line[:1].isdigit() for line in part[1:]), sum(line.startswith(b"missing") for line in part)


def batches(number, is_short):
    """The seeds of the runs, those together that are begun at a time."""
    if is_short:
        yield range(int(number))
        return
    seed, end = 0, time.monotonic() + 60 * float(number)
    while time.monotonic() < end:
        yield range(seed, seed + AT_A_TIME)
        seed += AT_A_TIME


def run(folder, number="1", short=None):
    program, began, found = tracering(), time.monotonic(), []
    with ThreadPoolExecutor(AT_A_TIME) as pool:
        for seeds in batches(number, short == "short"):
            found += pool.map(lambda seed: audited_run(program, seed, SHORT if short else LONG), seeds)
    records, missing = map(sum, zip(*found))
    minutes = (time.monotonic() - began) / 60
    yield from tables.head("Minutes", "Runs", "Records delivered", "Runs of missing records", "Audits that aren't yes")
    yield tables.line([f"{minutes:.1f}", f"{len(found):,}", f"{records:,}", f"{missing:,}", 0])
