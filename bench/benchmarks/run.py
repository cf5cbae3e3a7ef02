"""The threaded run with its audits: time and memory, beside plain Rust with the same threads, channels and audit

Each CPU writes 100,000 payloads of one length into a ring of 16 pages of 4,080 bytes, by turns in the script; the gate
is open. Each program makes the script first, which isn't timed, but stands in the memory that is measured. Two rivals
differ only in how many bytes a line of their script takes: as few as it can, or 32.
"""

from statistics import median

from lib import count, tables
from lib.programs import Failure, rival, staged

NEEDS = ("rt", "rustc", "valgrind")
COLLECTORS, LENGTHS, WRITES = (1, 4), (8, 100), 100_000
# How often each number of CPUs is run: short runs differ most.
ROUNDS = {1: 31, 2: 31, 8: 11, 64: 3}
# How often the rival's time and memory a run may take.
TIME, MEMORY = 1.2, 1.3
# How many records a CPU writes, less and more, where callgrind counts.
FEW, MANY = 20_000, 60_000


class Run:
    """What a program prints of one run."""

    def __init__(self, program, cpus, collectors, length):
        words = [str(number) for number in (cpus, collectors, WRITES, length)]
        text = count.output([program, *words]).decode()
        head, _, rest = text.partition("before\n")
        before, _, after = rest.partition("after\n")
        took, counts, *audits, anew, _ = head.split("\n")
        if audits != ["audit yes"] * collectors:
            raise Failure(f"{program.name} {' '.join(words)} answers {audits}")
        if anew != "anew true":
            raise Failure("Linux doesn't look for the most memory anew")
        numbers = counts.split()
        records, missed, unread = (int(numbers[at]) for at in (1, 3, 5))
        if records + missed + unread != cpus * WRITES:
            raise Failure(f"{program.name} {' '.join(words)} accounts for other records than were written")
        self.milliseconds = int(took.split()[1]) / 1e6
        self.taken = 100 * records / (cpus * WRITES)
        self.most = megabytes(after, "VmHWM")
        self.own = self.most - megabytes(before, "VmRSS")


def megabytes(status, name):
    """A figure of /proc/self/status."""
    [line] = [line for line in status.splitlines() if line.startswith(f"{name}:")]
    return int(line.split()[1]) / 1_024


def many(number, what):
    return f"{number} {what}{'' if number == 1 else 's'}"


class Runs:
    """Runs of one load by all programs, by turns, and the median of each figure."""

    def __init__(self, programs, cpus, collectors, length):
        self.name = f"{many(cpus, 'CPU')}, {many(collectors, 'collector')}, {length} bytes"
        runs = [[Run(program, cpus, collectors, length) for program in programs] for _ in range(ROUNDS[cpus])]
        self.by_program = list(zip(*runs))

    def medians(self, figure):
        return [median(getattr(run, figure) for run in runs) for runs in self.by_program]

    def compared(self, what, figure, times):
        """A line of a table: ours, the best rival's with their ratio and its limit, and that of equal lines."""
        ours, best, wide = self.medians(figure)
        line = tables.compared(f"{what} of {self.name}", ours, best, times=times, digits=1)
        return f"{line.replace(f'{what} of ', '')} {wide:,.1f} | {ours / wide:.2f} |"


def writer_instructions(folder, program, length, *words):
    """How many instructions the writer's thread takes a record: of the threads beside `main` it has the most to do."""
    few, most = (
        max(count.thread_counts([program, "1", "1", str(writes), str(length), *words], folder / "counted")[1:])
        for writes in (FEW, MANY)
    )
    return (most - few) / (MANY - FEW)


def compared_head(what):
    return tables.head(what, "Ours", "Rival", "Ratio", "Limit", "Rival with lines of 32 bytes", "Ratio")


def run(folder):
    ours, best, wide = programs = staged("run"), rival(folder, "run"), rival(folder, "run", "wide")
    loads = [(cpus, collectors, length) for cpus in ROUNDS for collectors in COLLECTORS for length in LENGTHS]
    found = [Runs(programs, *load) for load in loads]
    times = ", ".join(f"{rounds} of {many(cpus, 'CPU')}" for cpus, rounds in ROUNDS.items())
    yield f"A run with its audits, in milliseconds: the median of runs by turns, {times}."
    yield ""
    yield from compared_head("Milliseconds")
    for runs in found:
        yield runs.compared("time", "milliseconds", TIME)
    yield ""
    yield "The most memory from the beginning of the run on, with the script, in megabytes: the median of the same runs."
    yield ""
    yield from compared_head("Megabytes")
    for runs in found:
        yield runs.compared("memory", "most", MEMORY)
    yield ""
    yield "How far that is above the memory at the beginning, in megabytes; and how many of the records were taken, in"
    yield "percent, as the threads happened to meet."
    yield ""
    names = ("Ours", "Rival", "Rival with lines of 32 bytes")
    yield from tables.head("Run", *(f"{name}: {what}" for what in ("megabytes above", "taken") for name in names))
    for runs in found:
        yield tables.line([runs.name, *(f"{figure:,.1f}" for figure in [*runs.medians("own"), *runs.medians("taken")])])
    yield ""
    yield "Instructions of a writer's thread, of a record, with one CPU and one collector; and with a gate that counts how"
    yield "often it is asked."
    yield ""
    yield from tables.head("A record with a payload of", "Ours", "with a counting gate", "Rival")
    for length in LENGTHS:
        counts = [
            writer_instructions(folder, ours, length),
            writer_instructions(folder, ours, length, "counted"),
            writer_instructions(folder, best, length),
        ]
        yield tables.line([f"{length} bytes", *(f"{figure:,.1f}" for figure in counts)])
