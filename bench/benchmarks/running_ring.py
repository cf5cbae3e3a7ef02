"""The running ring: a writer, alone or beside a reader in a second thread

A ring of 64 pages of 4,080 bytes; payloads of 8 to 112 bytes. The reader takes pages, and yields if there is none; or
it is restless: it takes all the time, on a core of its own.
"""

from lib import count, tables
from lib.programs import Failure, staged, tried

NEEDS = ("rt", "valgrind", "taskset", "chrt")
# How many records the program writes in a round.
ROUND = 8_400
# The name of a way to write, what it calls, and the most instructions a record that it may take.
WAYS = (
    ("write", "`write`", 66),
    ("calls", "`begin`, `finish_top`, `top_mut` and a copy, `end`, `finish_top`", 110),
    ("steps", "the same with `step` in place of `finish_top`", None),
)
TIMED = (("alone", "mixed", "alone, mixed lengths"), ("alone", "turn", "alone, lengths in turn"))
TIMED += (("beside", "mixed", "beside a reader, mixed lengths"),)
# How many times the copy's time a record may take that `write` writes alone, in both orders of lengths.
MOST_TIMES = 1.5
# The cores that a writer and a restless reader have, and how often its time alone a record may take there.
CORES, BESIDE = (("two cores", "0-1"), ("four cores", "0-3")), 1.2
# How many rounds are timed, how many runs count, how many there are at most until as many do, and what part of the
# records the reader has to take: all but those of the last page.
LONG, RUNS, MOST_RUNS, ALL = 20, 41, 1_000, 0.99


def instructions(folder, program, reader, way, function):
    """How many instructions a record takes that is written this way."""

    def profile(rounds):
        profile = folder / "profile"
        count.callgrind([program, reader, way, "mixed", str(rounds), "1"], profile=profile)
        return max(taken for name, taken in count.functions(profile).items() if function in name)

    return (profile(22) - profile(2)) / (20 * ROUND)


def numbers(command):
    """What the program prints: names, each with a number."""
    words = count.output(command).decode().split()
    return dict(zip(words[::2], map(int, words[1::2])))


def beside_restless(program, cores):
    """What a record takes alone, and beside a restless reader: of the runs in which it takes all, the middle one."""
    # Where that is allowed the two threads go before all others, so that both run at once on a busy machine too.
    first = ["chrt", "--fifo", "1"]
    on_cores, found = [*(first if tried([*first, "true"])[0] == 0 else []), "taskset", "-c", cores], []
    for _ in range(MOST_RUNS):
        times = numbers([*on_cores, program, "restless", "write", "mixed", str(LONG), "1"])
        if times["records"] > ALL * (LONG + 1) * ROUND:
            found.append([times[name] / (LONG * ROUND) for name in ("alone", "beside")])
        if len(found) == RUNS:
            return sorted(found, key=lambda pair: pair[1] / pair[0])[RUNS // 2]
    raise Failure(f"the machine is too busy: beside a writer on cores {cores} a reader rarely takes all")


def run(folder):
    program = staged("running_ring")

    def record(reader, way, function):
        return instructions(folder, program, reader, way, function)

    yield "Instructions a record; the rival only copies the same bytes, by `memmove`, as the single calls do."
    yield ""
    yield from tables.compared_head()
    copy = record("alone", "copy", "round_of_copies")
    for way, what, limit in WAYS:
        for reader in ("alone", "beside"):
            took = record(reader, way, f"round_by_{way}")
            shown = f"{what}, {'alone' if reader == 'alone' else 'beside a reader'}"
            yield tables.compared(shown, took, copy, limit=limit, digits=1)
    yield ""
    yield "Nanoseconds a record, each the least of 200 runs; the copy is timed in the same runs."
    yield ""
    yield from tables.compared_head()
    for way, what, _ in WAYS:
        for reader, mix, when in TIMED:
            found = numbers([program, reader, way, mix, "10", "200"])
            copied, wrote = (found[name] / (10 * ROUND) for name in ("copy", reader))
            times = MOST_TIMES if (way, reader) == ("write", "alone") else None
            yield tables.compared(f"{what}, {when}", wrote, copied, times=times, digits=1)
    yield ""
    yield "Nanoseconds a record beside a reader that takes all the time; the rival is the writer alone, right before."
    yield f"Of {RUNS} runs of {LONG * ROUND:,} records in which the reader takes all, that with the median ratio:"
    yield ""
    yield from tables.compared_head()
    for where, cores in CORES:
        alone, beside = beside_restless(program, cores)
        yield tables.compared(f"`write`, beside a restless reader, on {where}", beside, alone, times=BESIDE, digits=1)
