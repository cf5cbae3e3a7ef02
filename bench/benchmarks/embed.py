"""The library for C: records and events written by a C program, beside a plain ring in C and LTTng-UST

A ring of 64 pages of 4,080 bytes; payloads of 8 to 112 bytes, of pseudo-random lengths. The plain ring has the same
protocol: the two have to leave as many records for a reader. So has the library's ring whose pages lie in a region, in
memory or in a file; it is also measured with pages of 65,520 bytes, 64 of them and 1,024, which is the largest ring,
of 64 MB, in huge pages if the machine has set enough of them aside. LTTng-UST is measured if its packages are there
(lttng-tools, liblttng-ust-dev), in a session that overwrites 64 buffers of 4,096 bytes for each processor.
"""

import contextlib
import shutil
import subprocess
import time

from lib import count, tables
from lib.programs import BENCH, TOP, Failure, call, tried

NEEDS = ("rt", "cc", "valgrind")
# How many records the program writes in a round.
ROUND = 8_400
# What `flight_speed` measures, in which function, and how many instructions it may take.
EVENTS = (
    ("write", "`tracering_write` of 16 bytes, a counter as its moment", "write_events", None),
    ("counter", "`TRACE` with two numbers, a counter as its clock", "trace_events", None),
    ("tsc", "`TRACE` with two numbers, the processor's counter", "trace_events", 130),
    ("cpu", "the same, in rings per CPU", "trace_events", None),
    ("monotonic", "`TRACE` with two numbers, CLOCK_MONOTONIC", "trace_events", None),
    ("text", "`TRACE` with a text of 24 bytes and a number, the processor's counter", "trace_texts", None),
    ("off", "`TRACE` that is switched off", "trace_nothing", None),
)
# How many of them it makes if it is called for one kind.
EVENTS_AT_ONCE = 100_000
WAYS = (
    ("library", "`tracering_write`"),
    ("plain", "plain ring in C"),
    ("copy", "only a copy of the same bytes"),
    ("region", "`tracering_write` in a region"),
    ("file", "`tracering_write` in a region, a file"),
)
RING = ("64", "4080")
# Larger rings, in a region and not.
LARGER = (("64", "65520"), ("1024", "65520"))
# How many times the copy's time a record may take; in a region that of another record, but for what two runs differ by;
# and an event that of a record of as many bytes.
MOST_OF_COPY, MOST_IN_REGION, MOST_OF_EVENT = 1.6, 1.25, 2.5


def embedded(folder):
    """The program that writes by the library, by the plain ring, or only copies."""
    call([TOP / "tracering-lib"])
    program = folder / "embed"
    call(["cc", "-O2", f"-I{TOP}/c/include", "-o", program, BENCH / "rivals/embed/main.c", TOP / "out/libtracering.a"])
    return program


def function_of(way):
    """The function whose instructions are counted."""
    return f"round_of_{'library' if way in ('region', 'file') else way}"


@contextlib.contextmanager
def session(folder):
    """A session of LTTng-UST that overwrites what is oldest."""
    with subprocess.Popen(["lttng-sessiond", "--no-kernel", "--quiet"], stderr=subprocess.DEVNULL) as daemon:
        try:
            create = ["lttng", "create", "embed", "--snapshot", "-o", folder / "session"]
            for _ in range(50):
                if not tried(create)[0]:
                    break
                time.sleep(0.2)
            else:
                raise Failure("no session of LTTng can be made")
            buffers = ["--overwrite", "--num-subbuf=64", "--subbuf-size=4096"]
            call(["lttng", "enable-channel", "--userspace", *buffers, "channel"])
            call(["lttng", "enable-event", "--userspace", "--channel", "channel", "embed:record"])
            call(["lttng", "start"])
            yield
            call(["lttng", "destroy", "embed"])
        finally:
            daemon.terminate()


def instructions(program, given, way):
    """How many instructions a record takes."""
    command = [program, *given]
    few, many = (count.callgrind([*command, str(n), "1"], function=function_of(way)) for n in (2, 22))
    return (many - few) / (20 * ROUND)


def nanoseconds(program, given):
    return int(count.output([program, *given, "10", "200"]).split()[0]) / (10 * ROUND)


def measured(program, given, way):
    return instructions(program, given, way), nanoseconds(program, given)


def run(folder):
    program = embedded(folder)
    left = {way: count.output([program, way, *RING, "2", "1"]).split()[1] for way in ("library", "region", "plain")}
    if len(set(left.values())) != 1:
        raise Failure(f"embed: a reader finds {left}")
    found = [(what, *measured(program, [way, *RING], way)) for way, what in WAYS]
    if shutil.which("lttng-sessiond"):
        rival = folder / "lttng"
        source = BENCH / "rivals/lttng"
        call(["cc", "-O2", f"-I{source}", "-o", rival, source / "main.c", "-llttng-ust", "-ldl"])
        with session(folder):
            found.append(("LTTng-UST, with its own clock", *measured(rival, [], "lttng")))
    yield "Instructions a record; the rival is the plain ring in C."
    yield ""
    yield from tables.compared_head()
    for what, took, _ in found:
        limit = 100 if what == WAYS[0][1] or "region" in what else None
        yield tables.compared(what, took, found[1][1], limit=limit, digits=1)
    yield ""
    yield "Nanoseconds a record, the least of 200 runs; the rival is only the copy."
    yield ""
    yield from tables.compared_head()
    copied = found[2][2]
    for what, _, took in found:
        times = MOST_OF_COPY if "tracering_write" in what else None
        yield tables.compared(what, took, copied, times=times, digits=1)
    if not shutil.which("lttng-sessiond"):
        yield ""
        yield "LTTng-UST is left out: its packages (lttng-tools, liblttng-ust-dev) aren't here."
    yield ""
    yield from larger(program)
    yield ""
    yield from events(folder)


def larger(program):
    """Rings of larger pages, in regions and not."""
    yield "Nanoseconds a record in rings of larger pages, the least of 200 runs."
    yield ""
    yield from tables.head("Pages of 65,520 bytes", "In malloc's memory", "In a region", "Ratio", "The region's memory")
    for ring in LARGER:
        plain, region = (nanoseconds(program, [way, *ring]) for way in ("library", "region"))
        memory = count.output([program, "region", *ring, "1", "1"]).split()[2].decode()
        pages, ratio = f"{int(ring[0]):,}", f"{region / plain:.2f}"
        yield tables.line([pages, f"{plain:.1f}", f"{region:.1f}", ratio, f"{memory} pages"])
        if region > MOST_IN_REGION * plain:
            tables.OVER.append(f"a record in a region of {ring[0]} pages")


def events(folder):
    """Events of the flight recorder, beside records of as many bytes."""
    program = folder / "flight_speed"
    source = TOP / "tests/c/flight_speed.c"
    call(["cc", "-O2", f"-I{TOP}/c/include", "-o", program, source, TOP / "out/libtracering.a", "-lpthread"])
    lines = count.output([program]).decode().splitlines()
    took = {name: float(nanoseconds) for name, nanoseconds, _ in map(str.split, lines)}
    yield "Instructions an event, with what is done once for 100,000 of them."
    yield ""
    yield from tables.head("What", "Instructions", "Limit")
    for name, what, function, limit in EVENTS:
        counted = count.callgrind([program, name], function=function) / EVENTS_AT_ONCE
        yield tables.line([what, f"{counted:.1f}", str(limit or "")])
        if limit and counted > limit:
            tables.OVER.append(f"instructions of {what}")
    yield ""
    yield "Nanoseconds an event, the least of 200 runs, and how many times those of the record."
    yield ""
    yield from tables.head("What", "Nanoseconds", "Times")
    for name, what, _, _ in EVENTS:
        yield tables.line([what, f"{took[name]:.1f}", f"{took[name] / took['write']:.2f}"])
    if took["tsc"] > MOST_OF_EVENT * took["write"]:
        tables.OVER.append("an event, by the processor's counter")
