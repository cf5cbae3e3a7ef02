"""`tracering collect` on a capture of 128 MB, and `trace-cmd report -R` on the same records: time, and memory

The pages are those of a kept file of trace-cmd, over and over, with times that go on. They lie in such a file, and raw
in a file for each CPU. Instructions are counted of a file of 4 MB, with names and with fields, and of the kept one.
Raw files of 1 and 4 GiB are listed page by page, and held, if there is memory for that. Pages of one CPU are written to
pipes, as those of eight, and followed. All this takes some 6 GB of the disk for a while.
"""

import gzip
import os
import struct
import subprocess
import threading
import time

from lib import count, tables
from lib.programs import TOP, Failure, tracering
from oracles.image import reading
from oracles.trace_dat import reading as dat_reading

NEEDS = ("rt", "trace-cmd", "/usr/bin/time", "valgrind")
KEPT = TOP / "examples" / "captures" / "dat_lost" / "trace.dat.gz"
CPUS, PAGE, CPU_BYTES, COUNTED_BYTES, GAP = 2, 4096, 64 << 20, 2 << 20, 1000
# How often the rival's time ours may be at most, the capture's size our memory, and with fields the instructions that a
# listing with names takes.
MOST_TIME, MOST_MEMORY, MOST_FIELDS = 1 / 3, 3, 1.2

# Large raw files: the bytes of each CPU, and the numbers of CPUs. How often the time of a listing that holds them they
# may take at most, and how many MB; and how much memory is wanted for one that holds them, by their size.
LARGE_BYTES, LARGE_CPUS, MOST_OF_HELD, MOST_PAGED, HELD_ROOM = 512 << 20, (2, 8), 1.0, 16, 1.5
# A file that can't be read twice: beside it all others are held.
HOLDING = "/dev/null"

# What is followed: so many CPUs, and the bytes that all of them get in a second. So many seconds more than that it may
# take at most to write them, and then to print what is left.
FOLLOWED_CPUS, RATE, MOST_DELAY = 8, 100_000_000, 2
# How many bytes are written at once.
PIECE = 1 << 16

# How a file of trace-cmd is listed, and the options for it.
FORMS = {"": [], ", `--names`": ["--names"], ", `--fields`": ["--fields"]}


def kept_pages(file, cpu):
    """The pages of a kept file, each with the time from its own to its last record's, and how many records it has."""
    [(_, _, cpus)] = [buffer for buffer in dat_reading(file).buffers if not buffer[0]]
    [data] = [pages for number, pages, _ in cpus if number == cpu]
    for at in range(0, len(data), PAGE):
        page = data[at : at + PAGE]
        time, size, _, records = reading(page)
        yield page[16:], size, records[-1][0] - time if records else 0, len(records)


def capture(file, cpu, length=CPU_BYTES // PAGE):
    """A long capture: its pages, so many of them, and how many records they have."""
    kept, pages, time, records = [*kept_pages(file, cpu)], [], 1 << 32, 0
    while len(pages) < length:
        rest, size, span, number = kept[len(pages) % len(kept)]
        pages.append(struct.pack("<QQ", time, size) + rest)
        time += span + GAP
        records += number
    return b"".join(pages), records


def trace_dat(file, captures):
    """The file with these pages: its own are named no longer."""
    file += bytes(-len(file) % PAGE)
    [(_, _, cpus)] = [buffer for buffer in dat_reading(file).buffers if not buffer[0]]
    end = len(file)
    for (cpu, pages, _), made in zip(cpus, captures):
        old = struct.pack("<IQQ", cpu, file.index(pages), len(pages))
        if file.count(old) != 1:
            raise Failure("the kept file of trace-cmd names its pages another way")
        file = file.replace(old, struct.pack("<IQQ", cpu, end, len(made)))
        end += len(made)
    return b"".join([file, *captures])


def counted(path, file, length):
    """The rows of instructions of a file of trace-cmd with so many pages of each CPU, or with its own ones."""
    made = [capture(file, cpu, length) for cpu in range(CPUS)] if length else []
    path.write_bytes(trace_dat(file, [pages for pages, _ in made]) if length else file)
    lines = count.output([tracering(), "collect", path]).splitlines()
    records = sum(line[:1].isdigit() for line in lines)
    counts = {said: count.callgrind([tracering(), "collect", *words, path]) for said, words in FORMS.items()}
    names, fields = counts[", `--names`"], counts[", `--fields`"]
    if fields > MOST_FIELDS * names:
        tables.OVER.append("with fields")
    what = f"`trace.dat` of {length * PAGE * CPUS >> 20} MB" if length else "the kept `trace.dat`"
    for said, instructions in counts.items():
        ratio = f"{instructions / names:.2f}"
        limit = MOST_FIELDS if instructions == fields else ""
        yield tables.line([f"{what}{said}", f"{instructions / records:,.0f}", ratio, limit])


def summed(words):
    """The seconds of the processor and the most memory of a listing, and the checksum and length of what it prints."""
    timing = ["/usr/bin/time", "--quiet", "-f", "%U %S %M", tracering(), "collect", *words]
    lister = subprocess.Popen(timing, stdout=subprocess.PIPE, stderr=subprocess.PIPE, text=True)
    summer = subprocess.Popen(["cksum"], stdin=lister.stdout, stdout=subprocess.PIPE, text=True)
    lister.stdout.close()
    printed, _ = summer.communicate()
    said = lister.stderr.read()
    if lister.wait():
        raise Failure(f"{' '.join(map(str, words))} ends with status {lister.returncode}\n{said}")
    user, system, most = said.split()[-3:]
    return float(user) + float(system), int(most) * 1024, printed.split()


def free_memory():
    with open("/proc/meminfo") as text:
        [count] = [line.split()[1] for line in text if line.startswith("MemAvailable:")]
    return int(count) * 1024


def large_files(folder, file):
    """Raw files of the most CPUs, each with the pages of a kept one's CPU."""
    files = [folder / f"large{cpu}.raw" for cpu in range(max(LARGE_CPUS))]
    for kept in range(CPUS):
        pages, _ = capture(file, kept, LARGE_BYTES // PAGE)
        for large in files[kept::CPUS]:
            large.write_bytes(pages)
    os.sync()
    return files


def compared(files):
    """The rows of these files, listed page by page, and held if there is memory for that."""
    size = len(files) * LARGE_BYTES
    what = f"{size >> 30} GiB of {len(files)} CPUs"
    words = [f"{cpu}={large}" for cpu, large in enumerate(files)]
    seconds, memory, printed = summed(words)
    if memory > MOST_PAGED << 20:
        tables.OVER.append(f"{what}: memory")
    if free_memory() < HELD_ROOM * size:
        yield tables.line([what, f"{seconds:.2f}", "", "", f"{memory / 2**20:,.1f}", MOST_PAGED])
        yield tables.line([f"{what}, held: there is no memory for it", "", "", "", "", ""])
        return
    held, room, held_printed = summed([*words, f"{len(files)}={HOLDING}"])
    if printed != held_printed or room < size:
        raise Failure(f"{what}: {printed} are printed, and {held_printed} by a listing that takes {room} bytes")
    if seconds > MOST_OF_HELD * held:
        tables.OVER.append(f"{what}: time")
    cells = [f"{seconds:.2f}", f"{seconds / held:.2f}", MOST_OF_HELD, f"{memory / 2**20:,.1f}", MOST_PAGED]
    yield tables.line([what, *cells])
    yield tables.line([f"{what}, held", f"{held:.2f}", "", "", f"{room / 2**20:,.0f}", ""])


def large(folder, file):
    """The rows of large raw files."""
    files = large_files(folder, file)
    yield "Raw files that are listed page by page, and the same ones held; seconds of the processor, most memory in MB."
    yield ""
    yield from tables.head("What", "Seconds", "of those held", "Limit", "Memory", "Limit")
    for count_of in LARGE_CPUS:
        yield from compared(files[:count_of])
    for path in files:
        path.unlink()


def write_slowly(path, data, begin):
    """Writes a CPU's part of the bytes of a second to a pipe, again and again."""
    with open(path, "wb", buffering=0) as pipe:
        for at in range(0, len(data), PIECE):
            time.sleep(max(0, begin + at * FOLLOWED_CPUS / RATE - time.monotonic()))
            pipe.write(data[at : at + PIECE])


def followed(folder, data, records):
    """The row of pipes that are followed: how long they were written and the listing took, and what it took."""
    pipes = [folder / f"pipe{cpu}" for cpu in range(FOLLOWED_CPUS)]
    for pipe in pipes:
        os.mkfifo(pipe)
    timing = ["/usr/bin/time", "--quiet", "-f", "%U %S %M", tracering(), "collect", "--follow", *pipes]
    lister = subprocess.Popen(timing, stdout=subprocess.PIPE, stderr=subprocess.PIPE, text=True)
    counter = subprocess.Popen(["grep", "-c", "^[0-9]"], stdin=lister.stdout, stdout=subprocess.PIPE, text=True)
    lister.stdout.close()
    begin = time.monotonic()
    writers = [threading.Thread(target=write_slowly, args=(pipe, data, begin), daemon=True) for pipe in pipes]
    for writer in writers:
        writer.start()
    for writer in writers:
        writer.join()
    written = time.monotonic() - begin
    listed = int(counter.communicate()[0])
    printed = time.monotonic() - begin
    said = lister.stderr.read()
    if lister.wait() or listed != records * FOLLOWED_CPUS:
        raise Failure(f"--follow ends with status {lister.returncode} and {listed} records\n{said}")
    user, system, most = said.split()[-3:]
    size = len(data) * FOLLOWED_CPUS
    if written > size / RATE + MOST_DELAY or printed > written + MOST_DELAY:
        tables.OVER.append("`--follow`")
    rate = f"{RATE // 1_000_000} MB a second"
    yield f"{size >> 20} MB written to the pipes of {FOLLOWED_CPUS} CPUs, {rate}, which `--follow` lists."
    yield ""
    yield from tables.head("Seconds", "", "of all bytes at that rate", "Limit more")
    yield tables.line(["until all is written", f"{written:.2f}", f"{size / RATE:.2f}", MOST_DELAY])
    yield tables.line(["until all is printed", f"{printed:.2f}", f"{written:.2f} written", MOST_DELAY])
    yield tables.line(["of the processor", f"{float(user) + float(system):.2f}", "", ""])
    yield tables.line(["the most memory, MB", f"{int(most) / 1024:,.0f}", "", ""])


def run(folder):
    file = gzip.decompress(KEPT.read_bytes())
    made = [capture(file, cpu) for cpu in range(CPUS)]
    records, size = sum(number for _, number in made), sum(len(pages) for pages, _ in made)
    raw = []
    for cpu, (pages, _) in enumerate(made):
        raw.append(folder / f"cpu{cpu}.raw")
        raw[-1].write_bytes(pages)
    dat = folder / "trace.dat"
    dat.write_bytes(trace_dat(file, [pages for pages, _ in made]))
    ours, sink = [tracering(), "collect"], folder / "listing"
    rival = count.timed(["trace-cmd", "report", "-R", "-i", dat], sink)
    reported = sum(b"]" in line for line in sink.open("rb"))
    yield f"{size >> 20} MB with {records:,} records; seconds of the processor, and the most memory in MB."
    yield ""
    yield from tables.head("What", "Seconds", "of the rival's", "Limit", "Memory", "of the capture's size", "Limit")
    rows = {"raw": raw, "raw, `--json`": ["--json", *raw]}
    rows |= {f"`trace.dat`{said}": [*words, dat] for said, words in FORMS.items()}
    for name, words in rows.items():
        seconds, memory = count.timed([*ours, *words], sink)
        listed = sum(line[:1] in b"01{" for line in sink.open("rb"))
        if not listed == reported == records:
            raise Failure(f"{name}: {listed} records are listed, {reported} reported, of {records}")
        if seconds > MOST_TIME * rival[0] or memory > MOST_MEMORY * size:
            tables.OVER.append(name)
        cells = [f"{seconds:.2f}", f"{seconds / rival[0]:.2f}", f"{MOST_TIME:.2f}"]
        yield tables.line([name, *cells, f"{memory / 2**20:,.0f}", f"{memory / size:.2f}", MOST_MEMORY])
    memory = f"{rival[1] / 2**20:,.0f}", f"{rival[1] / size:.2f}"
    yield tables.line(["`trace-cmd report -R`", f"{rival[0]:.2f}", "", "", *memory, ""])
    yield ""
    yield "Instructions for a record, with all that is read and done once."
    yield ""
    yield from tables.head("What", "Instructions", "of those with names", "Limit")
    for length in COUNTED_BYTES // PAGE, 0:
        yield from counted(folder / "counted.dat", file, length)
    yield ""
    yield from large(folder, file)
    yield ""
    yield from followed(folder, *made[0])
