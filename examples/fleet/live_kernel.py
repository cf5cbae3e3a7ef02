"""A scene of `test` on a ring buffer of the kernel that runs here: an instance of its own, of small rings, into which
this process alone writes. So the number of each record is known, and how many the kernel overwrote.
"""

import contextlib
import ctypes
import os
import re
import signal
import subprocess
from pathlib import Path

from children import check, until
from place import Server, holds_soon, noted_in, numbers_of

TRACEFS = Path("/sys/kernel/tracing")
CLONE_NEWNS = 0x20000
# How large a ring is wanted, and how many of the records below a page has at most.
KILOBYTES, OF_A_PAGE = 16, 92
# How wide a number is in a record's text, on the first CPU and on the second one: a page of 4,080 bytes has 92 records
# of 44 bytes, and room to say how many were overwritten before it, or 85 of 48 bytes, and none.
WIDTHS = 4, 8


def is_tracefs_here():
    """Whether there is a tracefs: this machine's, or one that this process, which has the scene for itself, sees."""
    if (TRACEFS / "instances").is_dir():
        return True
    if ctypes.CDLL(None).unshare(CLONE_NEWNS):
        return False
    mounts = (["--make-rprivate", "/"], ["-t", "tracefs", "none", TRACEFS])
    return not any(subprocess.run(["mount", *words], capture_output=True, check=False).returncode for words in mounts)


class Instance:
    """An instance of the kernel's ring buffer, and how many records each of its first CPUs was given to write."""

    prefix = "tracering-fleet-"

    def __init__(self):
        # (One whose process was killed is still there.)
        for left in (TRACEFS / "instances").glob(f"{self.prefix}*"):
            if not Path("/proc", left.name.removeprefix(self.prefix)).exists():
                self.is_removed(left)
        self.folder, self.all_cpus = TRACEFS / "instances" / f"{self.prefix}{os.getpid()}", os.sched_getaffinity(0)
        self.folder.mkdir()
        self.written = {cpu: 0 for cpu in sorted(self.all_cpus)[:2]}

    def __enter__(self):
        (self.folder / "buffer_size_kb").write_text(f"{KILOBYTES}\n")
        self.marker = open(self.folder / "trace_marker", "wb", buffering=0)
        return self

    def __exit__(self, failure, *_):
        self.marker.close()
        is_removed = holds_soon(lambda: self.is_removed(self.folder))
        check(failure or is_removed, "the instance of the kernel's ring buffer stays")

    @staticmethod
    def is_removed(folder):
        """Whether an instance is gone. (As long as a process has its files open, it stays.)"""
        with contextlib.suppress(OSError):
            folder.rmdir()
        return not folder.exists()

    def write(self, count):
        """Has each of the CPUs write so many records."""
        for cpu, width in zip(self.written, WIDTHS):
            os.sched_setaffinity(0, {cpu})
            for _ in range(count):
                self.marker.write(b"event %*d of CPU %3d\n" % (width, self.written[cpu], cpu))
                self.written[cpu] += 1
        os.sched_setaffinity(0, self.all_cpus)

    def stat(self, cpu, name):
        """What the kernel says of a CPU's ring."""
        return int(re.search(rf"^{name}: (\d+)$", (self.folder / f"per_cpu/cpu{cpu}/stats").read_text(), re.M)[1])

    def is_read(self):
        return not any(self.stat(cpu, "entries") for cpu in self.written)


def live_kernel(place):
    """The kernel that runs here: what it wrote is there, or missing as it says, also after a publisher was killed."""
    try:
        instance = Instance() if is_tracefs_here() else None
    except OSError:
        instance = None
    if not instance:
        print("fleet: live_kernel: this process can't make an instance of a kernel's ring buffer here")
        return
    with instance as kernel:
        found, noted = written_and_read(place, kernel)
        for cpu in kernel.written:
            account_for(kernel, cpu, *(found[9 << 32 | incarnation, cpu] for incarnation in (1, 2)), noted[cpu])


def written_and_read(place, kernel):
    """Has the CPUs write, and publishers read that. Answers what a collector has, and what a killed one noted."""
    server, state = Server(place.folder), place.folder / "state"
    words = [*server.words, "--kernel", kernel.folder, "--state", state, "--host", 9]
    publisher, count = place.counted("publisher", "nats_publisher", *words, "--incarnation", 1)
    # (What it acknowledges just before the server is killed comes again.)
    to = ["--log", place.folder / "log", "--copy", "a", "--retry", 1500]
    collector = place.child("collector", "nats_collector", *server.words, *to)
    for _ in range(5):
        kernel.write(60)
        until(kernel.is_read, "the publisher reads what there is", publisher)
    publisher.freeze()
    kernel.write(2000)
    overwritten = [kernel.stat(cpu, "overrun") for cpu in kernel.written]
    check(min(overwritten) > 1000, f"the kernel overwrites {overwritten} records")
    publisher.signal(signal.SIGCONT)
    until(lambda: kernel.is_read() and count("pieces_total") == count("pieces_acknowledged_total"), "all is sent",
        publisher, collector)

    def noted():
        return {cpu: noted_in(state)[9 << 32 | 1, cpu] for cpu in kernel.written}

    # What this one reads now doesn't come to the bus.
    before = noted()
    server.child.freeze()
    kernel.write(100)
    holds_soon(lambda: all(noted()[cpu] > before[cpu] for cpu in before))
    publisher.kill()
    of_killed = noted()
    server.child.kill()
    server.start()
    publisher, _ = place.counted("next", "nats_publisher", *words, "--incarnation", 2)
    kernel.write(300)
    until(kernel.is_read, "the next publisher reads what there is", publisher)
    place.stopped(publisher)
    until(lambda: server.owed("copy-a") == 0, "the collector has all", collector)
    place.stopped(collector)
    return place.told(), of_killed


def leads_of(told, cpu):
    """By how much the kernel's numbers, which the texts of the records say, are above those of the stream: by the same
    number, but behind an unknown one, where the kernel overwrote some and had no room to say how many.
    """
    unknown, leads, last = numbers_of(told, "unknown"), [], -1
    for number, (_, payload) in sorted(told.records.items()):
        text = re.search(rb"event +(\d+) of CPU +(\d+)\n", payload)
        check(text and int(text[2]) == cpu, f"record {number} of CPU {cpu} is {payload}")
        lead = int(text[1]) - number
        is_behind = lead > (leads[-1] if leads else 0) and unknown & {*range(last + 1, number)}
        check(not leads or lead == leads[-1] or is_behind, f"record {number} of CPU {cpu} is {payload}")
        leads.append(lead)
        last = number
    return leads


def account_for(kernel, cpu, first, second, noted):
    """All that a CPU wrote is a record, missing or unknown, or was being read by the publisher that was killed."""
    check(first.end == noted, f"the end of a killed publisher is {first.end}, and not {noted}")
    missing = 0
    for told in (first, second):
        numbers = told.records.keys() | numbers_of(told, "missing") | numbers_of(told, "unknown")
        check(numbers == {*range(told.end)}, f"a number of CPU {cpu} isn't accounted for")
        missing += len(numbers_of(told, "missing"))
    leads, next_leads = leads_of(first, cpu), leads_of(second, cpu)
    check(leads[0] == 0, f"CPU {cpu} begins with event {leads[0]}")
    end, overrun = second.end + next_leads[-1], kernel.stat(cpu, "overrun")
    check(end == kernel.written[cpu], f"CPU {cpu} ends at event {end}, and not {kernel.written[cpu]}")
    if 0 in numbers_of(second, "unknown") or len({*leads}) + len({*next_leads}) > 2:
        print(f"fleet: live_kernel: the kernel had no room to say how many records of CPU {cpu} it overwrote")
        return
    between = next_leads[0] - first.end
    check(0 <= between <= OF_A_PAGE, f"{between} events of CPU {cpu} are in neither stream")
    check(missing == overrun, f"{missing} records of CPU {cpu} are missing, and {overrun} were overwritten")
