"""A plain choice of what is listed, to compare with the program's: what docs/formats/program.md says, in "A part of a
listing", of the CPUs, moments, events and processes that are asked for, and of the losses that may be of these moments.
"""

import re
import struct

LAST_MOMENT = (1 << 64) - 1


def matches(pattern, text):
    """Whether a pattern stands for a text: `*` for any bytes, and `?` for one."""
    parts = {b"*": b".*", b"?": b"."}
    form = b"".join(parts.get(byte, re.escape(byte)) for byte in (pattern[at : at + 1] for at in range(len(pattern))))
    return re.fullmatch(form, text, re.DOTALL) is not None


def is_named(pattern, system, name):
    """Whether a pattern names an event: what is before its first `:` is for the system, if there is one."""
    of_system, colon, of_name = pattern.partition(b":")
    return matches(of_system, system) and matches(of_name, name) if colon else matches(pattern, name)


class Selection:
    """What is asked for: sets of CPUs, of events' numbers and of processes, or None for all, and the first and the last
    moment."""

    def __init__(self, cpus=None, since=None, until=None, events=None, pids=None):
        self.cpus, self.events, self.pids = cpus, events, pids
        self.since = 0 if since is None else since
        self.until = LAST_MOMENT if until is None else until

    def has_cpu(self, cpu):
        return self.cpus is None or cpu in self.cpus

    def has_all_moments(self):
        return (self.since, self.until) == (0, LAST_MOMENT)

    def has(self, record):
        """Whether a record is listed."""
        moment, cpu, _, data = record
        return self.has_cpu(cpu) and self.since <= moment <= self.until and self.has_writer(data)

    def has_writer(self, data):
        if len(data) < 8:
            return self.events is None and self.pids is None
        kind, pid = struct.unpack_from("<H2xi", data)
        return (self.events is None or kind in self.events) and (self.pids is None or pid in self.pids)

    def window(self, records):
        """Of a CPU's records the greatest number before the moments, and the smallest one after them."""
        before = [number for moment, _, number, _ in records if moment < self.since]
        after = [number for moment, _, number, _ in records if moment > self.until]
        return Window(max(before, default=-1), min(after, default=1 << 64))


class Window:
    """The numbers between which records may be of the moments that are asked for."""

    def __init__(self, before, after):
        self.before, self.after = before, after

    def has_run(self, run):
        """Whether missing numbers may be: a record after them isn't before the moments, one before them not after."""
        first, last = run
        return last >= self.before and first <= self.after

    def has_place(self, number):
        """Whether records that were lost before this number may be."""
        return self.before < number <= self.after
