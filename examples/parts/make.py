#!/usr/bin/env python3
"""Writes the captures of this folder, from their formats alone: a page, and files of trace-cmd of two hosts."""

import struct
from pathlib import Path

HERE = Path(__file__).resolve().parent
COUNTERS = (
    b"CPU: 0\nentries: 2\noverrun: 5\ncommit overrun: 0\ndropped events: 2\n",
    b"CPU: 1\noverrun: 1\n",
    b"CPU: 2\noverrun: 0\n",
    # Of several of a CPU the first counts.
    b"CPU: 0\noverrun: 9\n",
)


def record(delta, payload):
    return struct.pack("<I", len(payload) // 4 | delta << 5) + payload


def page(time, size, *records):
    data = b"".join(records)
    return (struct.pack("<QQ", time, len(data)) + data).ljust(size, b"\0")


def cpu1(size):
    """An event of the number 21, of the process -1; and a record that is too short to have one."""
    return page(22, size, record(0, struct.pack("<HBBi", 21, 0, 0, -1)), record(1, bytes((1, 2, 3, 4))))


def named():
    """Events whose numbers have names by `../fields/names`: flags, and addresses of functions, of the process 7."""
    flags = struct.pack("<HBBiIiI", 20, 0, 0, 7, 0xCC0, 9, 0)
    addresses = struct.pack("<HBBiQQ", 21, 0, 0, 7, 0xFFFFFFFF81000015, 0xFFFFFFFF81000040)
    return page(5, 80, record(0, flags), record(1, addresses))


def option(kind, body):
    return struct.pack("<HI", kind, len(body)) + body


def trace_dat(host, counters):
    """A file of version 7: its head, a page of CPU 0, and the section of options, which says where the page is."""
    head = b"\x17\x08Dtracing7\0\0\x08" + struct.pack("<I", 4096) + b"none\0\0"
    start = len(head) + 8
    buffer = bytes(8) + b"\0local\0" + struct.pack("<II", 4096, 1) + struct.pack("<IQQ", 0, start, 4096)
    options = option(5, b"Linux " + host + b" 6.1.0 x86_64\0") + option(3, buffer)
    options += b"".join(option(2, text + b"\0") for text in counters) + option(0, bytes(8))
    section = struct.pack("<HHIQ", 0, 0, 0, len(options)) + options
    return head + struct.pack("<Q", start + 4096) + cpu1(4096) + section


FILES = {
    "cpu1.raw": cpu1(48),
    "named.raw": named(),
    "host_a.dat": trace_dat(b"a", COUNTERS),
    "host_b.dat": trace_dat(b"b", ()),
}

if __name__ == "__main__":
    for name, data in FILES.items():
        (HERE / name).write_bytes(data)
