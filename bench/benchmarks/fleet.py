"""Fleets: parcels through one node of NATS, and how a fleet grows with parcels and streams

A publisher of examples/fleet writes as fast as it can, and publishes what the bus takes; what it doesn't is overwritten
and counted. A collector logs all, and syncs before it acknowledges. The node has file storage and one copy. Processor
time is user and system time, of the publisher without that of the thread that writes; a megabyte is 10^6 bytes.

A fleet that grows has parcels of 10 records with payloads of 24 bytes, packed to 368 bytes.
"""

import os
import re
import shutil
import signal
import socket
import subprocess
import time

from lib import count, tables
from lib.programs import TOP, Failure, call

NEEDS = ("rt", "cc", "nats-server")
SOURCES = TOP / "examples/fleet"
SIZES = (1_000, 4_080, 16_368, 65_520)
SECONDS = 5
# fleet_scale.c makes no longer listings.
LISTED = 2_000_000
GROWTH = [(parcels, 100, order) for parcels in (10_000, 100_000, 1_000_000) for order in ("rising", "shuffled")]
GROWTH += [(1_000_000, streams, "shuffled") for streams in (10_000, 100_000)]
FORGETTING = [(parcels, 100, "rising", "forget") for parcels in (10_000, 100_000, 1_000_000)]
FORGETTING.append((1_000_000, 100_000, "rising", "forget"))


def built(folder, name):
    program = folder / name
    if name == "fleet_scale":
        source, archive = TOP / f"tests/c/{name}.c", TOP / "out/libtracering.a"
        call(["cc", "-O2", "-std=c11", f"-I{TOP}/c/include", source, archive, "-o", program])
    else:
        call([SOURCES / "build", folder, name])
    return program


class Process:
    """A program, with its output and the processor time that it took."""

    def __init__(self, *command):
        ends = {"stdout": subprocess.PIPE, "stderr": subprocess.STDOUT}
        self.process = subprocess.Popen([*map(str, command)], text=True, **ends)

    def end(self, number=None):
        """Its status, its output, and its seconds."""
        if number:
            self.process.send_signal(number)
        output = self.process.stdout.read()
        _, status, usage = os.wait4(self.process.pid, 0)
        self.process.returncode = os.waitstatus_to_exitcode(status)
        return self.process.returncode, output, usage.ru_utime + usage.ru_stime

    def kill(self):
        if self.process.returncode is None:
            self.process.kill()


def free_port():
    with socket.create_server(("127.0.0.1", 0)) as here:
        return here.getsockname()[1]


def wait_for(port):
    for _ in range(100):
        try:
            socket.create_connection(("127.0.0.1", port)).close()
            return
        except OSError:
            time.sleep(0.1)
    raise Failure("fleet: nats-server doesn't listen")


def through_one_node(folder, publisher, collector, size):
    """Parcels, their bytes, the seconds until the collector has all, and what broker, publisher and collector took."""
    place, port = folder / f"node{size}", free_port()
    place.mkdir()
    log, bus = place / "log", ["--servers", f"nats://127.0.0.1:{port}"]
    processes = [Process("nats-server", "-a", "127.0.0.1", "-p", port, "-js", "-sd", place)]
    try:
        wait_for(port)
        processes.append(Process(collector, *bus, "--log", log, "--copy", "bench"))
        words = ["--rings", "--cpus", 4, "--pages", 64, "--size", size]
        words += ["--rate", 0, "--seconds", SECONDS, "--window", 512]
        begun = time.time()
        processes.append(Process(publisher, *bus, *words))
        node, getter, sender = processes
        status, said, sending = sender.end()
        sent = re.search(r"sent (\d+) again (\d+) bytes (\d+)\nwriting ([\d.]+)", said)
        if status or not sent:
            raise Failure(f"fleet: the publisher ends with status {status}: {said}")
        while sum(file.stat().st_size for file in log.glob("*.log")) < int(sent[3]):
            if time.time() > begun + 60:
                raise Failure("fleet: the collector doesn't get all")
            time.sleep(0.05)
        took = max(file.stat().st_mtime for file in log.glob("*.log")) - begun
        status, said, getting = getter.end(signal.SIGTERM)
        if status or f"added {sent[1]} known 0 refused 0" not in said:
            raise Failure(f"fleet: the collector ends with status {status}: {said}")
        return int(sent[1]), int(sent[3]), took, node.end(signal.SIGTERM)[2], sending - float(sent[4]), getting
    finally:
        for process in processes:
            process.kill()
        shutil.rmtree(place, ignore_errors=True)


def bus_table(folder):
    programs = [built(folder, name) for name in ("nats_publisher", "nats_collector")]
    yield f"Through one node, in {SECONDS} seconds of writing and until the collector has all; microseconds of"
    yield "processors a parcel:"
    yield ""
    yield from tables.head("Page, bytes", "Parcels", "Parcels/s", "MB/s", "Broker", "Publisher", "Collector")
    for size in SIZES:
        parcels, octets, took, *processors = through_one_node(folder, *programs, size)
        cells = [f"{size:,}", f"{parcels:,}", f"{parcels / took:,.0f}", f"{octets / took / 1e6:.1f}"]
        yield tables.line([*cells, *(f"{seconds / parcels * 1e6:.1f}" for seconds in processors)])


def growth_table(folder):
    program = built(folder, "fleet_scale")
    yield ""
    yield "Of a fleet that grows: nanoseconds of `tracering_fleet_add` a parcel, new and known; bytes of memory a"
    yield "parcel; a call of `tracering_fleet_frontier` in microseconds; nanoseconds and bytes of `tracering_fleet_list`"
    yield f"a line, up to {LISTED:,} lines:"
    yield ""
    yield from tables.head("Parcels", "Streams", "Order", "New", "Known", "Memory", "Frontier", "Line", "Line's memory")
    for given in [*GROWTH, *FORGETTING]:
        found = dict(line.split() for line in count.output([program, *map(str, given)]).decode().splitlines())
        order = "rising, and forgotten" if given[3:] else given[2]
        frontier = f"{int(found['frontier']) / 1000:,.0f}" if "frontier" in found else ""
        cells = [f"{given[0]:,}", f"{given[1]:,}", order, found["add"], found["again"], found["memory"], frontier]
        yield tables.line([*cells, found.get("list", ""), found.get("list_memory", "")])


def run(folder):
    call([TOP / "tracering-lib"])
    yield from bus_table(folder)
    yield from growth_table(folder)
