"""What the short scenes of `test` share: their folders, the programs, and servers of NATS."""

import os
import random
import re
import signal
import struct
import subprocess
import sys
import time
from pathlib import Path

HERE = Path(__file__).resolve().parent
TOP = HERE.parent.parent
ARCHIVE = Path(os.environ.get("FLEET_LIBRARY") or TOP / "out") / "libtracering.a"
sys.path.insert(0, str(TOP / "tests"))

from children import ENDS_WITH_US, HOST, LONG, Child, Link, NatsServer, check, until
from cluster import files_of
from oracles import fleet as pieces_of


def holds_soon(holds):
    """Whether this holds within some seconds. If it doesn't, that means nothing."""
    end = time.monotonic() + 10
    while not holds() and time.monotonic() < end:
        time.sleep(0.02)
    return holds()


def pieces_in(data):
    """The pieces of a stream."""
    return [piece for _, _, _, piece in pieces_of.all_pieces([data])]


def datas_in(data):
    """The bytes of each of them."""
    return [piece.data for piece in pieces_in(data)]


def records_in(data):
    """Their records: moment, CPU, number and payload."""
    found = [(piece.cpu, piece.parcel.records) for piece in pieces_in(data) if piece.parcel]
    return [
        (moment, cpu, number, payload)
        for cpu, records in found
        for (_, number), (moment, payload) in records.items()
    ]


def numbers_of(told, kind):
    """The missing or the unknown numbers of a CPU."""
    return {number for first, end in told.runs(kind) for number in range(first, end)}


def noted_in(state):
    """The number of each CPU of a stream below which a publisher may have sent what it read, by its state."""
    entries = struct.iter_unpack("<4Q", state.read_bytes())
    return {(stream, cpu): number for stream, cpu, number, made in entries if made}


def log_bytes(folder):
    return b"".join(file.read_bytes() for file in files_of(folder))


class Server(NatsServer):
    """A node of NATS, with more lines in its configuration than the usual ones. It starts again on the same port."""

    def __init__(self, folder, *lines):
        lines = [f'jetstream {{ store_dir: "{folder}/js", max_file: 1G }}', *lines]
        super().__init__("nats", folder, lines, is_port_kept=True)
        self.start()

    @property
    def words(self):
        return ["--servers", f"nats://{HOST}:{self.ports['clients']}"]

    def asked(self, *messages, subject):
        """Sends messages, and answers what the server says to each."""
        with Link(self.ports["clients"]) as link:
            for message in messages:
                link.send(subject, message)
            return [link.answer() for _ in messages]

    def publish(self, *messages, subject="trace.test"):
        """Publishes messages, each of which the server acknowledges."""
        for answer in self.asked(*messages, subject=subject):
            check("error" not in answer, f"the server refuses a message: {answer}")

    def owed(self, consumer):
        """How many messages of the stream a consumer hasn't acknowledged, or None if there is none."""
        [told] = self.asked(b"", subject=f"$JS.API.CONSUMER.INFO.TRACE.{consumer}")
        return None if "error" in told else told["num_pending"] + told["num_ack_pending"]


class Place:
    """The folder of a scene, its programs, what it chooses at random, and how many seconds it may have faults."""

    def __init__(self, folder, programs, seed, seconds):
        self.folder, self.programs, self.rng, self.seconds = folder, programs, random.Random(seed), seconds

    def server(self, name, *lines):
        """A node in a folder of its own, which has the bus's stream."""
        folder = self.folder / name
        folder.mkdir()
        server = Server(folder, *lines)
        server.publish(b'{"name":"TRACE","subjects":["trace.>"]}', subject="$JS.API.STREAM.CREATE.TRACE")
        return server

    def child(self, name, program, *words):
        """Starts a program, which is as patient as the test is."""
        patient = {"nats_publisher": ("--patience", LONG), "nats_collector": ("--retry", 1000 * LONG)}
        word, value = patient.get(program.replace("later", "nats"), (None, None))
        more = [word, value] if word and word not in words else []
        child = Child(name, self.folder)
        child.start(self.programs[program], *more, *words)
        return child

    def run(self, name, program, *words, status=0):
        """Runs a program to its end, and answers what it said."""
        child = self.child(name, program, *words)
        until(lambda: not child.is_running(), f"{name} ends")
        check(child.process.returncode == status, f"{name} ends with {child.process.returncode}, and not {status}")
        return child.said()

    def collect(self, server, *more, log="log", program="nats_collector", name="copy"):
        """Has a collector get what there is. Answers what it said, and the bytes of its log."""
        folder = self.folder / log
        words = [*server.words, "--log", folder, "--copy", name, *more]
        child, _ = self.counted(f"collector_{log}_{len(list(self.folder.iterdir()))}", program, *words)
        until(lambda: server.owed(f"copy-{name}") == 0, "the collector has all", child)
        self.stopped(child)
        return child.said(), log_bytes(folder)

    def told(self, log="log"):
        """What a log says of each CPU of each stream. `tracering collect` has to list just that."""
        files = files_of(self.folder / log)
        found = pieces_of.told_of(pieces_in(log_bytes(self.folder / log)))
        if program := self.programs.get("tracering"):
            done = subprocess.run([*ENDS_WITH_US, program, "collect", *files], capture_output=True, check=False)
            lines = done.stdout.decode().split("\n")[:-1]
            check(done.returncode == 0 and lines == pieces_of.listing(found, False), f"{log} is listed otherwise")
        return found

    def stream(self, server, host=7, seconds=1):
        """Has a publisher write for a while, and answers the pieces that a collector got of it."""
        words = ["--rings", "--host", host, "--incarnation", 1, "--cpus", 2, "--pages", 16, "--size", 1020]
        self.run(f"publisher{host}", "nats_publisher", *server.words, *words, "--rate", 500, "--seconds", seconds)
        return self.collect(server, log=f"all{host}", name=f"all{host}")[1]

    def metrics(self, file):
        """A program's counts, none of which is there before it has written them."""
        found = re.findall(r"^tracering_(\w+) (\d+)$", file.read_text(), re.M) if file.exists() else []
        return {name: int(value) for name, value in found}

    def counted(self, name, program, *words):
        """A child that is at work, and how to ask for its counts."""
        file = self.folder / f"{name}.prom"
        child = self.child(name, program, *words, "--metrics", file, "--metrics-every", 1)
        until(lambda: self.metrics(file) or not child.is_running(), f"{name} is at work")
        return child, lambda which: self.metrics(file).get(which, 0)

    def stopped(self, child):
        """Ends a child by a signal."""
        child.signal(signal.SIGTERM)
        until(lambda: not child.is_running(), f"{child.name} ends")
        check(child.process.returncode == 0, f"{child.name} ends with status {child.process.returncode}")


def made(place, name):
    folder = place.folder / name
    folder.mkdir()
    return folder
