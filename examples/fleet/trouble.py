"""Long scenes of `test`: hosts, collectors and their bus are killed, frozen and parted at random. At the end all is
whole again, the hosts come to their end, one more collector gets all that the bus has, and `compare` reads the hosts'
ledgers and the collectors' logs.
"""

import asyncio
import re
import signal
import subprocess
from collections import Counter

from children import ENDS_WITH_US, LONG, Child, Failure, comes
from cluster import Kafka, Nats, files_of, size_of
from place import HERE

RINGS = "--rings --cpus 2 --pages 16 --size 1020 --seconds 100000 --window 64 --patience 900".split()
HOSTS, COPIES, SHARES = 3, ("x", "y"), ("a", "b")
# How many seconds a scene may take at most: it has several waits, each as long as it has to be (children.py).
PATIENCE = 4 * LONG


class Host:
    """A host of the fleet; each start is another incarnation, with a ledger of its own."""

    kind = "hosts"

    def __init__(self, number, fleet):
        self.number, self.fleet, self.incarnation = number, fleet, 0
        self.child = Child(f"host{number}", fleet.folder)

    def start(self):
        self.incarnation += 1
        ledger = self.fleet.ledgers / f"{self.number}.{self.incarnation}"
        names = ["--host", self.number, "--incarnation", self.incarnation, "--ledger", ledger]
        self.child.start(self.fleet.publisher, *self.fleet.bus.words, *names, *RINGS, *self.fleet.bus.of_hosts)


class Collector:
    """A collector, which goes on with its log at each start."""

    kind = "collectors"

    def __init__(self, name, fleet, *words):
        self.fleet, self.log, self.words = fleet, fleet.folder / f"{name}.logs", words
        self.child = Child(f"collector_{name}", fleet.folder)

    def start(self):
        if self.log.exists() and self.fleet.rng.random() < 0.7:
            self.cut_a_write()
        words = [*self.fleet.bus.words, *self.fleet.bus.of_collectors, *self.words]
        self.child.start(self.fleet.collector, *words, "--log", self.log, "--rotate-bytes", 300_000)

    def cut_a_write(self):
        """Leaves a part of a piece at the end of the log, as a crash amid a write does."""
        files = files_of(self.log)
        if not files:
            return
        with open(files[0], "rb") as log:
            # (No piece is shorter than 88 bytes but an end, which isn't the first one.)
            piece = log.read(self.fleet.rng.randint(1, 87))
        with open(files[-1], "ab") as log:
            log.write(piece)

    def files(self):
        return files_of(self.log)


class Fleet:
    """Hosts, two collectors with whole copies, and two that share one copy."""

    def __init__(self, folder, bus, publisher, collector, rng):
        self.folder, self.bus, self.publisher, self.collector, self.rng = folder, bus, publisher, collector, rng
        self.ledgers, self.busy, self.done = folder / "ledgers", set(), Counter()
        self.ledgers.mkdir()
        self.hosts = [Host(number, self) for number in range(1, HOSTS + 1)]
        self.copies = [Collector(name, self, "--copy", name) for name in COPIES]
        self.shares = [Collector(name, self, "--share", "half") for name in SHARES]
        self.late = Collector("late", self, "--copy", "late")
        self.parts = [*self.hosts, *self.copies, *self.shares]

    def start(self):
        for part in self.parts:
            part.start()

    async def halves(self):
        """Two collectors get half of a running fleet's parcels each, one is killed, and then all is restarted."""
        await self.bus.whole()
        begun = await self.grown([0, 0], 1)
        got = await self.grown(begun, 250_000)
        said = f"two shares get {got[0]:,} and {got[1]:,} bytes, then one is killed, then all is restarted"
        print(f"fleet: {said}", flush=True)
        self.shares[1].child.kill()
        await asyncio.sleep(1)
        for part in self.parts:
            part.child.kill()
        await self.bus.restart()
        self.start()
        await self.bus.whole()

    async def grown(self, since, least):
        """Waits until the logs of both shares have grown by so many bytes, and answers by how many they did."""
        def got():
            if not all(share.files() for share in self.shares):
                return None
            grown = [size_of(share.log) - begun for share, begun in zip(self.shares, since)]
            return grown if min(grown) >= least else None

        return await comes(got, "both shares grow", *(part.child for part in self.parts))

    async def trouble(self, seconds):
        """Faults at random for so many seconds."""
        until = asyncio.get_running_loop().time() + seconds
        await asyncio.gather(self.trouble_programs(until), self.trouble_bus(until))

    async def trouble_bus(self, until):
        while asyncio.get_running_loop().time() < until:
            await asyncio.sleep(self.rng.uniform(1, 3))
            self.done[await self.bus.trouble(self.rng)] += 1

    async def trouble_programs(self, until):
        """Each program is killed once at least."""
        tasks, unharmed = [], self.rng.sample(self.parts, len(self.parts))
        while asyncio.get_running_loop().time() < until or unharmed:
            await asyncio.sleep(self.rng.uniform(0.1, 0.8))
            part, is_killed = self.rng.choice(self.parts), self.rng.random() < 0.5
            if unharmed and unharmed[-1] not in self.busy:
                part, is_killed = unharmed.pop(), True
            if part not in self.busy:
                self.busy.add(part)
                tasks.append(asyncio.create_task(self.trouble_program(part, is_killed)))
        await asyncio.gather(*tasks)

    async def trouble_program(self, part, is_killed):
        if not part.child.is_running():
            raise Failure(f"{part.child.name} ended by itself")
        if is_killed:
            part.child.kill()
            await asyncio.sleep(self.rng.uniform(0.1, 0.8))
            part.start()
            self.done[f"{part.kind} killed"] += 1
            await asyncio.sleep(1)
        else:
            await part.child.frozen(self.rng.uniform(0.3, 3))
            self.done[f"{part.kind} frozen"] += 1
        self.busy.discard(part)

    async def end(self):
        """The hosts end, the collectors get what is left, and one more gets all that the bus has."""
        for host in self.hosts:
            host.child.signal(signal.SIGTERM)
        for host in self.hosts:
            await host.child.end_well()
        readers = {f"copy-{name}" for name in COPIES} | {"share-half"}
        await self.bus.drained(readers, [part.log for part in [*self.copies, *self.shares]])
        self.late.start()
        await self.bus.drained({"copy-late"}, [self.late.log])
        for part in [*self.copies, *self.shares, self.late]:
            part.child.signal(signal.SIGTERM)
        for part in [*self.copies, *self.shares, self.late]:
            await part.child.end_well()

    def told(self):
        """What the collectors that weren't killed said: it has to have duplicates, and nothing that is refused."""
        sums = Counter()
        for part in [*self.copies, *self.shares, self.late]:
            for name, count in re.findall(r"(added|known|refused) (\d+)", part.child.said()):
                sums[name] += int(count)
        faults = ", ".join(f"{count} {what}" for what, count in sorted(self.done.items()))
        if sums["refused"]:
            raise Failure("pieces are refused")
        return f"{faults}; {sums['known']} of {sum(sums.values())} pieces came again"

    def compared(self, copies, *more, **ends):
        """Whether all have the same, by the program that reads ledgers and logs."""
        shares = [share.log for share in self.shares]
        command = [*ENDS_WITH_US, HERE / "compare", self.ledgers, "--copies", *copies, "--shares", *shares]
        command += ["--bus", self.late.log, *more]
        return subprocess.run(command, check=False, timeout=LONG, **ends).returncode == 0

    def compare(self, tracering, *more):
        shares, copies = ([part.log for part in parts] for parts in (self.shares, self.copies))
        if tracering:
            listing = self.folder / "listing"
            with open(listing, "wb") as text:
                files = [file for share in self.shares for file in share.files()]
                command = [*ENDS_WITH_US, tracering, "collect", *files]
                done = subprocess.run(command, stdout=text, check=False, timeout=LONG)
            if done.returncode:
                raise Failure(f"{tracering} collect ends with status {done.returncode}")
            more = [*more, "--listing", listing]
        if not self.compared(copies, *more):
            raise Failure("hosts and collectors don't have the same")

    def compare_wrong_logs(self):
        """A log that isn't as it has to be is noticed."""
        log = b"".join(file.read_bytes() for file in self.copies[0].files())
        first = int.from_bytes(log[16:24], "little")
        flipped = bytearray(log)
        flipped[self.rng.randrange(32, first)] ^= 1
        quiet = {"stdout": subprocess.DEVNULL, "stderr": subprocess.DEVNULL}
        for wrong in (log[first:], log[:first] + log, log[:-1], bytes(flipped)):
            (self.folder / "wrong.log").write_bytes(wrong)
            if self.compared([self.folder / "wrong.log", self.copies[1].log], **quiet):
                raise Failure("compare doesn't notice a log that is wrong")


# ---- The scenes


async def troubled(fleet, place, seconds, is_lossy):
    """Has a fleet work amid faults for so many seconds, and then compares what there is."""
    await fleet.bus.start()
    fleet.start()
    if is_lossy:
        await fleet.halves()
    await fleet.bus.whole()
    await fleet.trouble(seconds)
    await fleet.end()
    stored = await fleet.bus.stored()
    print(f"fleet: {fleet.told()}", flush=True)
    if len(set(stored.values())) > 1:
        print(f"fleet: the nodes' copies differ, in messages: {stored}", flush=True)
    fleet.compare(place.programs.get("tracering"), *(["--lossy"] if is_lossy else []))
    if not is_lossy:
        fleet.compare_wrong_logs()


def carried_out(place, bus, kind, seconds, is_lossy=False):
    programs = [place.programs[f"{kind}_{program}"] for program in ("publisher", "collector")]
    work = troubled(Fleet(place.folder, bus, *programs, place.rng), place, seconds, is_lossy)

    async def limited():
        await asyncio.wait_for(work, seconds + PATIENCE)

    try:
        asyncio.run(limited())
    except asyncio.TimeoutError as late:
        raise Failure("it takes too long") from late


def one(place):
    """One node of NATS, which isn't killed: nothing may be lost."""
    carried_out(place, Nats(place.folder, 1), "nats", place.seconds / 4)


def three(place):
    """Three nodes of NATS with three copies, which are killed, frozen and parted: what the bus loses is unknown."""
    carried_out(place, Nats(place.folder, 3), "nats", place.seconds, is_lossy=True)


def kafka(place):
    """Three brokers that speak Kafka's protocol: nothing may be lost."""
    carried_out(place, Kafka(place.folder, place.programs["mock_kafka"]), "kafka", place.seconds / 4)


SCENES = {scene.__name__: scene for scene in (three, kafka, one)}
