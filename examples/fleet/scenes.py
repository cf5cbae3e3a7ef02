"""Short scenes of `test`, each on one node of NATS of its own, or without a bus: what a collector refuses, keeps and
mends, and what a publisher makes of regions, of recorders' files and of a kernel's pages.
"""

import gzip
import os
import re
import signal
import struct
import subprocess
import time
from functools import partial
from itertools import accumulate
from pathlib import Path

import live_kernel
import said_scenes
from children import ENDS_WITH_US, HOST, LONG, MockBrokers, check, until
from cluster import NOWHERE, files_of
from place import ARCHIVE, HERE, TOP, Server, datas_in, holds_soon, log_bytes, made
from place import noted_in, numbers_of, pieces_in, records_in
from oracles import fleet as pieces_of
from oracles.collect import page_reading
from oracles.image import Fault
from oracles.region import NoRegion, Region

MAGIC, VERSION = pieces_of.MAGIC, pieces_of.VERSION


# ---- What comes over a bus


def marks(place):
    """A mark from the bus hides nothing, and is counted; what is behind it in its message is taken."""
    server = Server(place.folder)
    whole = place.stream(server)
    pieces = pieces_in(whole)
    erasing = b"".join(pieces_of.mark_bytes("forgotten", pieces[0].stream, cpu, 1 << 63) for cpu in (0, 1))
    undelivered = pieces_of.mark_bytes("undelivered", pieces[0].stream, 0, 0, 5)
    other = place.server("second")
    other.publish(pieces[0].data, erasing + pieces[1].data, undelivered)
    collector = place.child("early", "nats_collector", *other.words, "--log", place.folder / "log", "--copy", "a")
    other.publish(*(piece.data for piece in pieces[2:]))
    until(lambda: len(log_bytes(place.folder / "log")) >= len(whole), "the collector has all", collector)
    place.stopped(collector)
    check({*datas_in(log_bytes(place.folder / "log"))} == {*datas_in(whole)}, "a mark from the bus hides pieces")
    check("refused 0 marks 3 quarantined 2" in collector.said(), "marks aren't counted")


def of_version(piece, version):
    """A piece as another version of the programs would send it."""
    data = MAGIC + struct.pack("<I", version) + piece.data[12:-8]
    return data + struct.pack("<Q", pieces_of.crc32c(data))


def versions(place):
    """What can't be read is kept, and read by a later collector; an older host's pieces are read by it, too."""
    server = place.server("bus")
    pieces = pieces_in(place.stream(server))
    check(len(pieces) > 6, "there are too few pieces")
    first, *others = pieces
    later = [of_version(piece, 2) for piece in others[:3]]
    bus = place.server("mixed")
    bus.publish(first.data + later[0] + others[3].data, later[1] + later[2], b"no piece at all", b"",
        b"".join(piece.data for piece in others[4:]))
    said, log = place.collect(bus)
    check("quarantined 4" in said, f"the quarantine: {said}")
    check({*datas_in(log)} == {piece.data for piece in [first, *others[3:]]}, "what can be read isn't taken")
    said, log = place.collect(bus)
    check("quarantined 4" in said and len(pieces_in(log)) == len(pieces) - 3, f"the quarantine stays: {said}")
    kept = (place.folder / "log" / "quarantine").read_bytes()
    with open(place.folder / "log" / "quarantine", "ab") as file:
        file.write(kept[:20])
    said, log = place.collect(bus, program="later_collector")
    check("quarantined 2" in said, f"the quarantine after an upgrade: {said}")
    check(all(data in log for data in later), "a later collector reads what was kept")
    old = place.server("old")
    old.publish(*(piece.data for piece in pieces))
    said, log = place.collect(old, log="newest", program="later_collector")
    check(sorted(datas_in(log)) == sorted(piece.data for piece in pieces), "an older host's pieces aren't taken")


def kept_texts(log):
    """The messages of a quarantine."""
    data, found = (log / "quarantine").read_bytes(), []
    while data:
        letters, size = struct.unpack_from("<8sQ", data)
        check(letters == b"TRMESSAG", "the quarantine is damaged")
        found.append(data[32 : 32 + size])
        data = data[32 + size :]
    return found


def quarantine_full(place):
    """What has no room in quarantine isn't acknowledged, comes again, and holds up nothing else."""
    pieces = [piece.data for piece in pieces_in(place.stream(Server(place.folder)))]
    server, log = place.server("bus"), place.folder / "log"
    bad = [b"%d is no piece " % number * 20 for number in range(3)]
    server.publish(pieces[0], *bad, *pieces[1:])
    room = sum(32 + len(message) for message in bad[:2])
    words = [*server.words, "--log", log, "--copy", "a", "--retry", 500, "--quarantine-bytes", room + 100]
    collector, count = place.counted("collector", "nats_collector", *words)
    until(lambda: count("messages_unkept_total") > 1, "a message without room comes again", collector)
    until(lambda: server.owed("copy-a") == 1, "all others are acknowledged", collector)
    until(lambda: count("quarantine_messages") == 2, "two are kept", collector)
    bytes_told = count("quarantine_bytes"), count("quarantine_limit_bytes")
    check(bytes_told == (room, room + 100), f"{bytes_told} bytes are counted")
    check(count("bus_connected") == 1 and "the quarantine is full" in collector.said(), "a full quarantine isn't said")
    place.stopped(collector)
    check(datas_in(log_bytes(log)) == pieces and kept_texts(log) == bad[:2], "a full quarantine costs something")
    opened(place, log, "--quarantine-bytes", 0)
    check(kept_texts(log) == bad[:2], "a lower limit costs what is kept")
    place.collect(server, "--retry", 500, name="a")
    check(kept_texts(log) == bad, "what had no room isn't kept once there is some")


def quarantine_full_kafka(place):
    """The same over Kafka's protocol, where the place in the partition stays as it was."""
    if "kafka_collector" not in place.programs:
        print("fleet: quarantine_full_kafka: librdkafka-dev isn't here")
        return
    brokers, log = MockBrokers(place.folder, place.programs["mock_kafka"]), place.folder / "log"
    brokers.begin()
    until(brokers.is_there, "brokers are there", brokers.child)
    words = ["--servers", brokers.servers]
    for number in range(3):
        until(brokers.asked(f"put bad{number}"), "a message is there", brokers.child)
    rings = ["--rings", "--cpus", 8, "--size", 1020, "--rate", 200, "--seconds", 1, "--patience", LONG]
    said = place.run("publisher", "kafka_publisher", *words, *rings)
    sent = int(re.search(r"^sent (\d+)", said, re.M)[1])
    for limit, kept in ((2 * (32 + 4), 2), (1000, 3)):
        to = ["--log", log, "--copy", "a", "--quarantine-bytes", limit]
        collector, count = place.counted(f"collector{limit}", "kafka_collector", *words, *to)
        until(lambda: count("quarantine_messages") == kept, "some are kept", collector)
        until(lambda: len(pieces_in(log_bytes(log))) == sent, "all that can be read is there", collector)
        if kept == 2:
            until(lambda: count("messages_unkept_total"), "one has no room", collector)
        else:
            until(lambda: until(brokers.asked("owed copy-a"), "an answer")[1] == "0", "all is committed", collector)
        place.stopped(collector)
        owed = until(brokers.asked("owed copy-a"), "an answer", brokers.child)[1]
        check((int(owed) > 0) == (kept == 2), f"{owed} messages aren't committed")
    check(kept_texts(log) == [b"bad0", b"bad1", b"bad2"], "what had no room isn't kept once there is some")


# ---- Logs


def opening(place, log, *words):
    """Has a collector open a log."""
    name, servers = f"opener{place.rng.random()}", ["--servers", f"nats://{HOST}:{NOWHERE}"]
    return place.child(name, "nats_collector", *servers, "--log", log, "--copy", "a", *words)


def said_of(place, child):
    """What a collector says that has opened a log. It then has to stop."""
    until(lambda: "No server" in child.said(), "the log is open", child)
    place.stopped(child)
    return child.said()


def opened(place, log, *words):
    return said_of(place, opening(place, log, *words))


def damage(place):
    """A flipped bit costs the piece that it is in, whose bytes are kept; a tail that a crash left is cut off."""
    whole = place.stream(Server(place.folder))
    pieces = [piece.data for piece in pieces_in(whole)]
    cases = [*flips(place, whole, pieces), *tails(place, whole, pieces), *cuts(whole, pieces)]
    cases.append(("marked", whole + pieces_of.mark_bytes("forgotten", 5, 1, 99), is_mark_named))
    openers = []
    for name, data, look in cases:
        log = made(place, name)
        (log / "000001.log").write_bytes(data)
        is_damage_selected(place, log, name.startswith(("flip", "tail")))
        openers.append((opening(place, log), log, look))
    for opener, log, look in openers:
        look(log, said_of(place, opener))


def is_damage_selected(place, log, is_damaged):
    """What is damaged in a log that no collector has opened yet is named by log_select, too."""
    command = [place.programs["log_select"], "--log", log]
    done = subprocess.run(command, capture_output=True, text=True, errors="replace", check=False)
    named = "000001.log, bytes " in done.stderr
    check((done.returncode, named) == ((3, True) if is_damaged else (0, False)), f"{log.name}: {done.stderr}")


def flips(place, whole, pieces):
    """Logs with a flipped bit: their names, their bytes, and what has to be said and left of each."""
    starts = [*accumulate(map(len, pieces), initial=0)][:-1]
    # (The last parcel; behind it are ends.)
    last = max(k for k, piece in enumerate(pieces) if struct.unpack_from("<I", piece, 12)[0] == 0)
    cut_at_last = whole[: starts[last] + len(pieces[last])]
    bits = [(8 * (starts[3] + 16) + bit, whole) for bit in (0, 3, 9, 16, 40)]
    bits += [(8 * (starts[last] + 16) + bit, cut_at_last) for bit in range(0, 24, 2)]
    bits += [(place.rng.randrange(8 * len(whole)), whole) for _ in range(12)]
    for number, (bit, data) in enumerate(bits):
        flipped = bytearray(data)
        flipped[bit // 8] ^= 1 << bit % 8
        hit = max(k for k, start in enumerate(starts) if start <= bit // 8)
        left = [piece for k, piece in enumerate(pieces) if starts[k] < len(data) and k != hit]
        yield f"flip{number}", flipped, partial(is_damage_kept, bit, flipped, starts[hit], b"".join(left))


def is_damage_kept(bit, flipped, start, left, log, said):
    check(log_bytes(log) == left, f"bit {bit}: other pieces are lost")
    check((log / "000001.damaged").read_bytes() == flipped, f"bit {bit}: the damaged bytes aren't kept")
    named = re.search(rf"000001.log, bytes {start} to \d+: ", said)
    check(named, f"bit {bit}: the damage isn't named: {said}")
    check((log / "000002.log").exists(), f"bit {bit}: the log doesn't go on in a new file")


def tails(place, whole, pieces):
    """Logs with bytes at their ends that no crash leaves."""
    for number, tail in enumerate([bytes(5000), place.rng.randbytes(300), pieces[0][:50] + bytes(100)]):
        yield f"tail{number}", whole + tail, partial(is_tail_kept, whole, tail)


def is_tail_kept(whole, tail, log, said):
    check(log_bytes(log) == whole, f"{log.name} costs pieces")
    check((log / "000001.damaged").read_bytes() == whole + tail, f"{log.name} isn't kept")
    check(f"bytes {len(whole)} to {len(whole) + len(tail) - 1}: " in said, f"{log.name} isn't named: {said}")


def cuts(whole, pieces):
    """Logs whose last piece wasn't written whole."""
    for length in (1, 7, 8, 15, 20, 31, 40, 79, 85, len(pieces[0]) - 1):
        yield f"cut{length}", whole + pieces[0][:length], partial(is_cut_off, whole)


def is_cut_off(whole, log, said):
    check(log_bytes(log) == whole and not [*log.glob("*.damaged")], f"the tail of {log.name} isn't cut off")
    check("aren't" not in said and "wasn't written whole" in said, f"the tail of {log.name} isn't named: {said}")


def is_mark_named(_, said):
    check("a mark hides the numbers below 99 of stream 0000000000000005 CPU 1" in said, "a mark in a log")


def selected(place, log, *words):
    """What log_select finds, and how many bytes of how many it read."""
    command = [place.programs["log_select"], "--log", log, *map(str, words)]
    done = subprocess.run(command, capture_output=True, check=True)
    return done.stdout, [int(count) for count in re.search(rb": (\d+) of (\d+) bytes", done.stderr).groups()]


def rotation(place):
    """Files rotate by size and by time without a restart, and a time of the log is found by its index."""
    server, log = place.server("bus"), place.folder / "log"
    rotates = ["--rotate-bytes", 20_000, "--rotate-seconds", 1000]
    collector = place.child("collector", "nats_collector", *server.words, "--log", log, "--copy", "a", *rotates)
    by_time = ["--log", place.folder / "by_time", "--copy", "b", "--rotate-seconds", 1]
    other = place.child("by_time", "nats_collector", *server.words, *by_time)
    words = ["--rings", "--host", 7, "--cpus", 2, "--size", 1020, "--rate", 600, "--seconds", 1]
    for incarnation in range(1, 6):
        place.run(f"publisher{incarnation}", "nats_publisher", *server.words, *words, "--incarnation", incarnation)
        until(lambda: server.owed("copy-a") == server.owed("copy-b") == 0, "the collectors have all", collector, other)
    place.stopped(collector)
    place.stopped(other)
    check(len(files_of(log)) > 4, "files don't rotate by size")
    check(len(files_of(place.folder / "by_time")) > 1, "files don't rotate by time")
    datas, others = (sorted(datas_in(log_bytes(each))) for each in (log, place.folder / "by_time"))
    check(datas == others, "files that rotate have something else")
    find_by_index(place, log)


def find_by_index(place, log):
    """A time of a log is found whole, whatever its index lacks."""
    files, size, records = files_of(log), len(log_bytes(log)), sorted(records_in(log_bytes(log)))
    since, end = records[len(records) // 2][0], records[len(records) // 2 + 40][0]
    wanted = {record for record in records if since <= record[0] <= end}
    for cut in (0, 1, 49):
        # (An index that lacks its end, as while a collector writes.)
        index = files[-1].with_suffix(".index")
        index.write_bytes(index.read_bytes()[: max(0, index.stat().st_size - cut)])
        found, (read, of) = selected(place, log, "--since", since, "--until", end)
        check(wanted <= {*records_in(found)}, "a time of the log isn't found whole")
        check(of == size and read * 4 < size, f"{read} of {of} bytes are read")
    stream = 7 << 32 | 3
    found, _ = selected(place, log, "--cpu", 1, "--stream", f"{stream:x}")
    of_one = [piece.data for piece in pieces_in(log_bytes(log)) if (piece.stream, piece.cpu) == (stream, 1)]
    check(of_one and datas_in(found) == of_one, "one CPU isn't found")
    for index in log.glob("*.index"):
        data = bytearray(index.read_bytes())
        for _ in range(len(data) > 0):
            data[place.rng.randrange(len(data))] ^= 1 << place.rng.randrange(8)
        index.write_bytes(data)
    found, _ = selected(place, log, "--since", since, "--until", end)
    check(wanted <= {*records_in(found)}, "a time of the log isn't found by a damaged index")


def listed(place, command, *words):
    """The lines that a listing has."""
    more = {"TRACERING": str(place.programs["tracering"]), "LOG_SELECT": str(place.programs["log_select"])}
    command = [*ENDS_WITH_US, *command, *map(str, words)]
    done = subprocess.run(command, env=os.environ | more, capture_output=True, check=False)
    check(done.returncode == 0, f"{command} ends with {done.returncode}: {done.stderr}")
    return done.stdout.decode().split("\n")[:-1]


def restricted(lines, since, until):
    """Those of a listing that are of a time: its records, and what is missing and unknown between them."""
    found, numbers = [], {}
    for line in lines:
        word, second, third = line.split(" ")[:3]
        if ":" in word and since <= int(third) <= until:
            numbers.setdefault(word, []).append(int(second))
            found.append(line)
        elif ":" not in word and second in numbers:
            first, last = map(int, third.split("-"))
            found += [line] * (min(numbers[second]) < first and last < max(numbers[second]))
    return found


def time_of_log(place):
    """A time of two large logs is listed as in the listing of all of them, and the rest isn't read."""
    if "tracering" not in place.programs:
        print("fleet: time_of_log: the program isn't named")
        return
    server, logs = Server(place.folder), [place.folder / name for name in "ab"]
    to = ["--share", "half", "--rotate-bytes", 100_000]
    collectors = [place.child(log.name, "nats_collector", *server.words, "--log", log, *to) for log in logs]
    words = ["--rings", "--cpus", 3, "--pages", 64, "--size", 1020, "--rate", 2000, "--seconds", 3, "--window", 4]
    for host in (7, 8):
        place.run(f"publisher{host}", "nats_publisher", *server.words, *words, "--host", host, "--incarnation", 1)
    until(lambda: server.owed("share-half") == 0, "the collectors have all", *collectors)
    for collector in collectors:
        place.stopped(collector)
    # (Without some pages numbers are unknown, too.)
    kept = datas_in(log_bytes(logs[0]))
    lost = place.folder / "lost"
    lost.mkdir()
    (lost / "000001.log").write_bytes(b"".join(data for at, data in enumerate(kept) if at % 7 != 3))
    collect = [place.programs["tracering"], "collect"]
    for part in (logs, [lost]):
        whole = listed(place, collect, *(file for log in part for file in files_of(log)))
        moments = [int(line.split(" ")[2]) for line in whole if ":" in line.split(" ")[0]]
        for at in (0, len(moments) // 3, len(moments) // 2, len(moments) - 300):
            span = moments[at], moments[at + 299]
            words = ["--since", span[0], "--until", span[1]]
            wanted = restricted(whole, *span)
            check(listed(place, [HERE / "log_list"], *words, *part) == wanted, "a time of the log is listed otherwise")
    check({line.split(" ")[0] for line in wanted} >= {"unknown"}, "nothing is unknown between records")
    for log in logs:
        read, of = selected(place, log, *words)[1]
        check(read * 2 < of == len(log_bytes(log)), f"{read} of {of} bytes are read")


# ---- Publishers


def numbers_left(ring, stream):
    """The numbers of the records that a ring has, by a reader of regions that shares nothing with the publisher."""
    try:
        region = Region(ring.read_bytes())
    except (FileNotFoundError, NoRegion):
        return []
    # (A ring that is written meanwhile may not be readable whole, just then.)
    pages = region.pages if region.stream == stream else []
    return [number for page in pages for number in range(page.first, page.past)]


def regions(place):
    """The rings of a process that is killed, and then of one that ends, while publishers are killed, too."""
    server = Server(place.folder)
    folder, state = place.folder / "rings", place.folder / "state"
    folder.mkdir()
    for stream, rate, is_killed in ((1, 1000, True), (2, 1000, False), (3, 20_000, True)):
        writer = place.child(f"writer{stream}", "region_writer", folder, f"{stream:x}", 2, rate, 100_000)
        until(lambda: numbers_left(folder / "ring.0", stream), "the rings are there", writer)
        rings = [word for cpu in (0, 1) for word in ("--region", folder / f"ring.{cpu}")]
        words = [*server.words, *rings, "--state", state]
        for number in range(3):
            publisher, count = place.counted(f"publisher{stream}_{number}", "nats_publisher", *words, "--window", 8)
            until(lambda: count("pieces_acknowledged_total") > 8, "pieces are there", publisher)
            time.sleep(place.rng.uniform(0, 0.5))
            publisher.kill()
        # (Less than half can be unknown then: what the killed ones had read.)
        newest = max(until(lambda: numbers_left(folder / "ring.0", stream), "a ring is read", writer))
        until(lambda: min(numbers_left(folder / "ring.0", stream), default=0) > 2 * newest + 1000, "more", writer)
        if is_killed:
            writer.kill()
        else:
            place.stopped(writer)
        place.run(f"last{stream}", "nats_publisher", *words, "--once")
        numbers = numbers_left(folder / "ring.0", stream)
        check(numbers, "the ring that is left can't be read")
        said, _ = place.collect(server, log=f"log{stream}", name=f"r{stream}")
        check(" refused 0 " in said, f"what the publishers state contradicts itself: {said}")
        found = place.told(f"log{stream}")
        for cpu in (0, 1):
            told = found[stream, cpu]
            for number, (_, payload) in told.records.items():
                check(payload.startswith(f"event {number} of CPU {cpu} ".encode()), f"record {number} is another one")
            missing, unknown = (sum(b - a for a, b in told.runs(kind)) for kind in ("missing", "unknown"))
            check(len(told.records) + missing + unknown == told.expected, "a number isn't accounted for")
            check(not is_killed or told.end is None, "a killed process has no end")
            check(is_killed or told.end == told.expected, "the end isn't sent")
            check(cpu or {*numbers} <= told.records.keys(), "what is left in the ring isn't sent")
            check(unknown * 2 < told.expected, f"{unknown} of {told.expected} numbers are unknown")
            check(missing >= 1000, "what is overwritten isn't missing")


def regions_replaced(place):
    """A publisher goes on while the process whose rings it sends starts again, in files of the same names."""
    server, folder = Server(place.folder), made(place, "rings")
    rings = [word for cpu in (0, 1) for word in ("--region", folder / f"ring.{cpu}")]
    words = [*server.words, *rings, "--state", place.folder / "state"]
    publisher, _ = place.counted("publisher", "nats_publisher", *words)
    log = place.folder / "log"
    collector = place.child("collector", "nats_collector", *server.words, "--log", log, "--copy", "a")
    for stream in (1, 2, 3):
        place.run(f"writer{stream}", "region_writer", folder, f"{stream:x}", 2, 300, 1)
        end = pieces_of.mark_bytes("end", stream, 0, 0)[: pieces_of.HEAD]
        until(lambda: log_bytes(log).count(end) == 2, f"the ends of stream {stream} are there", publisher, collector)
    place.stopped(publisher)
    place.stopped(collector)
    found = place.told()
    check({*found} == {(stream, cpu) for stream in (1, 2, 3) for cpu in (0, 1)}, f"{[*found]} are there")
    for key, told in found.items():
        check(told.end == told.expected > 200 and not told.runs("unknown"), f"{key} isn't there whole")


def recorder(place):
    """A recorder's file, whose process was killed."""
    server = Server(place.folder)
    program = place.folder / "killed"
    subprocess.run(["cc", "-O2", "-std=c11", f"-I{TOP / 'c/include'}", TOP / "examples/flight/killed.c", ARCHIVE,
        "-lpthread", "-o", program], check=True)
    subprocess.run([program], cwd=place.folder, check=False)
    words = ["--region", place.folder / "killed.flight", "--once", "--state", place.folder / "state"]
    place.run("publisher", "nats_publisher", *server.words, *words)
    place.collect(server)
    found = place.told()
    # (Four threads with 1,000 events each. One that begins late may have the rings of one that ended.)
    check(sum(told.expected for told in found.values()) == 4000, f"{len(found)} rings are there")
    check(all(told.records and not told.runs("unknown") for told in found.values()), "what the recorder had isn't sent")


class Kernel:
    """A folder like tracefs, whose files get pages of a capture one after the other, and what they say."""

    def __init__(self, folder, capture, size=4096):
        self.folder, self.size, self.cpus = folder, size, {}
        folder.mkdir()
        if size != 4096:
            (folder / "buffer_subbuf_size_kb").write_text(f"{size // 1024}\n")
        for cpu in (0, 1):
            file = TOP / "examples/captures" / capture / f"cpu{cpu}.raw"
            data = file.read_bytes() if file.exists() else gzip.decompress(Path(f"{file}.gz").read_bytes())
            self.cpus[cpu] = [data[at : at + size] for at in range(0, len(data), size)]
            self.file(cpu).parent.mkdir(parents=True)
            self.file(cpu).touch()

    def file(self, cpu):
        return self.folder / f"per_cpu/cpu{cpu}/trace_pipe_raw"

    def give(self, parts):
        """Gives these parts of the pages of each CPU."""
        for cpu, part in parts.items():
            with open(self.file(cpu), "ab") as file:
                file.write(b"".join(self.cpus[cpu][part]))

    def pages_before(self, cpu, number):
        """How many pages there are up to this number."""
        return next(count for count in range(len(self.cpus[cpu])) if self.told(cpu, slice(count))[3] == number)

    def told(self, cpu, part=slice(None)):
        """The records, missing and unknown numbers of a CPU, by the rule that kernel_source.h states, and its end."""
        records, missing, unknown, number = {}, set(), set(), 0
        for page in self.cpus[cpu][part]:
            try:
                missed, found = page_reading(page)
            except Fault:
                missed, found = "unknown", []
            if missed == "unknown":
                unknown.add(number)
                number += 1
            elif missed != "none":
                missing |= {*range(number, number + missed)}
                number += missed
            records |= {number + at: record for at, record in enumerate(found)}
            number += len(found)
        return records, missing, unknown, number


def kernel(place):
    """A kernel's pages, with stated and unstated losses, damage, stamps above 2^59, and pages of 8 KiB."""
    server, sources, publishers = Server(place.folder), {}, []
    for capture in ("overrun", "live", "exact", "stamps", "clock_tai", "subbuf8"):
        source = Kernel(place.folder / capture, capture, 8192 if capture == "subbuf8" else 4096)
        if capture == "overrun":
            page = bytearray(source.cpus[0][2])
            page[16:20] = struct.pack("<I", 0)  # the long form, with a length that is none
            page[20:24] = struct.pack("<I", 3)
            source.cpus[0][2] = bytes(page)
        source.give({cpu: slice(None) for cpu in source.cpus})
        stream = ["--host", len(capture), "--incarnation", sum(map(ord, capture))]
        sources[len(capture) << 32 | sum(map(ord, capture))] = source
        words = [*server.words, "--kernel", source.folder, *stream]
        publishers.append(place.counted(f"publisher_{capture}", "nats_publisher", *words)[0])
    for publisher in publishers:
        place.stopped(publisher)
    place.collect(server)
    found = place.told()
    check(found.keys() == {(stream, cpu) for stream in sources for cpu in (0, 1)}, f"{[*found]} are there")
    for (stream, cpu), told in found.items():
        records, missing, unknown, end = sources[stream].told(cpu)
        capture = sources[stream].folder.name
        check(told.end == end, f"{capture}: CPU {cpu} ends at {told.end}, and not at {end}")
        check(told.records == records, f"{capture}: the records of CPU {cpu} are others")
        check(numbers_of(told, "missing") == missing, f"{capture}: missing numbers of CPU {cpu} are others")
        check(numbers_of(told, "unknown") == unknown, f"{capture}: unknown numbers of CPU {cpu} are others")


def kernel_killed(place):
    """A publisher of a kernel's pages is killed while the bus hangs: the next one states how far it had read."""
    server, state = Server(place.folder), place.folder / "state"
    source = Kernel(place.folder / "tracefs", "splice")
    words = [*server.words, "--kernel", source.folder, "--state", state, "--host", 9]
    source.give({cpu: slice(15) for cpu in source.cpus})
    publisher, count = place.counted("publisher", "nats_publisher", *words, "--incarnation", 1)
    until(lambda: 0 < count("pieces_total") == count("pieces_acknowledged_total"), "the first pages are there",
        publisher)
    # (A publisher that gets no processor for seconds finds that the server is away, and then reads no page.)
    for at in range(15, 40):
        server.child.freeze()
        before = noted_in(state)
        source.give({cpu: slice(at, at + 1) for cpu in source.cpus})
        if holds_soon(lambda: noted_in(state) != before):
            break
        server.child.signal(signal.SIGCONT)
        until(lambda: noted_in(state) != before, "the publisher goes on", publisher)
    publisher.kill()
    server.child.kill()
    server.start()
    # (What was read of trace_pipe_raw isn't there any more; what wasn't, is.)
    noted = noted_in(state)
    read = {cpu: source.pages_before(cpu, noted[9 << 32 | 1, cpu]) for cpu in source.cpus}
    for cpu in source.cpus:
        source.file(cpu).write_bytes(b"")
    source.give({cpu: slice(read[cpu], None) for cpu in source.cpus})
    place.stopped(place.counted("next", "nats_publisher", *words, "--incarnation", 2)[0])
    place.collect(server)
    found, lost = place.told(), 0
    for cpu in source.cpus:
        told, wanted = found[9 << 32 | 1, cpu], source.told(cpu, slice(read[cpu]))
        missing, unknown = numbers_of(told, "missing"), numbers_of(told, "unknown")
        check(told.records and told.records.items() <= wanted[0].items(), "other records are sent")
        check(missing <= wanted[1] and wanted[2] <= unknown, "other numbers are missing")
        check(told.end == wanted[3], f"the end of a killed publisher is {told.end}, and not {wanted[3]}")
        check(told.records.keys() | missing | unknown == {*range(told.end)}, "a number isn't accounted for")
        lost += len(unknown - wanted[2])
        told = found[9 << 32 | 2, cpu]
        got = told.records, numbers_of(told, "missing"), numbers_of(told, "unknown"), told.end
        check(got == source.told(cpu, slice(read[cpu], None)), "the next one brought something else")
    check(lost > 0, "what the killed one had read and not sent isn't unknown")


COLLECTING = (marks, versions, quarantine_full, quarantine_full_kafka, damage, rotation, time_of_log)
PUBLISHING = (regions, regions_replaced, recorder, kernel, kernel_killed, live_kernel.live_kernel)
SCENES = {scene.__name__: scene for scene in (*COLLECTING, *PUBLISHING, *said_scenes.SAID)}
