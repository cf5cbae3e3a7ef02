"""A plain `collect` of streams of pieces, to compare with the program's: it works out from their bytes what
docs/formats says is printed of them, in "Streams of parcels" and "Fleets".

    PYTHONPATH=tests python3 -m oracles.fleet [--json] [--parcels | --keep FILE] FILE..     - is standard input

What a fleet has, misses and lacks is worked out from the set of its pieces alone, whatever their order and however
often each is there. The order decides which piece is kept, and which one contradicts those before it.
"""

import json
import struct
import sys
from pathlib import Path

from oracles.collector import MAX_CPUS, Collector, parcel_of
from oracles.image import Fault

MAGIC, VERSION = b"TRPARCEL", 1
# How many bytes of a piece are before its body and behind it, and how many a piece has at least and at most.
HEAD, SUM, LEAST, MOST = 32, 8, 56, 65_608
KINDS = ("parcel", "end", "forgotten", "undelivered")
# The lines below the records, kind by kind.
BELOW = ("missing", "unknown", "undelivered", "forgotten", "hidden")


# ---- the checksum


def by_bits(byte):
    """What CRC-32C makes of one byte: eight times the lowest bit goes out, and the polynomial comes in for it."""
    for _ in range(8):
        byte = byte >> 1 ^ (0x82F6_3B78 if byte & 1 else 0)
    return byte


TABLE = [by_bits(byte) for byte in range(256)]


def crc32c(data, before=0):
    """The checksum of these bytes after others that have that one."""
    remainder = before ^ 0xFFFF_FFFF
    for byte in data:
        remainder = remainder >> 8 ^ TABLE[(remainder ^ byte) & 255]
    return remainder ^ 0xFFFF_FFFF


# ---- pieces


class Piece:
    """A piece of a stream: a parcel, or a mark with its numbers. `data` are its bytes."""

    def __init__(self, stream, kind, body, data):
        self.stream, self.kind, self.data = stream, KINDS[kind], data
        self.parcel, self.numbers = None, ()
        if self.kind == "parcel":
            self.parcel = fitted_parcel(body)
            self.cpu = self.parcel.cpu
        else:
            self.cpu, *self.numbers = mark_numbers(self.kind, body)

    @property
    def place(self):
        return self.stream, self.cpu


def fitted_parcel(body):
    """The parcel of these bytes, which have to be those that are written for a page as long as its data."""
    try:
        parcel = parcel_of(body)
    except Fault as fault:
        raise Fault(f"Parcel({fault})") from fault
    parcel.size = len(parcel.data)
    if parcel.written() != body:
        raise Fault("Loose")
    # Where its numbers begin and end, those that are missing with them.
    parcel.low, parcel.past = parcel.first - parcel.missed, parcel.first + len(parcel.records)
    return parcel


def mark_numbers(kind, body):
    """The CPU of a mark, and its numbers."""
    if len(body) != (24 if kind == "undelivered" else 16):
        raise Fault("BadMark")
    cpu, *numbers = struct.unpack(f"<{len(body) // 8}Q", body)
    is_empty = kind == "forgotten" and numbers[0] == 0 or kind == "undelivered" and numbers[0] >= numbers[1]
    if cpu >= MAX_CPUS or is_empty:
        raise Fault("BadMark")
    return cpu, *numbers


def read_piece(data):
    """The piece at the front of these bytes, or the first fault that it has."""
    if data[:8] != MAGIC[: len(data)]:
        raise Fault("NotPacked")
    if len(data) < HEAD:
        raise Fault("Cut")
    version, kind, length, stream = struct.unpack_from("<2I2Q", data, 8)
    if version != VERSION:
        raise Fault("BadVersion")
    if not LEAST <= length <= MOST:
        raise Fault("BadLength")
    if len(data) < length:
        raise Fault("Cut")
    data = data[:length]
    if data[-SUM:] != struct.pack("<Q", crc32c(data[:-SUM])):
        raise Fault("BadSum")
    if kind >= len(KINDS):
        raise Fault("BadKind")
    return Piece(stream, kind, data[HEAD:-SUM], data)


def sealed(kind, stream, body):
    """The bytes of a piece."""
    data = MAGIC + struct.pack("<2I2Q", VERSION, kind, HEAD + len(body) + SUM, stream) + body
    return data + struct.pack("<Q", crc32c(data))


def mark_bytes(kind, stream, cpu, *numbers):
    return sealed(KINDS.index(kind), stream, struct.pack(f"<{1 + len(numbers)}Q", cpu, *numbers))


def is_stream(data):
    return data.startswith(MAGIC)


# ---- runs of numbers: of each the first one and the one after the last


def runs_where(holds, borders):
    """The runs of the numbers of which this holds; two numbers differ in it only if a border is between them."""
    runs, borders = [], sorted({*borders})
    for first, end in zip(borders, borders[1:]):
        if not holds(first):
            continue
        if runs and runs[-1][1] == first:
            first = runs.pop()[0]
        runs.append((first, end))
    return runs


def is_in(runs, number):
    return any(first <= number < end for first, end in runs)


def borders_of(runs):
    return [number for run in runs for number in run]


# ---- which piece is new, and which is refused


class Refused(Exception):
    """Why a piece isn't added, and a number."""


class Kept:
    """What is kept of one CPU of a stream while pieces come: the parcels that brought something, the greatest bound,
    the end, and what was given up."""

    def __init__(self):
        self.parcels, self.bound, self.end, self.given_up = Collector(), 0, None, []

    def add(self, piece):
        """Adds what a piece says. The answer is whether its bytes are kept."""
        if piece.parcel:
            return self.add_parcel(piece.parcel)
        return getattr(self, f"add_{piece.kind}")(*piece.numbers)

    def add_parcel(self, parcel):
        if self.bound and parcel.past <= self.bound:
            return True
        if self.end is not None and max(self.end, parcel.low) < parcel.past:
            raise Refused("BeyondEnd", max(self.end, parcel.low))
        odds = min(self.parcels.odds(parcel), default=None)
        if odds:
            (_, number), cause = odds
            raise Refused(cause, number)
        return self.parcels.add(parcel) == "new"

    def add_end(self, count):
        if self.end is not None:
            if self.end != count:
                raise Refused("OtherEnd", self.end)
            return False
        reach = max([self.bound, *(parcel.past for parcel in self.parcels.kept), *(end for _, end in self.given_up)])
        if reach > count:
            raise Refused("BeyondEnd", reach - 1)
        self.end = count
        return True

    def add_forgotten(self, bound):
        if bound <= self.bound:
            return False
        if self.end is not None and self.end < bound:
            raise Refused("BeyondEnd", self.end)
        self.bound, parcels = bound, self.parcels.kept
        self.parcels = Collector()
        for parcel in parcels:
            if parcel.past > bound:
                self.parcels.add(parcel)
        return True

    def add_undelivered(self, first, end):
        if self.end is not None and self.end < end:
            raise Refused("BeyondEnd", max(self.end, first))
        borders = [first, end, *(number for number in borders_of(self.given_up) if first < number < end)]
        is_new = bool(runs_where(lambda number: not is_in(self.given_up, number), borders))
        self.given_up.append((first, end))
        return is_new


# ---- what a fleet has, misses and lacks, of its pieces alone


class Told:
    """What pieces say together of one CPU of a stream: none contradicts another from the CPU's bound on."""

    def __init__(self, pieces):
        parcels = [piece.parcel for piece in pieces if piece.parcel]
        numbers = lambda kind: [piece.numbers for piece in pieces if piece.kind == kind]
        self.bound = max((bound for (bound,) in numbers("forgotten")), default=0)
        self.end = next((count for (count,) in numbers("end")), None)
        self.given_up = numbers("undelivered")
        self.had = [(parcel.first, parcel.past) for parcel in parcels]
        self.missed = [(parcel.low, parcel.first) for parcel in parcels]
        self.records = {
            number: record
            for parcel in parcels
            for (_, number), record in parcel.records.items()
            if number >= self.bound
        }

    @property
    def expected(self):
        """The number after the greatest one that is known, or the end if that is higher."""
        return max([self.end or 0, *(end for first, end in self.had + self.missed if first < end)], default=0)

    def is_known(self, number):
        return is_in(self.had, number) or is_in(self.missed, number)

    def is_missing(self, number):
        return number >= self.bound and is_in(self.missed, number)

    def is_unknown(self, number):
        """It isn't known, nor given up, and it may still come."""
        is_open = not self.is_known(number) and not is_in(self.given_up, number)
        return self.bound <= number < self.expected and is_open

    def is_undelivered(self, number):
        """It was given up, and below the bound nobody knows whether it came."""
        return is_in(self.given_up, number) and (number < self.bound or not self.is_known(number))

    def is_forgotten(self, number):
        return number < self.bound

    def is_hidden(self, number):
        """A parcel has its record, which the bound alone keeps out of the listing."""
        return number < self.bound and is_in(self.had, number)

    def runs(self, kind):
        borders = [0, self.bound, self.expected, *borders_of(self.had + self.missed + self.given_up)]
        return runs_where(getattr(self, f"is_{kind}"), borders)


def told_of(pieces):
    """What pieces say of each CPU of each stream, by rising id and CPU."""
    places = {}
    for piece in pieces:
        places.setdefault(piece.place, []).append(piece)
    return {place: Told(places[place]) for place in sorted(places)}


# ---- texts


def name_of(stream, cpu):
    return f"{stream:016x}:{cpu}"


def json_line(**members):
    return json.dumps(members, separators=(",", ":"))


def record_line(is_json, moment, stream, cpu, number, payload):
    if is_json:
        return json_line(stream=f"{stream:016x}", cpu=cpu, number=number, time=moment, data=payload.hex())
    return f"{name_of(stream, cpu)} {number} {moment} {payload.hex() or '-'}"


def run_line(is_json, kind, stream, cpu, first, last):
    if is_json:
        return json_line(stream=f"{stream:016x}", cpu=cpu, **{kind: [first, last]})
    return f"{kind} {name_of(stream, cpu)} {first}-{last}"


def hides(told):
    """Whether a mark hides a record."""
    return any(found.runs("hidden") for found in told.values())


def listing(told, is_json):
    """The lines of pieces that don't contradict each other, of which this is told."""
    records = sorted(
        (moment, *place, number, payload)
        for place, found in told.items()
        for number, (moment, payload) in found.records.items()
    )
    lines = [record_line(is_json, *record) for record in records]
    for kind in BELOW:
        for place, found in told.items():
            lines += [run_line(is_json, kind, *place, first, end - 1) for first, end in found.runs(kind)]
    return lines


def piece_line(is_json, at, offset, piece):
    """The line that `--parcels` prints of a piece of an input."""
    if is_json:
        numbers = parcel_numbers(piece.parcel) if piece.parcel else {piece.kind: mark_json(piece)}
        head = {"input": at, "offset": offset, "length": len(piece.data), "stream": f"{piece.stream:016x}"}
        return json_line(**head, cpu=piece.cpu, **numbers)
    words = [at, offset, len(piece.data), piece.kind, name_of(*piece.place)]
    if piece.parcel:
        words += [word for member in parcel_numbers(piece.parcel).items() for word in member]
    elif piece.kind == "undelivered":
        words.append(f"{piece.numbers[0]}-{piece.numbers[1] - 1}")
    else:
        words += piece.numbers
    return " ".join(map(str, words))


def parcel_numbers(parcel):
    count = len(parcel.records)
    return {"fill": parcel.fill, "first": parcel.first, "count": count, "missed": parcel.missed}


def mark_json(piece):
    return [piece.numbers[0], piece.numbers[1] - 1] if piece.kind == "undelivered" else piece.numbers[0]


# ---- inputs


class Stopped(Exception):
    """The line of the fault that ends the reading of inputs, and which of them has it."""


def all_pieces(inputs):
    """All pieces: of each the input, how many are before it there, and how many bytes."""
    for at, data in enumerate(inputs):
        index = offset = 0
        while offset < len(data):
            try:
                piece = read_piece(data[offset : offset + MOST])
            except Fault as fault:
                raise Stopped(f"stream: {fault} at {offset} piece {index}", at) from fault
            yield at, index, offset, piece
            index, offset = index + 1, offset + len(piece.data)


def kept_pieces(inputs, taken):
    """Puts all pieces into `taken`, and gives the bytes of each one that is new when it comes, or ends below the bound of
    its CPU."""
    places = {}
    for at, index, offset, piece in all_pieces(inputs):
        try:
            is_kept = places.setdefault(piece.place, Kept()).add(piece)
        except Refused as refused:
            cause, number = refused.args
            name = name_of(*piece.place)
            raise Stopped(f"stream: {cause} {name} {number} at {offset} piece {index}", at) from refused
        taken.append(piece)
        if is_kept:
            yield piece.data


class Collected:
    """What `collect` does with inputs: its exit status, the lines that it prints, the bytes that it keeps, and which
    input has the fault, if there is one."""

    def __init__(self, inputs, is_json=False, parcels=False):
        self.status, self.lines, self.kept, self.faulty, taken = 0, [], b"", None, []
        try:
            if parcels:
                for at, _, offset, piece in all_pieces(inputs):
                    self.lines.append(piece_line(is_json, at, offset, piece))
            else:
                for data in kept_pieces(inputs, taken):
                    self.kept += data
                told = told_of(taken)
                self.status, self.lines = int(hides(told)), listing(told, is_json)
        except Stopped as stopped:
            line, self.faulty = stopped.args
            self.status, self.lines = 1, [*self.lines, line]

    @property
    def text(self):
        return "".join(f"{line}\n" for line in self.lines)


def main(words):
    is_json, parcels = "--json" in words, "--parcels" in words
    words, keep = [word for word in words if word not in ("--json", "--parcels")], None
    if words[:1] == ["--keep"]:
        keep, words = Path(words[1]), words[2:]
    inputs = [sys.stdin.buffer.read() if word == "-" else Path(word).read_bytes() for word in words]
    found = Collected(inputs, is_json, parcels)
    if keep:
        keep.write_bytes(found.kept)
    sys.stdout.write(found.text)
    sys.exit(found.status)


if __name__ == "__main__":
    main(sys.argv[1:])
