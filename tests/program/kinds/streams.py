"""Streams of pieces, which `collect` reads: one to three files, or standard input. The plain program is tried itself on
hand-made streams. What is printed of true pieces may not depend on the order of files, nor on how often a piece is
there, and what `--keep` keeps is printed as what it was kept of.
"""

import subprocess

from made.cases import SECONDS, Case, check
from made.streams import Source
from oracles.fleet import Collected, all_pieces, crc32c, mark_bytes, name_of, sealed, told_of

FORMS = ([], [], ["--keep"], ["--keep"], ["--json"], ["--json"], ["--parcels"], ["--parcels", "--json"])
# How often each of these is printed at least, in every thousand streams.
OFTEN = {"records": 100, "missing": 100, "unknown": 100, "undelivered": 50, "forgotten": 50, "hidden": 20, "Clash": 8, "Cut": 8}
OFTEN |= {"BadSum": 20, "TakenAndMissing": 3, "BeyondEnd": 20, "OtherEnd": 2, "NotPacked": 2, "BadVersion": 2}
OFTEN |= {"BadLength": 3, "BadKind": 2, "BadMark": 10, "Loose": 2, "Parcel": 10}


class Collection(Case):
    """A call of `collect`."""

    command = "collect"

    def kinds(self):
        """What is printed, by the first words of its lines."""
        for line in self.wanted.lines:
            words = line.split(" ")
            if words[0] == "stream:":
                yield words[1].partition("(")[0]
            elif self.form in ([], ["--keep"]):
                yield "records" if ":" in words[0] else words[0]


# ---- laws


def others(source, inputs):
    """The same pieces in another order, and some of them once more."""
    pieces = [piece.data for *_, piece in all_pieces(inputs)]
    source.random.shuffle(pieces)
    yield "the order of files", inputs[::-1]
    yield "the order of pieces", [b"".join(pieces)]
    yield "repeated files", [*inputs, source.random.choice(inputs)]
    yield "repeated pieces", [b"".join(pieces[: len(pieces) // 2]), *inputs]


def check_laws(source, inputs, is_true):
    """What the plain program says of the same pieces otherwise, and of what it keeps."""
    wanted = Collected(inputs)
    if is_true:
        check(wanted.faulty is None, f"true pieces: {wanted.text}", inputs)
        shares = Collected([Collected([data]).kept for data in inputs])
        check(shares.text == wanted.text, "what is kept of each file prints otherwise", inputs)
    elif any(Collected([data], parcels=True).status for data in inputs):
        return
    for what, given in others(source, inputs):
        found = Collected(given)
        if (found.faulty is None) == (wanted.faulty is None):
            is_same = (found.status, found.text) == (wanted.status, wanted.text)
            check(is_same or found.faulty is not None, f"{what} changes what is printed", inputs)
        else:
            faulty = wanted if found.faulty is None else found
            check(is_below_bound(inputs, faulty.text), f"{what} decides on a fault", inputs)
    if wanted.faulty is None:
        again = Collected([wanted.kept])
        check(again.text == wanted.text and again.kept == wanted.kept, "what is kept prints otherwise", inputs)


def is_below_bound(inputs, line):
    """Whether the line names a number at odds below a bound of its CPU: there the order of pieces has it whether what
    contradicts is still kept."""
    _, cause, name, number, *_ = line.split(" ")
    told = told_of(piece for *_, piece in all_pieces(inputs))
    bounds = {name_of(*place): found.bound for place, found in told.items()}
    return cause in ("Clash", "TakenAndMissing") and int(number) < bounds[name]


# ---- hand-made streams


def record_word(number):
    """The record of a number: its moment is 100 above it, its payload its lowest byte, four times."""
    return 100 + number, bytes([number % 256]) * 4


def parcel(stream, cpu, first, past, missed=0, moment=None):
    """A parcel whose records have the moment that is asked for, or their own."""
    records = [record_word(number) for number in range(first, past)]
    start = records[0][0] if moment is None and records else moment or 0
    data, time = b"", start
    for own, payload in records:
        own = moment if moment is not None else own
        data, time = data + (1 | own - time << 5).to_bytes(4, "little") + payload, own
    numbers = [cpu, 1, first, missed, start, len(data) | bool(missed) << 31]
    return sealed(0, stream, b"".join(number.to_bytes(8, "little") for number in numbers) + data)


END = mark_bytes("end", 7, 0, 3)
A, B, C = "0000000000000007:0", "0000000000000003:1", "1122334455667788:0"
# `STREAM` of crates/library_tests/src/streams.rt: a parcel with one record, one missing before it, and an end.
STREAM = bytes.fromhex(
    "545250415243454c010000000000000060000000000000008877665544332211"
    "0000000000000000050000000000000007000000000000000100000000000000"
    "640000000000000008000080000000000100000001020304c8c2115a00000000"
    "545250415243454c010000000100000038000000000000008877665544332211"
    "00000000000000000800000000000000a51eacc500000000"
)
# Inputs, and the lines that are printed of them.
HAND = [
    ([STREAM], [f"{C} 7 100 01020304", f"missing {C} 6-6", f"unknown {C} 0-5"]),
    ([END], [f"unknown {A} 0-2"]),
    ([mark_bytes("end", 7, 0, 0)], []),
    ([parcel(7, 0, 1, 2) + parcel(3, 1, 1, 2, missed=1)],
     [f"{B} 1 101 01010101", f"{A} 1 101 01010101", f"missing {B} 0-0", f"unknown {A} 0-0"]),
    ([parcel(7, 0, 4, 5), parcel(7, 0, 0, 1) + mark_bytes("undelivered", 7, 0, 1, 3)],
     [f"{A} 0 100 00000000", f"{A} 4 104 04040404", f"unknown {A} 3-3", f"undelivered {A} 1-2"]),
    # What was given up and came, below the bound and above it; and what is beyond all that is known.
    ([parcel(7, 0, 0, 4) + mark_bytes("undelivered", 7, 0, 1, 3) + mark_bytes("forgotten", 7, 0, 2)
      + mark_bytes("undelivered", 7, 0, 6, 9)],
     [f"{A} 2 102 02020202", f"{A} 3 103 03030303", f"undelivered {A} 1-1", f"undelivered {A} 6-8",
      f"forgotten {A} 0-1", f"hidden {A} 0-1"]),
    # What a parcel below a bound says isn't looked at, but its numbers are hidden; one at the bound is looked at.
    ([mark_bytes("end", 7, 0, 3) + mark_bytes("forgotten", 7, 0, 3) + parcel(7, 0, 0, 3, moment=5)],
     [f"forgotten {A} 0-2", f"hidden {A} 0-2"]),
    # The mark may come after the parcels; two that touch are one run. What the bound leaves, and what isn't had, isn't
    # hidden.
    ([parcel(7, 0, 4, 6) + parcel(7, 0, 2, 4, missed=1) + parcel(3, 1, 0, 2) + mark_bytes("forgotten", 7, 0, 5)],
     [f"{B} 0 100 00000000", f"{B} 1 101 01010101", f"{A} 5 105 05050505", f"forgotten {A} 0-4", f"hidden {A} 2-4"]),
    ([mark_bytes("forgotten", 7, 0, 1 << 63), parcel(7, 0, 0, 2) + parcel(7, 0, 5, 5, missed=2)
      + parcel(7, 0, 7, 8)],
     [f"forgotten {A} 0-{(1 << 63) - 1}", f"hidden {A} 0-1", f"hidden {A} 7-7"]),
    ([mark_bytes("forgotten", 7, 0, 3), parcel(7, 0, 0, 4) + parcel(7, 0, 0, 4, moment=5)],
     [f"stream: Clash {A} 0 at 120 piece 1"]),
    ([parcel(7, 0, 1, 5), parcel(7, 0, 3, 4, missed=1)], [f"stream: TakenAndMissing {A} 2 at 0 piece 0"]),
    ([parcel(7, 0, 3, 4, missed=2) + parcel(7, 0, 0, 3)], [f"stream: TakenAndMissing {A} 1 at 96 piece 1"]),
    ([END + parcel(7, 0, 1, 5)], [f"stream: BeyondEnd {A} 3 at 56 piece 1"]),
    ([END + parcel(7, 0, 5, 5, missed=1)], [f"stream: BeyondEnd {A} 4 at 56 piece 1"]),
    ([parcel(7, 0, 1, 5) + END], [f"stream: BeyondEnd {A} 4 at 120 piece 1"]),
    ([mark_bytes("undelivered", 7, 0, 0, 9) + END], [f"stream: BeyondEnd {A} 8 at 64 piece 1"]),
    ([mark_bytes("forgotten", 7, 0, 9) + END], [f"stream: BeyondEnd {A} 8 at 56 piece 1"]),
    ([END + mark_bytes("forgotten", 7, 0, 4)], [f"stream: BeyondEnd {A} 3 at 56 piece 1"]),
    ([END + mark_bytes("undelivered", 7, 0, 1, 4)], [f"stream: BeyondEnd {A} 3 at 56 piece 1"]),
    ([END + mark_bytes("undelivered", 7, 0, 5, 9)], [f"stream: BeyondEnd {A} 5 at 56 piece 1"]),
    ([END, END + mark_bytes("end", 7, 0, 4)], [f"stream: OtherEnd {A} 3 at 56 piece 1"]),
    ([END + b"T"], ["stream: Cut at 56 piece 1"]),
    ([END + b"X"], ["stream: NotPacked at 56 piece 1"]),
    ([END[:8] + b"\2" + END[9:]], ["stream: BadVersion at 0 piece 0"]),
    ([END[:16] + b"\1" + END[17:]], ["stream: BadLength at 0 piece 0"]),
    ([END[:-1] + b"\1"], ["stream: BadSum at 0 piece 0"]),
    ([sealed(4, 7, bytes(16))], ["stream: BadKind at 0 piece 0"]),
    ([sealed(1, 7, bytes(24))], ["stream: BadMark at 0 piece 0"]),
    ([mark_bytes("end", 7, 256, 1)], ["stream: BadMark at 0 piece 0"]),
    ([mark_bytes("forgotten", 7, 0, 0)], ["stream: BadMark at 0 piece 0"]),
    ([mark_bytes("undelivered", 7, 0, 3, 3)], ["stream: BadMark at 0 piece 0"]),
    ([sealed(0, 7, parcel(7, 0, 0, 1)[32:-8] + b"\0")], ["stream: Loose at 0 piece 0"]),
]


def try_hand_made():
    """The plain program on streams whose text is known; and the checksum on a text whose checksum is."""
    check(crc32c(b"123456789") == 0xE306_9283, "the checksum", [])
    for inputs, lines in HAND:
        found = Collected(inputs).lines
        check(found == lines, f"of a hand-made stream {found}, and not {lines}", inputs)


# ---- the program


def try_refused(program, folder):
    """What can't be asked for is refused before anything is printed or kept."""
    stream, capture, keep = folder / "stream", folder / "capture", folder / "kept"
    stream.write_bytes(STREAM)
    capture.write_bytes(bytes(4096))
    keep.write_bytes(b"kept before")
    calls = [[stream, capture], [capture, stream], ["--names", stream], ["--formats", folder, stream]]
    calls += [["--page", "4096", stream], ["--keep", keep, "--parcels", stream], ["--keep", keep, capture]]
    calls += [["--parcels", capture]]
    for words in calls:
        ran = subprocess.run([program, "collect", *words], capture_output=True, timeout=SECONDS, check=False)
        said = " ".join(map(str, words))
        check((ran.returncode, ran.stdout) == (2, b"") and ran.stderr, f"{said}: status {ran.returncode}, {ran}", [])
        check(keep.read_bytes() == b"kept before", f"{said}: a file is written over", [])


# What is tried of the program beside the cases.
ALSO = (try_refused,)


# ---- the cases


def cases(seed, folder):
    """One case after the other, of whose pieces the laws hold."""
    try_hand_made()
    source, at = Source(seed), 0
    while True:
        inputs, is_true = source.inputs()
        check_laws(source, inputs, is_true)
        stdin = source.random.choice([None, None, source.random.randrange(len(inputs))])
        form = source.random.choice(FORMS)
        wanted = Collected(inputs, "--json" in form, "--parcels" in form)
        yield Collection(inputs, form, stdin, folder / str(at), wanted)
        at += 1
