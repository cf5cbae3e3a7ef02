"""Reads what `tracering replay`, `run` and `collect` print, for the programs here that write it in other forms.

`Reader` reads the lines, in the order in which they have to be, and gives each to the trace that it is of. What
`collect --follow` printed is given as `collect` prints it: a record that comes late is put at its place by time, and
what was lost comes below all records. A trace is made by `make(kind, name)`: ("captures", None), ("collector", K) or
("stream", ID). It has `first`, the moment of its first record or None, and these methods; CPUs and numbers are within
their bounds.

    put_record(cpu, number, moment, event, payload)   event is an `Event`, or None; payload is bytes
    put_missing(cpu, first, last, line)
    put_unknown(cpu, number), put_damaged(cpu, number, page, byte, fault)    of captures
    put_counters(cpu, counters)                       of captures: the names of counters, and what they say
    put_run(kind, cpu, first, last)                   of a stream: undelivered, unknown, forgotten or hidden
    put_cut(fault)                                    of captures: a file ends before its pages do
    put_audit(text)                                   of a collector
    close()
"""

import json
import re
from enum import IntEnum

import late

CPUS, NUMBERS, PROCESSES = 256, 1 << 64, 1 << 31
# The name of an event; a text with its escapes; the value of a field, with the names behind it. Of an alternative that
# is taken again and again the letters are in one repeat, which `re` does fast.
NAME = rb"[!#-\[\]-~]+"
LETTERS = rb'[^"\\\x00-\x1f\x7f]*'
TEXT = LETTERS + rb'(?:\\(?:["\\ntr]|u00(?:0[1-9a-f]|1[0-9a-f]|7f)|ufffd)' + LETTERS + rb")*"
VALUE = rb'[^ "\n]*(?:"' + TEXT + rb'"[^ "\n]*)*'
FIELD = rb"[A-Za-z_]\w*=" + VALUE
PAYLOAD = rb"[0-9a-f]+|-"
RECORD = re.compile(
    rb"^(\d{1,3}) (\d{1,20}) (\d{1,20})"
    rb'(?: (-|-?\d{1,10})(?: "(' + TEXT + rb')")? (' + NAME + rb")"
    rb'(?: "(' + TEXT + rb')"| (' + FIELD + rb"(?: " + FIELD + rb")*))?)?"
    rb"(?: (" + PAYLOAD + rb"))?\n",
    re.MULTILINE,
)
FIELDS = re.compile(rb"([A-Za-z_]\w*)=(" + VALUE + rb")")
# A line with the three numbers of a record; most of what is behind these comes again and again.
NUMBERED = re.compile(rb"^(\d{1,3}) (\d{1,20}) (\d{1,20})((?: .*)?)\n", re.MULTILINE)
# A line that begins with no digit, and any line.
OTHER = re.compile(rb"^[^\d\n].*\n", re.MULTILINE)
LINE = re.compile(rb".*\n")
BYTES = re.compile(PAYLOAD)
# How that begins if the process has a name: behind this is the name of the event.
TASK_AND_EVENT = re.compile(rb' -?\d{1,10} "' + TEXT + rb'" (' + NAME + rb") ")
# The values that most fields have, and all others.
VALUES = {"q": rb"-?(?:0|[1-9]\d{0,17})", "x": rb"0x[0-9a-f]{1,16}", None: VALUE}
WHOLE = {kind: re.compile(pattern) for kind, pattern in VALUES.items() if kind}
# The lines of `collect --json`. What is in the brackets is read by `json`.
OBJECT = rb'\{(?:[^"{}]|"(?:[^"\\\n]|\\[^\n])*"|\{(?:[^"{}]|"(?:[^"\\\n]|\\[^\n])*")*\})*\}'
RECORD_JSON = re.compile(
    rb'\{"cpu":(\d{1,3}),"number":(\d{1,20}),"time":(\d{1,20})'
    rb'(?:,"pid":(-?\d{1,10})(?:,"task":"(' + TEXT + rb')")?,"event":("' + NAME + rb'"|\d+)'
    rb'(?:,"text":"(' + TEXT + rb')")?((?:,"(?:fields|names)":' + OBJECT + rb'|,"uncut":\[[^\]\n]*\])*))?'
    rb'(?:,"data":"((?:[0-9a-f][0-9a-f])*)")?\}\n'
)
MISSING_JSON = re.compile(rb'\{"cpu":(\d{1,3}),"missing":\[(\d{1,20}),(\d{1,20})\]\}\n')
UNKNOWN_JSON = re.compile(rb'\{"cpu":(\d{1,3}),"unknown":(\d{1,20})\}\n')
DAMAGED_JSON = re.compile(
    rb'\{"cpu":(\d{1,3}),"damaged":(\d{1,20}),"page":(\d{1,20}),"byte":(\d{1,20}),"fault":"(\w+(?: at \d+)?)"\}\n'
)
COUNTERS = ("missing", "unknown", "overrun", "commit_overrun", "dropped")
LOSSES = re.compile(rb"losses (\d{1,3})" + rb" (\d{1,20})" * len(COUNTERS) + rb"\n")
LOSSES_JSON = re.compile(
    rb'\{"losses":\{"cpu":(\d{1,3})' + b"".join(b',"%s":(\\d{1,20})' % name.encode() for name in COUNTERS) + rb"\}\}\n"
)
LATE, LATE_JSON = re.compile(late.LATE), re.compile(late.LATE_JSON)
COLLECTOR = re.compile(rb"collector (\d{1,2})\n")
MISSING = re.compile(rb"missing (\d{1,3}) (\d{1,20})-(\d{1,20})\n")
UNKNOWN = re.compile(rb"unknown (\d{1,3}) (\d{1,20})\n")
# Those of a fleet's listing: a stream's id is before the CPU.
STREAM_RECORD = re.compile(rb"([0-9a-f]{16}):(\d{1,3}) (\d{1,20}) (\d{1,20}) (" + PAYLOAD + rb")\n")
STREAM_RECORD_JSON = re.compile(
    rb'\{"stream":"([0-9a-f]{16})","cpu":(\d{1,3}),"number":(\d{1,20}),"time":(\d{1,20})'
    rb',"data":"((?:[0-9a-f][0-9a-f])*)"\}\n'
)
RUN_KIND = rb"(missing|unknown|undelivered|forgotten|hidden)"
STREAM_RUN = re.compile(RUN_KIND + rb" ([0-9a-f]{16}):(\d{1,3}) (\d{1,20})-(\d{1,20})\n")
STREAM_RUN_JSON = re.compile(
    rb'\{"stream":"([0-9a-f]{16})","cpu":(\d{1,3}),"' + RUN_KIND + rb'":\[(\d{1,20}),(\d{1,20})\]\}\n'
)
DAMAGED = re.compile(rb"damaged (\d{1,3}) (\d{1,20}) page (\d{1,20}) byte (\d{1,20}): (\w+(?: at \d+)?)\n")
# The last line of a listing, if a file of trace-cmd was cut short.
CUT = re.compile(rb"trace\.dat: (OutsideFile at \d{1,20})\n")
AUDIT = re.compile(rb"audit (yes|stray \d+ \d+|lacks \d+ \d+)\n")
LOG = re.compile(
    rb"\d+ (?:c\d+ (?:refused \w+|taken fill \d+ first \d+ count \d+ missed \d+|empty|moving \d+|asks \d+)"
    rb"|d \d+ c\d+ \d+ (?:new|known|not-taken))\n"
)
ESCAPE = re.compile(r"\\(?:u([0-9a-f]{4})|(.))")
ESCAPES = {"n": "\n", "t": "\t", "r": "\r"}
# Bytes that are read at once.
PIECE = 1 << 20


class Bad(Exception):
    """Why a line can't be written; or the number of another line, and why."""


class Event:
    """What a record says of itself: its process, with a name or None; the event; the text of a marker, or None; fields,
    as pairs of a name and what is behind the equals sign, or None, and the `Shape` of these, or None. `written` is what
    a trace keeps of it, or None: records that say the same share one event."""

    __slots__ = ("process", "task", "name", "text", "fields", "shape", "written")

    def __init__(self, process, task, name, text, fields):
        self.process, self.task, self.name, self.text, self.fields = process, task, name, text, fields
        self.shape, self.written = None, None

    @property
    def values(self):
        """What is behind the equals signs."""
        return [value for _, value in self.fields]


class ShapedEvent:
    """The same of a record whose fields are of a known shape. Of these there are many, and most who ask for values know
    the names by the shape, so both are paired only if that is asked for."""

    __slots__ = ("process", "task", "shape", "values", "written")
    text = None

    def __init__(self, process, task, shape, values):
        self.process, self.task, self.shape, self.values, self.written = process, task, shape, values, None

    @property
    def name(self):
        return self.shape.event

    @property
    def fields(self):
        return tuple(zip(self.shape.names, self.values))


class Record:
    """A record: its place by time, and what a trace is given of it."""

    __slots__ = ("place", "words")

    def __init__(self, cpu, number, moment, event, payload):
        self.place, self.words = (moment, cpu, number), (cpu, number, moment, event, payload)


class Shape:
    """What some records of one event have in common: the event's name, whether their task has one, the names of their
    fields, and the kinds of these, "q" of whole numbers of up to 18 digits, "x" of addresses, None of other values. One
    pattern reads all that is behind the three numbers of such a line."""

    def __init__(self, event):
        self.event, self.has_task = event.name, event.task is not None
        self.names = tuple(name for name, _ in event.fields)
        self.kinds = tuple(next((kind for kind, form in WHOLE.items() if form.fullmatch(value)), None)
                           for _, value in event.fields)
        forms = (b"%b=(%b)" % (name, VALUES[kind]) for name, kind in zip(self.names, self.kinds))
        task = rb' "(' + TEXT + rb')"' if self.has_task else b""
        self.pattern = re.compile(rb" (-?\d{1,10})%b %b %b" % (task, re.escape(event.name.encode()), b" ".join(forms)))

    def read(self, said):
        """The event of a line that says this behind its numbers; None if it isn't of this shape."""
        found = self.pattern.fullmatch(said)
        if not found:
            return None
        process, *values = found.groups()
        task = unescaped(values.pop(0)) if self.has_task else None
        process = int(process)
        return ShapedEvent(process, task, self, values) if -PROCESSES <= process < PROCESSES else None


class Rank(IntEnum):
    """Which lines come before which, below a line `collector` or in the listing of captures or of a fleet."""

    RECORD = 0
    MISSING = 1
    UNKNOWN = 2
    UNDELIVERED = 3
    FORGOTTEN = 4
    HIDDEN = 5
    DAMAGED = 6
    LOSSES = 7
    CUT = 8
    AUDIT = 9


class Reader:
    """Reads the lines of a text, in the order in which they have to be."""

    def __init__(self, make):
        self.make, self.trace, self.line = make, None, 0
        # The late records that aren't at their place yet, the last one by time first; and of which CPU and number the
        # next line has to be, and what line says so, if one does.
        self.late, self.awaited = [], None
        # What captures have lost, by the kind of its line; and of each kind and CPU the last key.
        self.losses, self.last_losses = [], {}
        # The traces of a fleet, by the ids of their streams.
        self.streams = {}
        # The collector whose lines are read, if these are a collector's.
        self.collector, self.rank, self.last = None, Rank.RECORD, None
        # What records say, by what is behind their moments; of those with a payload, by what is before that.
        self.whole, self.heads = {}, {}
        # What was said once. The event of what is said once only isn't kept.
        self.once = set()
        # The shapes of the fields of each event, by its name: of records without a task's name, and with one.
        self.shapes, self.task_shapes = {}, {}

    def read(self, file):
        file, rest = late.readable_twice(file), b""
        self.find_late(file)
        while data := file.read(PIECE):
            data = rest + data
            end = data.rfind(b"\n") + 1
            rest = data[end:]
            self.read_lines(data[:end])
        if rest:
            self.read_line(rest)
        self.end_awaited(None)
        self.end_trace()
        self.end_streams()
        if self.trace is None and not self.streams:
            raise Bad("the text has no record, nor the line of a collector")

    def find_late(self, file):
        """Finds the records that come late. What isn't one is refused when its line is read."""
        for line, place, below in late.announced(file):
            try:
                record = self.record_of(below)
            except Bad:
                continue
            if record and record.place[1:] == place:
                self.late.append((record.place, line, record))
        self.late.sort(key=lambda found: found[0], reverse=True)

    def read_lines(self, data):
        """Reads whole lines: those of records that are one below the other at once."""
        records, at = NUMBERED.findall(data), 0
        if len(records) == data.count(b"\n") and not self.awaited:
            self.put_records(records)
            return
        for other in OTHER.finditer(data):
            self.read_numbered(data[at : other.start()])
            self.read_line(other[0])
            at = other.end()
        self.read_numbered(data[at:])

    def read_numbered(self, data):
        """Reads whole lines that begin as those of records."""
        if self.awaited and data:
            end = data.index(b"\n") + 1
            self.read_line(data[:end])
            data = data[end:]
        records = NUMBERED.findall(data)
        if len(records) == data.count(b"\n"):
            self.put_records(records)
            return
        for line in LINE.findall(data):
            self.read_line(line)

    def read_line(self, line):
        if self.awaited:
            self.end_awaited(line)
            return
        found = NUMBERED.fullmatch(line)
        if found:
            self.put_records([found.groups()])
            return
        self.line += 1
        for form, put in self.FORMS:
            found = form.fullmatch(line)
            if found:
                put(self, *found.groups())
                return
        if not line.endswith(b"\n"):
            raise Bad("the text ends within this line")
        raise Bad(f"no line of records: {shortened(line[:-1].decode(errors='backslashreplace'))}")

    def log(self):
        if self.trace or self.streams:
            raise Bad("a line of the log below records")

    def begin_collector(self, word):
        number = int(word)
        if self.is_listing() or self.streams or number != (0 if self.collector is None else self.collector + 1):
            raise Bad("this collector isn't the next one")
        self.end_trace()
        self.collector, self.rank, self.last = number, Rank.RECORD, None
        self.trace = self.make("collector", number)

    def is_listing(self):
        return self.trace is not None and self.collector is None

    def come_late(self, cpu, number):
        """The next line is that of a late record."""
        if self.collector is not None:
            raise Bad("a line of captures below a collector")
        self.own_trace()
        self.awaited = self.line, (int(cpu), int(number))

    def end_awaited(self, line):
        """Looks at the line that has to be that of a late record, which was found before."""
        if not self.awaited:
            return
        (said, place), self.awaited, record = self.awaited, None, None
        if line and line.endswith(b"\n"):
            self.line += 1
            record = self.record_of(line)
        if not record or record.place[1:] != place:
            raise Bad(said, "below this line isn't the record that comes late")

    def record_of(self, line):
        """The record of a line, if this has one."""
        found = NUMBERED.fullmatch(line)
        if found:
            cpu, number, moment, rest = found.groups()
            return record_at(cpu, number, moment, *self.said_by(rest))
        found = RECORD_JSON.fullmatch(line)
        return record_of_json(*found.groups()) if found else None

    def put_late(self, place=None):
        """Gives the late records that are before a place; all of them, if there is none."""
        while self.late and (place is None or self.late[-1][0] < place):
            own, line, record = self.late.pop()
            if self.last is not None and own <= self.last:
                raise Bad(line, "not in the order in which such lines are printed")
            self.rank, self.last = Rank.RECORD, own
            self.own_trace().put_record(*record.words)

    def own_trace(self):
        """The trace of a line that isn't a stream's."""
        if self.streams:
            raise Bad("a line of captures or of a collector below that of a stream")
        if self.trace is None:
            self.trace = self.make("captures", None)
        return self.trace

    def stream_trace(self, name):
        """The trace of a stream."""
        if self.trace:
            raise Bad("a line of a stream below that of captures or of a collector")
        if name not in self.streams:
            self.streams[name] = self.make("stream", name)
        return self.streams[name]

    def end_trace(self):
        if self.trace is None:
            return
        self.put_late()
        for rank, key, more in sorted(self.losses):
            LOSS_PUTS[rank](self.trace, *key, *more)
        self.trace.close()

    def end_streams(self):
        """Ends the traces of a fleet. That of a stream without a record has the first moment of all."""
        moments = [trace.first for trace in self.streams.values() if trace.first is not None]
        for trace in self.streams.values():
            if trace.first is None:
                trace.first = min(moments, default=0)
            trace.close()

    def come_to(self, rank, key):
        """The line is of this kind and is sorted by this key; the one before it has to be of the same kind with a
        lower key, or of a kind before it."""
        if rank == self.rank and (self.last is None or self.last < key) or rank > self.rank:
            self.rank, self.last = rank, key
            return
        raise Bad("not in the order in which such lines are printed")

    def put_records(self, records):
        """Records that stand one after the other, as `NUMBERED` finds them."""
        # Members of an enum are looked up by a function, so this one is looked up once.
        whole, rank, late = self.whole, Rank.RECORD, self.late
        for cpu, number, moment, rest in records:
            self.line += 1
            cpu, number, moment = int(cpu), int(number), int(moment)
            event, payload = whole.get(rest) or self.said_by(rest)
            if cpu >= CPUS or number >= NUMBERS or moment >= NUMBERS:
                check_record(cpu, number, moment)
            trace = self.trace
            if trace is None or self.streams:
                trace = self.own_trace()
            place = moment, cpu, number
            if late and late[-1][0] < place:
                self.put_late(place)
            if self.rank is rank and (self.last is None or self.last < place):
                self.last = place
            else:
                self.come_to(rank, place)
            trace.put_record(cpu, number, moment, event, payload)

    def said_by(self, rest):
        """The event of a record, or None, and its payload, by what its line has behind the moment."""
        if b"=" in rest:
            for shape in self.shapes_of(rest):
                event = shape.read(rest)
                if event:
                    return self.kept_again(rest, (event, b""))
        head, _, last = rest.rpartition(b" ")
        if head in self.heads and BYTES.fullmatch(last):
            return self.heads[head], payload_of(last)
        found = RECORD.fullmatch(b"0 0 0%b\n" % rest)
        if not found:
            said = shortened(rest.decode(errors="backslashreplace"))
            raise Bad(f"no line of records, behind its three numbers: {said}")
        *words, payload = found.groups(b"")[NUMBERS_OF:]
        if payload:
            return kept(self.heads, head, event_of_words(words)), payload_of(payload)
        if words[TEXT_AT] or not words[NAME_AT]:
            raise Bad("no line of records: it has no payload")
        words[FIELDS_AT] = words[FIELDS_AT] or NO_FIELDS
        event = event_of_words(words)
        if event.fields:
            event.shape = self.new_shape(words[NAME_AT], event)
        return kept(self.whole, rest, (event, b""))

    def kept_again(self, rest, said):
        """Keeps what a line says if it was said before."""
        once = self.once
        if rest in once:
            return kept(self.whole, rest, said)
        if len(once) >= KEPT_MOST:
            once.clear()
        once.add(rest)
        return said

    def shapes_of(self, rest):
        """The shapes that are known of the event of a line, by what is behind its numbers."""
        words = rest.split(b" ", 3)
        if len(words) < 4:
            return ()
        if not words[2].startswith(b'"'):
            return self.shapes.get(words[2], ())
        found = TASK_AND_EVENT.match(rest)
        return self.task_shapes.get(found[1], ()) if found else ()

    def new_shape(self, name, event):
        """The shape of an event's fields; None if too many of the event are known."""
        known = (self.shapes if event.task is None else self.task_shapes).setdefault(name, [])
        if len(known) == SHAPES_MOST:
            return None
        known.append(Shape(event))
        return known[-1]

    def put_record_json(self, *words):
        record, trace = record_of_json(*words), self.own_trace()
        self.put_late(record.place)
        self.come_to(Rank.RECORD, record.place)
        trace.put_record(*record.words)

    def put_missing(self, cpu, first, last):
        cpu, first, last = int(cpu), int(first), int(last)
        if cpu >= CPUS or not first <= last < NUMBERS:
            raise Bad("these are no numbers of a CPU")
        if self.collector is None:
            before = self.last_losses.get((Rank.MISSING, cpu))
            self.lose(Rank.MISSING, (cpu, first, last), self.line)
        else:
            before = self.last if self.rank == Rank.MISSING and self.last[0] == cpu else None
            self.come_to(Rank.MISSING, (cpu, first, last))
            self.trace.put_missing(cpu, first, last, self.line)
        if before and first <= before[2]:
            raise Bad("a number is missing twice")

    def put_unknown(self, cpu, number):
        self.lose(Rank.UNKNOWN, (int(cpu), int(number)))

    def put_damaged(self, cpu, number, page, byte, fault):
        page, byte = int(page), int(byte)
        if max(page, byte) >= NUMBERS:
            raise Bad("a page's number or place doesn't fit 64 bits")
        self.lose(Rank.DAMAGED, (int(cpu), int(number), page), byte, fault.decode())

    def lose(self, rank, key, *more):
        """Keeps what captures have lost until all records are there. It may stand between records, and its lines are in
        order for each kind and CPU."""
        self.check_capture(key[0], key[1])
        self.own_trace()
        before = self.last_losses.get((rank, key[0]))
        if self.rank >= Rank.LOSSES or before is not None and key <= before:
            raise Bad("not in the order in which such lines are printed")
        self.last_losses[rank, key[0]] = key
        self.losses.append((rank, key, more))

    def check_capture(self, cpu, number):
        if self.collector is not None:
            raise Bad("a line of captures below a collector")
        if cpu >= CPUS or number >= NUMBERS:
            raise Bad("this is no number of a CPU")

    def put_counters(self, cpu, *numbers):
        if max(map(int, numbers)) >= NUMBERS:
            raise Bad("a counter doesn't fit 64 bits")
        self.check_capture(int(cpu), 0)
        trace = self.own_trace()
        self.come_to(Rank.LOSSES, (int(cpu),))
        trace.put_counters(int(cpu), dict(zip(COUNTERS, map(int, numbers))))

    def put_cut(self, fault):
        if not self.is_listing():
            raise Bad(f"no line of records: trace.dat: {fault.decode()}")
        self.come_to(Rank.CUT, ())
        self.trace.put_cut(fault.decode())

    def put_audit(self, found):
        if self.collector is None:
            raise Bad("an audit of no collector")
        self.come_to(Rank.AUDIT, ())
        self.trace.put_audit(found.decode())

    def put_stream_record(self, name, cpu, number, moment, payload):
        name, cpu, number, moment = name.decode(), int(cpu), int(number), int(moment)
        check_record(cpu, number, moment)
        trace = self.stream_trace(name)
        self.come_to(Rank.RECORD, (moment, name, cpu, number))
        trace.put_record(cpu, number, moment, None, b"" if payload == b"-" else bytes.fromhex(payload.decode()))

    def put_run(self, kind, name, cpu, first, last):
        """A run of a stream's numbers."""
        kind, name, cpu, first, last = kind.decode(), name.decode(), int(cpu), int(first), int(last)
        rank, trace = Rank[kind.upper()], self.stream_trace(name)
        if cpu >= CPUS or not first <= last < NUMBERS or (kind == "forgotten" and first):
            raise Bad("these are no numbers of a CPU")
        if rank == self.rank and self.last and self.last[:2] == (name, cpu) and first <= self.last[3]:
            raise Bad("a number is in two runs")
        self.come_to(rank, (name, cpu, first, last))
        if kind in ("missing", "undelivered"):
            trace.put_missing(cpu, first, last, self.line)
        if kind != "missing":
            trace.put_run(kind, cpu, first, last)

    def put_run_json(self, name, cpu, kind, first, last):
        self.put_run(kind, name, cpu, first, last)

    FORMS = (
        (STREAM_RECORD, put_stream_record),
        (RECORD_JSON, put_record_json),
        (STREAM_RECORD_JSON, put_stream_record),
        (STREAM_RUN, put_run),
        (STREAM_RUN_JSON, put_run_json),
        (MISSING, put_missing),
        (MISSING_JSON, put_missing),
        (LOG, log),
        (COLLECTOR, begin_collector),
        (UNKNOWN, put_unknown),
        (UNKNOWN_JSON, put_unknown),
        (DAMAGED, put_damaged),
        (DAMAGED_JSON, put_damaged),
        (LATE, come_late),
        (LATE_JSON, come_late),
        (LOSSES, put_counters),
        (LOSSES_JSON, put_counters),
        (CUT, put_cut),
        (AUDIT, put_audit),
    )


# How a trace is given what captures have lost.
LOSS_PUTS = {
    Rank.MISSING: lambda trace, *words: trace.put_missing(*words),
    Rank.UNKNOWN: lambda trace, *words: trace.put_unknown(*words),
    Rank.DAMAGED: lambda trace, *words: trace.put_damaged(*words),
}
# What a record says between its three numbers and its payload: process, task, event, text, fields. An event without a
# field has no payload either.
NUMBERS_OF, NAME_AT, TEXT_AT, FIELDS_AT, NO_FIELDS = 3, 2, 3, 4, b" "
KEPT_MOST, SHAPES_MOST = 1 << 15, 4


def kept(found, key, value):
    """Keeps a value that may be asked for again."""
    if len(found) >= KEPT_MOST:
        found.clear()
    found[key] = value
    return value


def payload_of(word):
    """The bytes of a payload."""
    try:
        return b"" if word == b"-" else bytes.fromhex(word.decode())
    except ValueError as fault:
        raise Bad("no line of records: half a byte in its payload") from fault


def record_at(cpu, number, moment, event, payload):
    """A record whose numbers are given by their digits."""
    cpu, number, moment = int(cpu), int(number), int(moment)
    check_record(cpu, number, moment)
    return Record(cpu, number, moment, event, payload)


def record_of_json(cpu, number, moment, process, task, name, text, more, payload):
    event = None
    if process is not None:
        fields = fields_of_json(b"{%s}" % more[1:]) if more else None
        if fields is None and payload is None:
            raise Bad("no line of records: it has neither fields nor a payload")
        event = event_of(process, task, name.strip(b'"'), text, more, fields)
    elif payload is None:
        raise Bad("no line of records: it has no payload")
    return record_at(cpu, number, moment, event, bytes.fromhex((payload or b"").decode()))


def event_of_words(words):
    """The event of a record of a text; None of one that says none."""
    process, task, name, text, fields = words
    if not name:
        return None
    return event_of(process, task, name, text, fields, tuple(FIELDS.findall(fields)) if fields else None)


def shortened(text):
    return text[:77] + ".." if len(text) > 79 else text


def check_record(cpu, number, moment):
    if cpu >= CPUS:
        raise Bad("CPUs are 0 to 255")
    if number >= NUMBERS or moment >= NUMBERS:
        raise Bad("a number or a moment doesn't fit 64 bits")


def event_of(process, task, name, text, has_fields, fields):
    """The event of a record; None of one that is too short to have a process."""
    if process == b"-":
        if name != b"-":
            raise Bad("an event without a process")
        return None
    if not -PROCESSES <= int(process) < PROCESSES:
        raise Bad("the process doesn't fit 32 bits")
    # Not `or`: a text may be empty.
    is_marker = text is not None and not has_fields and (text != b"" or name == b"ftrace:print")
    return Event(int(process), unescaped(task) if task else None, name.decode(), unescaped(text) if is_marker else None,
                 fields if has_fields else None)


def unescaped(text):
    """A text, as it was before its escapes."""
    if b"\\" not in text:
        return text.decode(errors="surrogateescape")
    letter = lambda found: chr(int(found[1], 16)) if found[1] else ESCAPES.get(found[2], found[2])
    return ESCAPE.sub(letter, text.decode(errors="surrogateescape"))


def fields_of_json(more):
    """The fields of a record of JSON as they are in a text: those without a value are `!`."""
    try:
        found = json.loads(more)
    except ValueError as fault:
        raise Bad(f"no line of records: {fault}") from fault
    names, fields = found.get("names", {}), []
    for name, value in found.get("fields", {}).items():
        text = value_of_json(value)
        fields.append((name.encode(), text + (b":" + "|".join(names[name]).encode() if name in names else b"")))
    return (*fields, *((name.encode(), b"!") for name in found.get("uncut", ())))


def value_of_json(value):
    if isinstance(value, list):
        return b"[" + b",".join(map(value_of_json, value)) + b"]"
    if isinstance(value, str):
        return value.encode() if re.fullmatch(r"0x[0-9a-f]+", value) else json.dumps(value, ensure_ascii=False).encode()
    return str(value).encode()
