"""A plain `collect`, to compare with the program's: it works out from the bytes of captures what
docs/formats/program.md says is printed of them, in "Captures" and "Fields".
"""

import struct
from functools import cache, partial

from oracles import fields, names, trace_dat
from oracles.image import MOST, Fault, missed_before, records
from oracles.selection import Selection, is_named

MAGIC = b"\x17\x08Dtracing"
NUMBERS, STAMP, CPUS = 1 << 64, 1 << 59, 256
# What the kernel counts of a CPU's ring.
COUNTERS = (b"CPU: ", b"overrun: ", b"commit overrun: ", b"dropped events: ")


class Refused(Exception):
    """Why nothing is listed."""


# ---- pages


def restored(time, data):
    """The data of a page with an extend in place of each stamp that has bits to take from the time before it."""
    data, at = bytearray(data), 0
    while len(data) - at >= 4:
        first = int.from_bytes(data[at : at + 4], "little")
        kind, delta = first & 31, first >> 5
        if kind == 29 and delta == 0 or not 1 <= kind <= 28 and len(data) - at < 8:
            break
        second = int.from_bytes(data[at + 4 : at + 8], "little")
        length = 4 + 4 * kind if 1 <= kind <= 28 else 8 if kind in (30, 31) else 4 + second
        if kind in (0, 29) and (second < 4 or second % 4) or at + length > len(data):
            break
        if kind == 31:
            stamp = delta + (second << 27)
            if time >= STAMP:
                until = (stamp - time) % STAMP
                data[at : at + 8] = struct.pack("<II", 30 | (until % (1 << 27)) << 5, until >> 27)
                time += until
            else:
                time = stamp
        elif kind == 30:
            time += delta + (second << 27)
        elif kind != 29:
            time += delta
        time %= NUMBERS
        at += length
    return bytes(data)


def page_reading(image):
    """What a page states of losses before it, and its records, or a `Fault`."""
    if len(image) < 16:
        raise Fault("TooShort")
    time, commit = struct.unpack_from("<QQ", image)
    size = commit & 0x3FFF_FFFF
    if size > len(image) - 16 or len(image) > MOST:
        raise Fault("BadSize")
    missed = missed_before(image, commit, size)
    # trace-cmd writes such a count of a loss of unknown number.
    missed = "unknown" if missed == NUMBERS - 1 else missed
    return missed, [*records(time, restored(time, image[16 : 16 + size]))]


def head(page):
    """The time of a page, how many bytes of data it states, and the upper half of its commit word."""
    time, commit = struct.unpack_from("<QQ", page)
    return time, commit & 0x3FFF_FFFF, commit >> 32


def smaller_in(page):
    """The size of the smaller pages that what was read as one has, if the second one's head is behind the first one's
    data."""
    for size in (4096, 8192, 16384, 32768):
        if len(page) >= size + 16:
            (time, data, _), (later, others, bits) = head(page), head(page[size:])
            is_head = 0 < others <= size - 16 and bits in (0, 0xFFFF_FFFF)
            if data <= size - 16 and is_head and time <= later < time + (1 << 48):
                return size
    return None


class Cpu:
    """What there is of one CPU."""

    def __init__(self, cpu):
        self.cpu, self.next, self.pages, self.bytes = cpu, 0, 0, 0
        self.records, self.missing, self.unknown, self.damaged = [], [], [], []

    def add_page(self, image, unknown):
        try:
            missed, found = page_reading(image)
        except Fault as fault:
            self.damaged.append((self.next, self.pages, self.bytes, str(fault)))
        else:
            if missed == "unknown" and unknown == 1:
                self.unknown.append(self.next)
            lost = {"none": 0, "unknown": unknown}.get(missed, missed)
            if self.next + lost + len(found) >= NUMBERS:
                raise Refused("numbers")
            if lost:
                self.missing.append((self.next, self.next + lost - 1))
            first = self.next + lost
            self.records += [(moment, self.cpu, first + at, data) for at, (moment, data) in enumerate(found)]
            self.next = first + len(found)
        self.pages += 1
        self.bytes += len(image)

    def add_part(self, size, pages, unknown=1, is_raw=False):
        for at in range(0, len(pages), size):
            page = pages[at : at + size]
            smaller = smaller_in(page) if is_raw else None
            if smaller:
                raise Refused(f"pages: SmallerPages {smaller}")
            self.add_page(page, unknown)

    def lost(self):
        """How many numbers are missing."""
        return sum(last - first + 1 for first, last in self.missing)

    def runs(self):
        """The missing numbers, as runs that don't touch each other."""
        merged = []
        for first, last in self.missing:
            if merged and merged[-1][1] + 1 == first:
                first = merged.pop()[0]
            merged.append((first, last))
        return merged


# ---- files


def resembles_dat(file):
    """Whether at most one of a file's first ten bytes isn't that of a file of trace-cmd."""
    return sum(file[at : at + 1] != MAGIC[at : at + 1] for at in range(len(MAGIC))) < 2


def texts_of(buffer, texts):
    """Of texts of counters those of this buffer: the text before an instance's counters names it."""
    named = b""
    for text in texts:
        name = trace_dat.value(text, b"Buffer: ")
        named = named if name is None else name
        if named == buffer:
            yield text


def counters_of(texts):
    """The counters of CPUs: how many records were overwritten, lost by a commit, and dropped."""
    counters = {}
    for text in texts:
        numbers = [trace_dat.number(trace_dat.value(text, key), NUMBERS) for key in COUNTERS]
        if None not in numbers[:2]:
            counters.setdefault(numbers[0], [number or 0 for number in numbers[1:]])
    return counters


def parts_of(dat, buffer, length):
    """The parts of this buffer in a file of trace-cmd that has so many bytes."""
    parts = []
    for name, page_size, cpus in dat.buffers:
        if name != buffer:
            continue
        if not 4096 <= page_size <= 65536:
            raise Refused(f"trace.dat: BadPage {page_size}")
        for cpu, pages, _ in cpus:
            if cpu >= CPUS:
                raise Refused(f"trace.dat: BadCpu {cpu}")
            parts.append((cpu, page_size, pages))
    if sum(len(pages) for _, _, pages in parts) > length:
        raise Refused("trace.dat: Overlap")
    return parts


def cut_of(dat, buffer):
    """The fault of the first range of this buffer that a file of trace-cmd ends before, if it was cut short there."""
    faults = (fault for name, _, cpus in dat.buffers if name == buffer for _, _, fault in cpus if fault)
    return next(faults, None)


def settled(cpu, parts, counters, is_raw):
    """The CPU, with the number of its only loss of unknown number, if its counters have it."""
    found = Cpu(cpu)
    for size, pages in parts:
        found.add_part(size, pages, is_raw=is_raw)
    lost = found.lost() - len(found.unknown)
    overrun = counters[0] if counters else 0
    if len(found.unknown) != 1 or found.damaged or overrun <= lost:
        return found
    told = Cpu(cpu)
    for size, pages in parts:
        told.add_part(size, pages, overrun - lost)
    told.unknown = []
    return told


class Files:
    """What files have: the CPUs of a buffer, in pages of this size if they are raw, the counters of these, if there is
    one file alone that wasn't cut short, and texts of the kernel: formats of events, and lists of processes and of
    symbols. Of instances those that aren't listed are known by their names. `cut` is the line of the first file that
    was cut short, or None."""

    def __init__(self, files, page, buffer):
        self.buffer, self.is_alone, self.machine, self.has_buffer = buffer, len(files) == 1, None, False
        self.cpus, self.counters, self.formats, self.tasks, self.symbols, self.others = {}, {}, [], [], [], []
        self.cut = None
        for cpu, file in files:
            if buffer or resembles_dat(file):
                self.add_dat(file)
            else:
                self.add_parts([(cpu, page, file)], True)

    def add_dat(self, file):
        try:
            dat = trace_dat.reading(file)
        except trace_dat.Fault as fault:
            raise Refused("trace.dat: %s at %d" % fault.args) from fault
        parts = parts_of(dat, self.buffer, len(file))
        if None not in (self.machine, dat.machine) and self.machine != dat.machine:
            raise Refused("trace.dat: OtherHost")
        self.machine = dat.machine if self.machine is None else self.machine
        names = [name for name, _, _ in dat.buffers]
        self.has_buffer = self.has_buffer or self.buffer in names
        self.others += [name for name in names if name not in (b"", self.buffer)]
        self.formats += dat.formats
        self.tasks += dat.tasks
        self.symbols += dat.symbols
        cut = cut_of(dat, self.buffer)
        if cut and not self.cut:
            self.cut = b"trace.dat: %b at %d\n" % (cut[0].encode(), cut[1])
        if self.is_alone and not cut:
            self.counters = counters_of(texts_of(self.buffer, dat.counters))
        self.add_parts(parts, False)

    def add_parts(self, parts, is_raw):
        of_cpu = {}
        for number, size, pages in parts:
            of_cpu.setdefault(number, []).append((size, pages))
        for number, own in of_cpu.items():
            if self.is_alone:
                self.cpus[number] = settled(number, own, self.counters.get(number), is_raw)
                continue
            for size, pages in own:
                self.cpus.setdefault(number, Cpu(number)).add_part(size, pages, is_raw=is_raw)


# ---- texts


class Format:
    """What the last format of an event's number says: its system and its name, and its fields, or at which offset it is
    malformed; and the tables of these."""

    def __init__(self, system, name, text):
        self.system, self.name, self.fields, self.malformed = system, name, None, None
        self.table = cache(partial(names.table_of, text))
        try:
            self.fields = fields.fields_of(text)
        except fields.Malformed as malformed:
            [self.malformed] = malformed.args

    def shown(self):
        return f"{shown(self.system)}:{shown(self.name)}"


def events_of(formats):
    """What is known of events, by their numbers."""
    events = {}
    for system, text in formats:
        kind = trace_dat.number(trace_dat.value(text, b"ID: "), 1 << 16)
        name = trace_dat.value(text, b"name: ")
        if kind is not None and name is not None:
            events[kind] = system, name, text
    return {kind: Format(*events[kind]) for kind in sorted(events)}


def shown(name):
    return "".join(chr(byte) if 33 <= byte <= 126 and byte not in b'"\\' else "?" for byte in name)


def quoted(text):
    """A text in quotes, with escapes."""
    try:
        text.decode()
        high = None
    except UnicodeDecodeError:
        high = b"\\ufffd"
    out = bytearray(b'"')
    for byte in text:
        escape = {34: b'\\"', 92: b"\\\\", 10: b"\\n", 9: b"\\t", 13: b"\\r"}.get(byte)
        if escape is None and (byte < 32 or byte == 127):
            escape = b"\\u%04x" % byte
        if escape is None and byte >= 128:
            escape = high
        out += escape or bytes([byte])
    return bytes(out) + b'"'


class Known:
    """What is known of events, by these formats, and what names numbers: the names of processes, if they are asked for,
    and the functions of the kernel."""

    def __init__(self, formats, has_fields, tasks, symbols):
        self.events, self.has_fields = events_of(formats), has_fields
        self.tasks = {} if tasks is None else names.tasks_of(tasks)
        self.symbols = None if symbols is None else names.Symbols(symbols)

    def malformed(self):
        """What is said of formats that are malformed."""
        for event in self.events.values():
            if event.malformed is not None:
                yield f"the format of {event.shown()} is malformed at byte {event.malformed}".encode()

    def names(self, event, field, number):
        """The names of a field's number."""
        if self.symbols and event.system == b"ftrace" and field.name in names.ADDRESSES:
            return self.symbols.names(number)
        table = event.table(field.name)
        return table.names(number) if table else []


class Event:
    """The event of a record, with its process and the name of that, and its text if it is a marker; or with the values
    of its fields."""

    def __init__(self, data, known):
        self.pid = self.task = self.name = self.text = self.values = None
        if len(data) >= 8:
            kind, self.pid = struct.unpack_from("<H2xi", data)
            found, task = known.events.get(kind), known.tasks.get(self.pid)
            self.task = None if task is None else quoted(task)
            self.name = found.shown() if found else kind
            if known.has_fields and found and found.fields is not None:
                self.values = fields.Values(found.fields, data, partial(known.names, found))
            elif not known.has_fields and found and (found.system, found.name) == (b"ftrace", b"print"):
                self.text = quoted(data[16:].split(b"\0")[0])

    def is_whole(self):
        """Whether all that its fields say is there."""
        return self.values is not None and self.values.is_whole()


class Lines:
    """How records are listed: as text or JSON, with what is known of their events, or without."""

    def __init__(self, json, known):
        self.of, self.known = self.json_line if json else self.text_line, known
        # Of how many records not all fields were there.
        self.cut = 0

    def event(self, data):
        event = Event(data, self.known)
        self.cut += event.values is not None and not event.is_whole()
        return event

    def text_line(self, record):
        moment, cpu, number, data = record
        words, payload = [b"%d %d %d" % (cpu, number, moment)], [data.hex().encode() or b"-"]
        if self.known:
            event = self.event(data)
            words.append(b"-" if event.pid is None else b"%d" % event.pid)
            words += [event.task] if event.task is not None else []
            words.append(b"-" if event.pid is None else str(event.name).encode())
            words += [event.text] if event.text is not None else []
            words += event.values.text(quoted) if event.values else []
            payload = [] if event.is_whole() else payload
        return b" ".join([*words, *payload]) + b"\n"

    def json_line(self, record):
        moment, cpu, number, data = record
        keys = [b'"cpu":%d,"number":%d,"time":%d' % (cpu, number, moment)]
        payload = [b'"data":"%s"' % data.hex().encode()]
        if self.known:
            event = self.event(data)
            if event.pid is not None:
                name = event.name if isinstance(event.name, int) else f'"{event.name}"'
                keys.append(b'"pid":%d' % event.pid)
                keys += [b'"task":' + event.task] if event.task is not None else []
                keys.append(f'"event":{name}'.encode())
            keys += [b'"text":' + event.text] if event.text is not None else []
            keys += event.values.json(quoted) if event.values else []
            payload = [] if event.is_whole() else payload
        return b"{" + b",".join([*keys, *payload]) + b"}\n"


class Collected:
    """What is listed of files, each with the CPU that it is of if it is raw: the exit status, the output, and what is
    said of instances, events and fields on standard error.

    `formats` are those of a folder, `tasks` and `symbols` texts of files in which the names of processes and of
    functions are, or None if these names aren't asked for. The buffer that is listed is `instance`; of it the CPUs and
    processes of these sets, the moments from `since` to `until`, and the events that the pattern `event` names.
    """

    def __init__(self, files, page=4096, json=False, names=False, formats=(), has_fields=False, *, tasks=None,
                 symbols=None, instance=b"", event=None, **part):
        self.status, self.output, self.errors = 1, b"", b""
        has_fields = has_fields or symbols is not None
        try:
            found = Files(files, page, instance)
        except Refused as refused:
            self.output = f"{refused}\n".encode()
            return
        known = Known(
            [*found.formats, *formats],
            has_fields,
            None if tasks is None else [*found.tasks, *tasks],
            None if symbols is None else [*found.symbols, *symbols],
        )
        if event is not None:
            part["events"] = {kind for kind, own in known.events.items() if is_named(event, own.system, own.name)}
        selection = Selection(**part)
        order = [found.cpus[number] for number in sorted(found.cpus)]
        lines = Lines(json, known if names or has_fields or tasks is not None else None)
        records = sorted(each for cpu in order for each in cpu.records)
        self.output = b"".join(lines.of(record) for record in records if selection.has(record))
        self.output += lines_below(order, json, selection) + loss_sums(found, json, selection) + (found.cut or b"")
        lacking = [b"no event is named by " + event] if event is not None and not selection.events else []
        lacking += known.malformed() if has_fields else []
        lacking += [b"records with a field that is not whole: %d" % lines.cut] * bool(lines.cut)
        missing = [b"there is no instance " + instance] if instance and not found.has_buffer else []
        others = b" ".join(shown(name).encode() for name in found.others)
        instances = [b"instances that are not listed: %d %s" % (len(found.others), others)] if found.others else []
        self.errors = b"".join(b"tracering: %s\n" % each for each in [*missing, *instances, *lacking])
        self.status = int(bool(missing or lacking or found.cut) or any(cpu.damaged for cpu in order))


def lines_below(order, json, selection):
    """The lines of what is missing, unknown and damaged, as far as it may be of what is selected."""
    kinds = {
        "missing": ('{"cpu":%d,"missing":[%d,%d]}' if json else "missing %d %d-%d"),
        "unknown": ('{"cpu":%d,"unknown":%d}' if json else "unknown %d %d"),
        "damaged": (
            '{"cpu":%d,"damaged":%d,"page":%d,"byte":%d,"fault":"%s"}' if json else "damaged %d %d page %d byte %d: %s"
        ),
    }
    windows = [(cpu, selection.window(cpu.records)) for cpu in order if selection.has_cpu(cpu.cpu)]
    rows = [("missing", (cpu.cpu, *run)) for cpu, own in windows for run in cpu.runs() if own.has_run(run)]
    rows += [("unknown", (cpu.cpu, place)) for cpu, own in windows for place in cpu.unknown if own.has_place(place)]
    rows += [("damaged", (cpu.cpu, *page)) for cpu, own in windows for page in cpu.damaged if own.has_place(page[0])]
    return b"".join((kinds[kind] % row).encode() + b"\n" for kind, row in rows)


def loss_sums(found, json, selection):
    """A line for each CPU that lost records, with what is missing and unknown of it, and what the kernel counted: of
    the whole, so it isn't there if moments are selected."""
    object_form = '{"losses":{"cpu":%d,"missing":%d,"unknown":%d,"overrun":%d,"commit_overrun":%d,"dropped":%d}}'
    form = object_form if json else "losses %d %d %d %d %d %d"
    rows = []
    for cpu, counted in sorted(found.counters.items()):
        own = found.cpus.get(cpu, Cpu(cpu))
        row = cpu, own.lost(), len(own.unknown), *counted
        if cpu < CPUS and selection.has_cpu(cpu) and selection.has_all_moments() and any(row[1:]):
            rows.append(row)
    return b"".join((form % row).encode() + b"\n" for row in rows)
