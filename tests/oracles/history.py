"""Histories of a CPU's frames and its ring, and what they leave: what account.py needs of the definitions in
crates/trace_model/specs/{Words,History,Window,Packing}.antt, by their names.
"""

from typing import NamedTuple, Optional

MAX_FRAMES, MOMENT_LIMIT, LINK_FILLS = 4, 1 << 59, 1 << 48
# From this delta on a record takes eight bytes more; if its slot is longer than this, four more.
EXTEND_FROM, SHORT_SLOT = 1 << 27, 112

# ---- how long a record is


def slot_len(length):
    return 4 * ((max(length, 1) + 3) // 4)


def padded(payload):
    return payload.ljust(slot_len(len(payload)), b"\0")


def encoded_len(length, delta, first):
    extend = 0 if first or delta < EXTEND_FROM else 8
    return extend + (4 if slot_len(length) <= SHORT_SLOT else 8) + slot_len(length)


# ---- events


class Event(NamedTuple):
    """An event of a ring: a push has a moment and a length, and a leave perhaps a payload."""

    name: str
    moment: Optional[int] = None
    length: Optional[int] = None
    payload: Optional[bytes] = None


PUSH_CLOSE, OPEN_FILL, RESERVE, WISHED = map(Event, ("push_close", "open_fill", "reserve", "wished"))
CLOSES, TAKES, LOSES = map(Event, ("closes", "takes", "loses"))


def push(moment, length):
    return Event("push", moment, length)


def leave(payload):
    return Event("leave", payload=payload)


def history_events_of(events):
    return [event for event in events if event not in (CLOSES, TAKES, LOSES)]


# ---- what they leave


class RecordFrame(NamedTuple):
    moment: int
    length: int
    number: Optional[int] = None


class CloseFrame(NamedTuple):
    """It has no record."""


class Reservation(NamedTuple):
    moment: int
    length: int
    payload: Optional[bytes] = None

    def as_record(self):
        """Its bytes: zeros until its frame has left."""
        return bytes(self.length) if self.payload is None else self.payload


class History(NamedTuple):
    """What a history leaves: the stack, the top first; the reserved records; how many these were at each open; whether
    a wish was found since the last one; and how many records are committed."""

    stack: tuple = ()
    records: tuple = ()
    opens: tuple = ()
    is_wished: bool = False
    committed: int = 0


def reservation_for(moment, length, records):
    return Reservation(max(moment, records[-1].moment if records else 0), slot_len(length))


def tail_of(history):
    return history.records[history.opens[-1] if history.opens else 0 :]


def fill_len(records):
    total = 0
    for at, record in enumerate(records):
        delta = record.moment - records[at - 1].moment if at else 0
        total += encoded_len(record.length, delta, first=at == 0)
    return total


def first_of_fill(history, start, fill):
    firsts, at = (0, *history.opens), max(fill - start, 0)
    return firsts[at] if at < len(firsts) else 0


def after_reserve(stack, records):
    top = stack[0] if stack else CloseFrame()
    if isinstance(top, CloseFrame) or top.number is not None:
        return stack, records
    reserved = reservation_for(top.moment, top.length, records)
    return (top._replace(number=len(records)), *stack[1:]), (*records, reserved)


def records_after_leave(frame, payload, records):
    if isinstance(frame, CloseFrame) or None in (frame.number, payload):
        return records
    written = records[frame.number]._replace(payload=padded(payload))
    return (*records[: frame.number], written, *records[frame.number + 1 :])


def history_after(history, event):
    stack, records = history.stack, history.records
    if event.name == "push":
        stack = (RecordFrame(event.moment, event.length), *stack)
    elif event == PUSH_CLOSE:
        stack = (CloseFrame(), *stack)
    elif event == RESERVE:
        stack, records = after_reserve(stack, records)
    elif event.name == "leave" and stack:
        stack, records = stack[1:], records_after_leave(stack[0], event.payload, records)
    opens = (*history.opens, len(records)) if event == OPEN_FILL else history.opens
    is_wished = event == WISHED or (history.is_wished and event != OPEN_FILL)
    return History(stack, records, opens, is_wished, history.committed if stack else len(records))


class Window(NamedTuple):
    head: int
    done: int
    opened: int


def moved(window, event):
    if event == OPEN_FILL:
        return window._replace(opened=window.opened + 1)
    if event == CLOSES:
        return window._replace(done=window.done + 1)
    if event in (TAKES, LOSES):
        return window._replace(head=window.head + 1)
    return window


class Ring:
    """The events of a ring, with what they leave: a history, a window, and the fills that are taken and lost. From one
    new ring on, the same events are the same `Ring`."""

    def __init__(self, events, history, window, taken, lost):
        self.events, self.history, self.window, self.taken, self.lost = events, history, window, taken, lost
        self.followed = {}

    def then(self, event):
        if event not in self.followed:
            head = (self.window.head,)
            self.followed[event] = Ring(
                (*self.events, event),
                history_after(self.history, event),
                moved(self.window, event),
                self.taken + head * (event == TAKES),
                self.lost + head * (event == LOSES),
            )
        return self.followed[event]

    def then_all(self, events):
        ring = self
        for event in events:
            ring = ring.then(event)
        return ring


def new_ring(start):
    return Ring((), History(), Window(start, start, start + 1), taken=(), lost=())
