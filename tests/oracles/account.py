"""What may be printed of a script, by histories alone: crates/line_model/specs/{Due,Accounts,Shown}.antt as a program.

Read it beside them: the functions have the names of the definitions, and are in their order. Where a definition relates
what is before a line to what is after it, the function here gives all that may be after it. A list of events is a
`Ring` of history.py, which has what is asked of the list.

Each clause of a definition has a name, in `clause` or `choice`, by which tests/program/account leaves it out.
"""

from typing import NamedTuple, Optional

from oracles.history import CLOSES, LINK_FILLS, LOSES, MAX_FRAMES, MOMENT_LIMIT, OPEN_FILL, PUSH_CLOSE, RESERVE, TAKES
from oracles.history import WISHED, CloseFrame, History, Ring, Window, encoded_len, fill_len, first_of_fill
from oracles.history import history_events_of, leave, new_ring, padded, push, reservation_for, tail_of

# How many lists of events a line may add, and how many states there may be after it, before the search is given up; and
# how many of both are looked at if a clause is left out, since there may be no end of them then.
MOST, FEW = 2_000, 24


class TooMany(Exception):
    """There are more accounts than are looked for."""


class Dropped:
    """The name of the clause that is left out, if one is, and whether some were not looked at then."""

    name: Optional[str] = None
    is_cut = False


def clause(name, holds):
    """A condition beside others that have to hold too: if it is left out, it counts as one that holds."""
    return holds or name == Dropped.name


def choice(name, holds):
    """A condition beside others that may hold instead: if it is left out, it counts as one that doesn't."""
    return holds and name != Dropped.name


def is_enough(found):
    """No more are looked for than were found."""
    if Dropped.name is None and len(found) >= MOST:
        raise TooMany
    is_cut = Dropped.name is not None and len(found) >= FEW
    Dropped.is_cut = Dropped.is_cut or is_cut
    return is_cut


# ---- Due.antt


class Situation(NamedTuple):
    pages: int
    size: int
    history: History
    window: Window
    wish: int


def situation_after(script, asked, ring):
    return Situation(script.pages, script.size, ring.history, ring.window, asked)


def pushed_in(s):
    return s.history.stack


def is_fill_needed_for(s, stack):
    tail = tail_of(s.history)
    if not stack:
        return clause("needs: a wish is found", s.history.is_wished) and clause(
            "needs: a wished tail has a record", tail != ()
        )
    top = stack[0]
    if isinstance(top, CloseFrame):
        return clause("needs: a tail to close has a record", tail != ())
    if top.number is None:
        reserved = reservation_for(top.moment, top.length, s.history.records)
        return clause("needs: the record has no room", s.size < fill_len((*tail, reserved)))
    return clause("needs: never with a record", False)


def is_fill_needed(s):
    return is_fill_needed_for(s, pushed_in(s))


def has_no_fill(s):
    return choice("has no page: none is closed", s.window.opened == s.window.done + s.pages) or choice(
        "has no page: no number is left", LINK_FILLS <= s.window.opened + s.pages
    )


def is_wish_to_find(s):
    return (
        clause("is granted: for the fill after the tail", s.wish == s.window.opened)
        and clause("is granted: the tail has a record", tail_of(s.history) != ())
        and clause("is granted: a number is left", s.window.opened + s.pages < LINK_FILLS)
        and clause("is granted: not found yet", not is_fill_needed(s))
    )


def has_no_record(stack):
    if not stack:
        return clause("has no record: a frame", False)
    if isinstance(stack[0], CloseFrame):
        return clause("has no record: a record frame", False)
    return clause("has no record: none reserved", stack[0].number is None)


def leaves(s, stack, payload):
    if not stack:
        return clause("leaves: a frame", False)
    top = stack[0]
    if isinstance(top, CloseFrame) and payload is None:
        return clause("leaves: a close frame that needs no page or has none", not is_fill_needed(s) or has_no_fill(s))
    if isinstance(top, CloseFrame):
        return clause("leaves: a close frame has no payload", False)
    if top.number is None and payload is None:
        return clause("leaves: without a record, if it needs a page", is_fill_needed(s)) and clause(
            "leaves: without a record, if no page can be had", has_no_fill(s)
        )
    if top.number is None:
        return clause("leaves: without a record, without payload", False)
    return clause("leaves: with its record, with payload", payload is not None)


def is_due(s, event):
    head, done, opened = s.window
    if event.name == "push" or event == PUSH_CLOSE:
        return True
    if event == OPEN_FILL:
        return (
            clause("open_fill is due: a page is needed", is_fill_needed(s))
            and clause("open_fill is due: a page can be had", not has_no_fill(s))
            and clause("open_fill is due: not full", opened < head + s.pages)
        )
    if event == RESERVE:
        return clause("reserve is due: has no record", has_no_record(pushed_in(s))) and clause(
            "reserve is due: needs no page", not is_fill_needed(s)
        )
    if event.name == "leave":
        return clause("leave is due: leaves", leaves(s, pushed_in(s), event.payload))
    if event == WISHED:
        return clause("wished is due: all have left", pushed_in(s) == ()) and clause(
            "wished is due: is granted", is_wish_to_find(s)
        )
    if event == CLOSES:
        return clause("closes is due: all have left", pushed_in(s) == ()) and clause(
            "closes is due: not the tail", done + 1 < opened
        )
    if event == TAKES:
        return clause("takes is due: closed", head < done)
    return (
        clause("loses is due: a page is needed", is_fill_needed(s))
        and clause("loses is due: a page can be had", not has_no_fill(s))
        and clause("loses is due: closed", head < done)
        and clause("loses is due: full", opened == head + s.pages)
    )


# ---- Accounts.antt: one CPU between two lines


class Search(NamedTuple):
    name: str
    left: int = 0


TO_LOOK, TO_LOSE = Search("to_look"), Search("to_lose")


def to_begin(left):
    return Search("to_begin", left)


class Stage(NamedTuple):
    name: str
    fill: int = 0
    search: Optional[Search] = None
    left: int = 0


RESTING, CLOSING_FILLS, ASKING, OFF = map(Stage, ("resting", "closing_fills", "asking", "off"))


def searching(fill, search):
    return Stage("searching", fill, search=search)


def moving(fill, left):
    return Stage("moving", fill, left=left)


class LineFrame(NamedTuple):
    payload: Optional[bytes]
    stage: Stage


def is_moved_for(fill, frames):
    return any(frame.stage.name == "moving" and frame.stage.fill == fill for frame in frames)


TO_FIND, TO_SEE, TO_PREPARE, TO_TAKE = "to_find", "to_see", "to_prepare", "to_take"


class CpuState(NamedTuple):
    events: Ring
    frames: tuple
    take: str
    hint: int
    seen: int
    wish: int


def new_cpu(start):
    return CpuState(events=new_ring(start), frames=(), take=TO_FIND, hint=start, seen=start, wish=0)


# ---- what a frame does


def is_there(below, frame):
    return choice("is there: hasn't left", frame.payload is not None) or choice("is there: the bottom one", below == ())


def is_own(below, frame, event):
    waits = frame.payload is not None
    if event.name == "push":
        return clause("push is own: never", False)
    if event == PUSH_CLOSE:
        return clause("push_close is own: never", False)
    if event == OPEN_FILL:
        return clause("open_fill is own: is there", is_there(below, frame))
    if event == RESERVE:
        return clause("reserve is own: hasn't left", waits)
    if event == leave(None):
        return clause("leave without payload is own: hasn't left", waits)
    if event.name == "leave":
        return clause("leave is own: with its payload", waits and event.payload == padded(frame.payload))
    if event == WISHED:
        return clause("wished is own: has left", not waits) and clause("wished is own: the bottom one", below == ())
    if event == CLOSES:
        return clause("closes is own: has left", not waits) and clause("closes is own: the bottom one", below == ())
    if event == TAKES:
        return clause("takes is own: never", False)
    return clause("loses is own: is there", is_there(below, frame))


def frame_after(frame, event):
    return frame._replace(payload=None) if event.name == "leave" else frame


def events_for(frame):
    """All events, as far as it matters for a frame: one push, and of payloads the frame's, none and another one."""
    payload = padded(frame.payload or b"")
    yield from (push(0, 0), PUSH_CLOSE, OPEN_FILL, RESERVE, leave(None), leave(payload))
    yield from (leave(bytes(byte ^ 1 for byte in payload)), WISHED, CLOSES, TAKES, LOSES)


def does(script, before, first, below, frame):
    """All that the frame may do after the first events, each event of it due, with the frame after it."""
    found = [(first, before.events.then_all(first), frame)]
    for own, ring, after in found:
        yield own, after
        s = situation_after(script, before.wish, ring)
        for event in events_for(after):
            if is_own(below, after, event) and is_due(s, event) and not is_enough(found):
                found.append(((*own, event), ring.then(event), frame_after(after, event)))


def has_gone(s, below, frame):
    none_is_due = not any(is_own(below, frame, event) and is_due(s, event) for event in events_for(frame))
    return clause("has gone: has left", frame.payload is None) and clause("has gone: nothing is due", none_is_due)


# ---- what a line adds: its own events, with the state after it


def with_own(before, own, frames):
    return before._replace(events=before.events.then_all(own), frames=frames)


def is_idle(before):
    yield (), before


def new_frame(payload):
    return LineFrame(payload, RESTING)


def is_refused(size, moment, length, frames):
    return (
        choice("is refused: too deep", MAX_FRAMES <= len(frames))
        or choice("is refused: too long", size < encoded_len(length, 0, True))
        or choice("is refused: too late", MOMENT_LIMIT <= moment)
    )


def begins(refused, event, payload, before):
    if clause("begins: refuses what is refused", refused):
        yield from is_idle(before)
    if clause("begins: pushes what isn't refused", not refused):
        yield (event,), with_own(before, (event,), (new_frame(payload), *before.frames))


# ---- `s`: the steps of the frame on top


def at_rest(w, below, payload):
    if payload is not None:
        return RESTING
    if below:
        return OFF
    return ASKING if clause("at rest: none is left to close", w.done + 1 == w.opened) else CLOSING_FILLS


def stage_after(w, below, payload, event):
    if choice("stage after: loses", event == LOSES):
        return moving(w.opened, 2)
    if choice("stage after: wished", event == WISHED):
        return searching(w.opened, TO_LOOK)
    return at_rest(w, below, payload)


def may_do(s, stage, event):
    if stage == RESTING:
        return clause("may do: resting, if it needs no fill or has none", not is_fill_needed(s) or has_no_fill(s))
    if stage.name == "searching":
        loses, begins = stage.search == TO_LOSE, stage.search == to_begin(0)
        return clause("may do: searching, for this fill", stage.fill == s.window.opened) and (
            choice("may do: searching, loses a fill", loses and event == LOSES)
            or choice("may do: searching, begins a fill", begins and event == OPEN_FILL)
        )
    if stage == CLOSING_FILLS:
        return clause("may do: closing, closes", event == CLOSES)
    return stage == ASKING and clause("may do: asking, finds the wish", event == WISHED)


def finds(s, below, fill, search):
    """What a search for the fill to begin may find in one step: the stages to which it leads."""
    full = s.window.opened == s.window.head + s.pages
    if search == TO_LOOK:
        if clause("finds: to look, the ring is full", full):
            yield searching(fill, TO_LOSE)
        if clause("finds: to look, the ring isn't full", not full):
            moved = is_moved_for(fill, below)
            if clause("finds: to look, none moves", not moved):
                yield searching(fill, to_begin(0))
            if clause("finds: to look, a frame below moves", moved):
                yield searching(fill, to_begin(2))
    elif search == TO_LOSE:
        if clause("finds: to lose, the ring isn't full", not full):
            yield searching(fill, TO_LOOK)
    elif search.left:
        if choice("finds: to begin, it helps", True):
            yield searching(fill, to_begin(search.left - 1))
        if choice("finds: to begin, a frame helped", True):
            yield searching(fill, to_begin(0))


def may_pass(s, below, payload, stage):
    """The stages to which a step without an event may lead."""
    if stage == RESTING:
        needs = clause("may pass: resting, needs a fill", is_fill_needed(s))
        if needs and clause("may pass: resting, can have one", not has_no_fill(s)):
            yield searching(s.window.opened, TO_LOOK)
    elif stage.name == "searching":
        if clause("may pass: searching, another frame began the fill", stage.fill != s.window.opened):
            yield at_rest(s.window, below, payload)
        if clause("may pass: searching, for this fill", stage.fill == s.window.opened):
            yield from finds(s, below, stage.fill, stage.search)
    elif stage.name == "moving":
        if stage.left:
            if choice("may pass: moving, it moves", True):
                yield moving(stage.fill, stage.left - 1)
            if choice("may pass: moving, a frame helped", True):
                yield moving(stage.fill, 0)
        else:
            yield searching(stage.fill, to_begin(0))
    elif stage == ASKING and clause("may pass: asking, finds no wish", not is_wish_to_find(s)):
        if clause("may pass: asking, more are to close", s.window.done + 1 < s.window.opened):
            yield CLOSING_FILLS
        if clause("may pass: asking, none is to close", s.window.done + 1 == s.window.opened):
            yield OFF


def stepped(w, below, frame, event):
    after = frame_after(frame, event)
    return after._replace(stage=stage_after(w, below, after.payload, event))


def one_step(script, asked, below, ring, frame):
    """All that one step of the frame may do: its events, those of the ring then, and the frame then."""
    s = situation_after(script, asked, ring)
    for stage in dict.fromkeys(may_pass(s, below, frame.payload, frame.stage)):
        yield (), ring, frame._replace(stage=stage)
    for event in events_for(frame):
        if is_own(below, frame, event) and may_do(s, frame.stage, event) and is_due(s, event):
            after = ring.then(event)
            yield (event,), after, stepped(after.window, below, frame, event)


def steps_top(script, count, before):
    if not before.frames:
        yield from is_idle(before)
        return
    top, *below = before.frames
    below, on_stack = tuple(below), {((), before.events, top): None}
    for _ in range(count):
        found = {}
        for own, ring, frame in on_stack:
            for event, after, moved in one_step(script, before.wish, below, ring, frame):
                if moved.stage == OFF:
                    yield (*own, *event), with_own(before, (*own, *event), below)
                elif not is_enough(found):
                    found[(*own, *event), after, moved] = None
        on_stack = found
        if not on_stack:
            return
    for own, _, frame in on_stack:
        yield own, with_own(before, own, (frame, *below))


def finishes_top(script, before):
    if not before.frames:
        yield from is_idle(before)
        return
    top, *below = before.frames
    below = tuple(below)
    for own, after in does(script, before, (), below, top):
        s = situation_after(script, before.wish, before.events.then_all(own))
        if clause("finishes top: it has gone", has_gone(s, below, after)):
            yield own, with_own(before, own, below)


def writes_whole(script, refused, event, payload, before):
    if clause("writes whole: refuses what is refused", refused):
        yield from is_idle(before)
    if clause("writes whole: writes what isn't refused", not refused):
        for own, after in does(script, before, (event,), before.frames, new_frame(payload)):
            s = situation_after(script, before.wish, before.events.then_all(own))
            if clause("writes whole: it has gone", has_gone(s, before.frames, after)):
                yield own, with_own(before, own, before.frames)


# ---- the reader


def at_hint(pages, w, hint):
    """The fill that is at the position of the hint."""
    return w.head + (hint - w.head) % pages


def is_moved_to(pages, w, frames):
    return is_moved_for(w.head + pages - 1, frames)


def goes_on(pages, before):
    """What may be after a step of a take that isn't its last."""
    w = before.events.window
    if before.take == TO_FIND:
        fill = at_hint(pages, w, before.hint)
        if clause("goes on: at the oldest fill", fill == w.head):
            yield before._replace(take=TO_SEE, hint=w.head)
        later = choice("goes on: at a later fill", w.head < fill) or choice(
            "goes on: at a fill that is moved to", is_moved_to(pages, w, before.frames)
        )
        unmoved = clause("goes on: no frame moves the head from here", not is_moved_for(fill, before.frames))
        if clause("goes on: the hint is below", before.hint < fill) and later and unmoved:
            yield before._replace(hint=fill + 1 - pages)
    elif before.take == TO_SEE:
        if clause("goes on: the oldest is closed", before.hint < w.done):
            yield before._replace(take=TO_PREPARE, seen=w.done)
    elif before.take == TO_PREPARE:
        yield before._replace(take=TO_TAKE)
    elif clause("goes on: the oldest was lost", before.hint != w.head):
        yield before._replace(take=TO_FIND, hint=before.hint + 1)


def ends_take(pages, before):
    """What the last step of a take may add, and what is after it."""
    w = before.events.window
    if before.take == TO_FIND:
        fill = at_hint(pages, w, before.hint)
        if clause("ends take: a frame moves the head from here", is_moved_for(fill, before.frames)):
            yield (), before._replace(hint=fill + 1 - pages)
        if clause("ends take: the hint is the oldest", before.hint == w.head) and clause(
            "ends take: a frame moves the head to it", is_moved_to(pages, w, before.frames)
        ):
            yield (), before
    elif before.take == TO_SEE:
        if clause("ends take: the oldest isn't closed", w.done <= before.hint):
            yield (), before._replace(take=TO_FIND, seen=w.done)
    elif before.take == TO_TAKE and clause("ends take: the oldest wasn't lost", before.hint == w.head):
        yield (TAKES,), before._replace(events=before.events.then(TAKES), take=TO_FIND, hint=before.hint + 1)


def reads_on(pages, before):
    """All that may be after each number of steps of a take, none of them its last."""
    found = [[before]]
    for states in found:
        yield states
        after = list(dict.fromkeys(after for state in states for after in goes_on(pages, state)))
        if after and not is_enough(found):
            found.append(after)


def takes_page(pages, before):
    for states in reads_on(pages, before):
        for state in states:
            yield from ends_take(pages, state)


def steps_reader(pages, count, before):
    for made, states in enumerate(reads_on(pages, before)):
        if made == count:
            yield from (((), state) for state in states)
        if not clause("steps reader: ends before", made < count):
            return
        for state in states:
            yield from ends_take(pages, state)


def asks(before):
    yield (), before._replace(wish=before.seen + 1)


def at_cpu(cpu, at, part, before):
    if clause("at: the CPU", at == cpu):
        yield from part
    if clause("at: another CPU", at != cpu):
        yield from is_idle(before)


def part_of(script, command, before):
    """What the line does on its CPU."""
    name, payload = command.name, command.payload
    refused = is_refused(script.size, command.moment, len(payload), before.frames)
    if name == "begin_frame":
        return begins(refused, push(command.moment, len(payload)), payload, before)
    if name == "step_frame":
        return steps_top(script, command.count, before)
    if name == "finish_frame":
        return finishes_top(script, before)
    if name == "write":
        return writes_whole(script, refused, push(command.moment, len(payload)), payload, before)
    if name == "close":
        too_deep = choice("close is refused: too deep", MAX_FRAMES <= len(before.frames))
        return writes_whole(script, too_deep, PUSH_CLOSE, b"", before)
    if name == "step_reader":
        return steps_reader(script.pages, command.count, before)
    if name == "take_page":
        return takes_page(script.pages, before)
    return asks(before)


def adds(script, cpu, command, before):
    if command.name == "deliver":
        return is_idle(before)
    return at_cpu(cpu, command.cpu, part_of(script, command, before), before)


def are_due(script, before, own):
    rings = (before.events.then_all(own[:at]) for at in range(len(own)))
    return all(is_due(situation_after(script, before.wish, ring), event) for ring, event in zip(rings, own))


def is_line(script, cpu, command, before):
    """All states that may be after the line."""
    return dict.fromkeys(after for own, after in adds(script, cpu, command, before) if are_due(script, before, own))


class Account(NamedTuple):
    """Accounts of a CPU that end in one state, and have the same fills delivered: how many, and the states of one."""

    count: int
    states: tuple
    delivered: tuple


def is_account(script, cpu):
    """All accounts of the CPU."""
    accounts = [Account(1, (new_cpu(script.start),), ())]
    for _, command in script.commands:
        found = {}
        for account in accounts:
            before = account.states[-1]
            delivered = account.delivered + delivers(cpu, command, before)
            for after in is_line(script, cpu, command, before):
                if is_enough(found):
                    break
                others = found[after, delivered].count if (after, delivered) in found else 0
                found[after, delivered] = Account(account.count + others, (*account.states, after), delivered)
        accounts = list(found.values())
    return accounts


# ---- Shown.antt


class Line(NamedTuple):
    moment: int
    cpu: int
    number: int
    payload: bytes


class Shown(NamedTuple):
    """Of one CPU: its lines, and the numbers that are missing."""

    lines: tuple
    missing: tuple


def stands_in(history, start, fill, number):
    return clause("stands in: from its first", first_of_fill(history, start, fill) <= number) and clause(
        "stands in: below the next", number < first_of_fill(history, start, fill + 1)
    )


def is_overwritten_before(ring, start, fill, number):
    last_taken = max((taken for taken in ring.taken if taken < fill), default=-1)
    return any(
        clause("is overwritten: stands in it", stands_in(ring.history, start, lost, number))
        and clause("is overwritten: before", lost < fill)
        and clause("is overwritten: behind what is taken", last_taken < lost)
        for lost in ring.lost
    )


def is_shown_of(start, cpu, ring, fills):
    history, lines, missing = ring.history, [], []
    for number, record in enumerate(history.records):
        is_line = clause("is shown: committed", number < history.committed) and clause(
            "is shown: in a fill", any(stands_in(history, start, fill, number) for fill in fills)
        )
        if is_line:
            lines.append(Line(record.moment, cpu, number, record.as_record()))
        if any(is_overwritten_before(ring, start, fill, number) for fill in fills):
            missing.append(number)
    return Shown(tuple(lines), tuple(missing))


def delivers(cpu, command, before):
    """The collector and the fill, if the line delivers one of this CPU that was taken before."""
    if (command.name, command.cpu) != ("deliver", cpu):
        return ()
    was_taken = clause("delivers: was taken", command.fill in before.events.taken)
    return ((command.collector, command.fill),) if was_taken else ()


def is_accounted(script):
    """Of each CPU all that the collectors may show of it, each with the accounts that it is of."""
    of_cpus = []
    for cpu in range(script.cpus):
        shown = {}
        for account in is_account(script, cpu):
            ring, collectors = account.states[-1].events, range(script.collectors)
            fills = [[fill for at, fill in account.delivered if at == collector] for collector in collectors]
            each = tuple(is_shown_of(script.start, cpu, ring, own) for own in fills)
            shown.setdefault(each, []).append(account)
        of_cpus.append(shown)
    return of_cpus


def runs_of(numbers):
    runs = []
    for number in numbers:
        first = runs.pop()[0] if runs and runs[-1][1] + 1 == number else number
        runs.append((first, number))
    return runs


def printed_world(script, shown):
    """The collectors without the log, by what each shows of each CPU."""
    text = ""
    for collector in range(script.collectors):
        text += f"collector {collector}\n"
        for line in sorted(line for of_cpu in shown for line in of_cpu[collector].lines):
            text += f"{line.cpu} {line.number} {line.moment} {line.payload.hex()}\n"
        for cpu, of_cpu in enumerate(shown):
            text += "".join(f"missing {cpu} {first}-{last}\n" for first, last in runs_of(of_cpu[collector].missing))
    return text
