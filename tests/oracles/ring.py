"""A plain ring, to compare with `rows`: it keeps whole lists, and works out from them what the rules of
docs/formats/ring.md, "The ring", say. The program asks the ring as a value and the two ends of a running ring, so there
are two plain rings: the second makes a take whole with the step that ends it.
"""

import re
import subprocess
import sys
import tempfile

LINK_FILLS, MOMENT_LIMIT, MAX_FRAMES = 1 << 48, 1 << 59, 4
# From this distance between two moments on, a time extend is between their records.
EXTEND_FROM = 1 << 27
# The longest slot of the short form, in bytes.
SHORT_SLOT = 112
# How long one input of the program is, in bytes, and how long the program may run, in seconds.
INPUT, SECONDS = 800_000, 120


def slot_len(length):
    """How many bytes a payload takes: some, and whole words of four."""
    return (max(length, 1) + 3) // 4 * 4


def record_len(length, delta):
    """How many bytes a record takes, at this distance after the last one."""
    slot = slot_len(length)
    return slot + (4 if slot <= SHORT_SLOT else 8) + (0 if delta < EXTEND_FROM else 8)


class Record:
    def __init__(self, moment, length):
        self.moment, self.length, self.payload = moment, length, b""


class Frame:
    """A frame of the writer: of a record its moment and length, else None; the number of its record once it is
    reserved, or "left"; and how far it has come with the ring's words: a name, and what it has noted."""

    def __init__(self, record):
        self.record, self.state, self.phase = record, None, ("idle",)


class Plain:
    """The plain ring. Links are a mark, a page and a fill, by position."""

    def __init__(self, pages, size, start):
        self.pages, self.size, self.start = pages, size, start
        self.links = [None] * pages
        for fill in range(start, start + pages):
            self.links[fill % pages] = ("normal", fill % pages, fill)
        self.links[start % pages] = ("header", start % pages, start)
        self.order, self.spare, self.spare_link = list(range(pages)), pages, None
        self.done, self.opened, self.wish = start, start + 1, 0
        # The frames, the top one last; the records that are reserved; how many were when each fill was begun.
        self.frames, self.records, self.firsts = [], [], [0]
        self.hint = self.seen = start
        self.expected, self.reading, self.empty_at = 0, ("link",), None

    # ---- links

    def link(self, fill):
        return self.links[fill % self.pages]

    def exchange(self, fill, before, after):
        """Sets the link into the position of a fill if it is this one."""
        met = self.link(fill) == before
        if met:
            self.links[fill % self.pages] = after
        return met

    # ---- the writer

    def push(self, moment, length):
        if len(self.frames) >= MAX_FRAMES:
            return "refused TooDeep"
        if record_len(length, 0) > self.size:
            return "refused TooLong"
        if moment >= MOMENT_LIMIT:
            return "refused LateMoment"
        self.frames.append(Frame((moment, length)))
        return "pushed"

    def push_close(self):
        if len(self.frames) >= MAX_FRAMES:
            return "refused TooDeep"
        self.frames.append(Frame(None))
        return "pushed"

    def wanted(self):
        """The length of the payload that the frame on top waits for, if its record is reserved."""
        return self.frames[-1].record[1] if self.frames and isinstance(self.frames[-1].state, int) else None

    def end(self, payload):
        if not self.frames:
            return "refused NoFrame"
        if self.wanted() is None:
            return "refused NotReserved"
        self.records[self.frames[-1].state].payload = payload
        return "pending" if self.leave() == "gone" else "full"

    def leave(self):
        """The frame on top leaves: one with a frame below it is gone, and the bottom one stays."""
        if len(self.frames) > 1:
            self.frames.pop()
            return "gone"
        self.frames[0].state = "left"
        return self.close()

    def close(self):
        """The frame on top, which has left, closes fills, or if none is left to close looks for a wish."""
        return self.go_on("wishing" if self.done + 1 == self.opened else "releasing")

    def go_on(self, *phase):
        self.frames[-1].phase = phase
        return "going"

    def step(self):
        if not self.frames:
            return "refused NoFrame"
        name, *noted = self.frames[-1].phase
        # The frame that has set an UPDATE goes on, whatever was begun since.
        stays = name in ("idle", "clearing", "releasing", "wishing") or noted[0] == "owner"
        if not stays and noted[-1] != self.opened:
            return self.begin_again()
        return getattr(self, name)(*noted)

    def begin_again(self):
        """A fill was begun since the frame on top noted what to begin."""
        if self.frames[-1].state == "left":
            return self.close()
        return self.leave() if self.frames[-1].record is None else self.go_on("idle")

    def idle(self):
        top = self.frames[-1]
        if top.state is not None:
            return f"reserved {top.state}"
        held = self.records[self.firsts[-1] :]
        if top.record is None:
            return self.need_page() if held else self.leave()
        moment, length = top.record
        moment = max([moment] + [record.moment for record in self.records[-1:]])
        if sum(self.lengths(held + [Record(moment, length)])) > self.size:
            return self.need_page()
        top.state = len(self.records)
        self.records.append(Record(moment, length))
        return f"reserved {top.state}"

    @staticmethod
    def lengths(held):
        """How many bytes each of these records takes on a page of their own."""
        last = held[0].moment
        for record in held:
            yield record_len(record.length, record.moment - last)
            last = record.moment

    def need_page(self):
        if self.opened == self.done + self.pages:
            fault = "Crowded"
        elif LINK_FILLS <= self.opened + self.pages:
            fault = "Worn"
        else:
            return self.go_on("looking", self.opened)
        self.leave()
        return f"refused {fault}"

    def looking(self, noted):
        mark, page, _ = self.link(noted)
        if mark == "normal":
            return self.go_on("opening", page, noted)
        if mark == "header":
            return self.go_on("claiming", page, noted)
        return self.go_on("looking_next", "helper", page, noted)

    def claiming(self, page, noted):
        lost = noted - self.pages
        if self.exchange(noted, ("header", page, lost), ("update", page, lost)):
            return self.go_on("looking_next", "owner", page, noted)
        return self.go_on("looking", noted)

    def looking_next(self, role, page, noted):
        after = noted - self.pages + 1
        mark, next_page, fill = self.link(after)
        if (mark, fill) == ("normal", after):
            return self.go_on("marking", role, page, next_page, noted)
        return self.marked(role, page, noted)

    def marking(self, role, page, next_page, noted):
        after = noted - self.pages + 1
        self.exchange(after, ("normal", next_page, after), ("header", next_page, after))
        return self.marked(role, page, noted)

    def marked(self, role, page, noted):
        """The next head is marked: only the frame that set the UPDATE clears it."""
        return self.go_on("clearing" if role == "owner" else "opening", page, noted)

    def clearing(self, page, noted):
        self.links[noted % self.pages] = ("normal", page, noted)
        return self.go_on("opening", page, noted)

    def opening(self, _page, _noted):
        self.opened += 1
        self.firsts.append(len(self.records))
        return self.begin_again()

    def releasing(self):
        self.done += 1
        return self.close()

    def wishing(self):
        wished = self.wish == self.opened and self.firsts[-1] < len(self.records)
        if wished and self.opened + self.pages < LINK_FILLS:
            return self.go_on("looking", self.opened)
        if self.done + 1 < self.opened:
            return self.go_on("releasing")
        self.frames.pop()
        return "gone"

    # ---- calls of many steps

    def finish(self):
        """Steps of the frame on top until its record is reserved or refused; a frame without one is gone then."""
        depth, met = len(self.frames), None
        closes = depth > 0 and self.frames[-1].record is None
        while True:
            answer = self.step()
            if closes and answer.startswith("refused") and len(self.frames) == depth:
                met = met or answer
            elif answer != "going":
                return met or answer

    def write(self, moment, payload):
        depth, answer = len(self.frames), self.push(moment, len(payload))
        if answer != "pushed":
            return answer
        answer = self.finish()
        if answer.startswith("refused"):
            if len(self.frames) > depth:
                self.finish()
            return answer
        if self.end(payload) == "full":
            self.finish()
        return "written"

    # ---- the reader

    def ask(self):
        self.wish = self.seen + 1
        return f"wished {self.seen}"

    def read(self):
        """One step of the reader."""
        return getattr(self, f"read_{self.reading[0]}")(*self.reading[1:])

    def read_link(self):
        mark, page, fill = self.link(self.hint)
        if mark == "header":
            self.hint, self.reading = fill, ("done", page, fill)
        elif mark == "update" or fill == self.hint:
            self.hint = fill + 1 if mark == "update" else fill
            return f"moving {self.hint}"
        else:
            self.hint = fill + 1 - self.pages
        return "looking"

    def read_done(self, page, fill):
        self.seen, self.reading = self.done, ("store", page, fill)
        if self.done <= fill:
            self.reading = ("link",)
            return f"empty {self.done}"
        return "looking"

    def read_store(self, page, fill):
        self.spare_link = ("header", self.order[(fill + 1) % self.pages], fill + 1)
        self.reading = ("swap", page, fill)
        return "looking"

    def read_swap(self, page, fill):
        self.hint, self.reading = fill + 1, ("link",)
        if not self.exchange(fill, ("header", page, fill), ("normal", self.spare, fill + self.pages)):
            return "looking"
        at = (fill + 1) % self.pages
        self.links[at], self.spare_link = self.spare_link, self.links[at]
        self.order[fill % self.pages], self.spare = self.spare, page
        first, end = (self.firsts + [len(self.records)])[fill - self.start :][:2]
        missed, self.expected = first - self.expected, end
        return f"taken fill {fill} {self.page_text(first, end, f' missed {missed}')}"

    def take(self):
        answer = self.read()
        for _ in range(2 * self.pages + 7):
            if answer != "looking":
                break
            answer = self.read()
        return answer

    def page_text(self, first, end, more=""):
        lines = [f"first {first} count {end - first}{more}"]
        for record in self.records[first:end]:
            payload = record.payload.ljust(slot_len(record.length), b"\0")
            lines.append(f"  {record.moment} {payload_text(payload)}")
        return "\n".join(lines)

    # ---- what is asked

    def top(self):
        if not self.frames:
            return "refused NoFrame"
        return "refused NotReserved" if self.wanted() is None else f"{slot_len(self.wanted())} bytes"

    def depth(self):
        return str(len(self.frames))


def payload_text(data):
    """A payload as the program writes it: a long one as runs, and 28 bytes of one value in the form of a row."""
    if len(data) == 28 and len(set(data)) == 1:
        return f"A{data[0]}"
    if len(data) <= 28:
        return data.hex()
    runs = re.finditer(rb"(.)\1*", data, re.DOTALL)
    return "+".join(f"{run[1][0]}*{len(run[0])}" for run in runs)


class Ends(Plain):
    """The plain ring as the two ends of a running ring have it: a take ends by itself, and both ends are settled."""

    def take(self):
        answer = super().take()
        self.empty_at = int(answer.split()[1]) if answer.startswith("empty") else None
        return answer

    def settle(self):
        if self.frames or self.empty_at != self.done:
            return "refused"
        first, end = self.firsts[-1], len(self.records)
        return f"unread fill {self.done} {self.page_text(first, end)}" if first < end else "nothing unread"


class Value(Plain):
    """The plain ring as the ring as a value has it."""

    def settle(self):
        if self.frames or not self.take().startswith("empty"):
            return "refused"
        self.push_close()
        self.finish()
        answer = self.take()
        if not answer.startswith("taken"):
            return "nothing unread"
        return re.sub(r"^taken (.*) missed \d+", r"unread \1", answer)


def answer_of(rings, call, arguments):
    """What both rings answer. A running ring has no single steps of its reader."""
    call = "ask" if call == "wish" else call
    value = getattr(rings[0], call)(*arguments)
    if call == "read" and value == "looking":
        return value
    ends = getattr(rings[1], "take" if call == "read" else call)(*arguments)
    return value if value == ends else f"{value}\n  but the running ring: {ends}"


def line_of(rings, call, *arguments):
    """A line of a row: the event, and what is answered."""
    words = [call] + [word.hex() if isinstance(word, bytes) else str(word) for word in arguments]
    return f"{' '.join(words).rstrip()} -> {answer_of(rings, call, arguments)}"


def compare(program, rows, what):
    """Has the program answer rows of lines, many at a time."""
    lines, length = [], 0
    for row in rows:
        lines, length = lines + row, length + sum(map(len, row))
        if length >= INPUT:
            compare_text(program, "\n".join(lines) + "\n", what)
            lines, length = [], 0
    compare_text(program, "\n".join(lines) + "\n", what)


def compare_text(program, text, what):
    asked = re.sub(r"(?m) -> .*$|^  .*\n", "", text)
    # From a pipe the program would read one byte a call.
    with tempfile.TemporaryFile("w+") as given:
        given.write(asked)
        given.seek(0)
        ran = subprocess.run([program], stdin=given, capture_output=True, text=True, timeout=SECONDS, check=False)
    if (ran.returncode, ran.stdout) != (0, text):
        pairs = zip(text.splitlines(), ran.stdout.splitlines())
        wanted, found = next((pair for pair in pairs if pair[0] != pair[1]), ("all", f"status {ran.returncode}"))
        sys.exit(f"{what}: wanted {wanted!r}, and not {found!r}; {ran.stderr}")
