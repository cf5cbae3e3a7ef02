"""Plain names beside numbers, to compare with the program's: what docs/formats says of them, in "Names of numbers" of
program.md, and of the kernel's lists of processes and of symbols, in "Texts of the kernel" of files.md.
"""

import re
from bisect import bisect_right

from oracles.fields import SIZES

LIMIT, MOST_ENTRIES, NEAR = 1 << 64, 4096, 256
CALL = re.compile(rb"__print_(flags|symbolic)\(")
# The field that a call prints: in brackets, and behind a cast, or neither.
ARGUMENT = re.compile(rb"[( ]*(?:(?P<cast>[A-Za-z0-9_ ]*)\)[( ]*)?REC->(?P<name>.*?)[) ]*", re.DOTALL)
DELIMITER = re.compile(rb'[, ]*"(?P<delimiter>[^"]*)"(?P<table>.*)', re.DOTALL)
ENTRY = re.compile(rb'[, ]*\{(?P<key>[^"]*),[) ]*"(?P<name>[^"\\]*)" *', re.DOTALL)
LITERAL = re.compile(rb"(?:0[xX](?P<hex>[0-9A-Fa-f]+)|(?P<octal>0[0-7]*)|(?P<decimal>[1-9][0-9]*))(?P<suffix>[uUlL]*)")
BASES = {"hex": 16, "octal": 8, "decimal": 10}
OPERAND = re.compile(rb"(?P<front>.*?)(?P<opening>[( ]*)(?P<word>[A-Za-z0-9_]*)(?P<closing>[) ]*)", re.DOTALL)
CAST = re.compile(rb"[( ]*([A-Za-z0-9_ ]*)")
FUNCTION = re.compile(rb"([0-9A-Fa-f]+) [tTwW] ([^\0-\x20]+)")
PROCESS = re.compile(rb"([0-9]+) (.*)", re.DOTALL)
ADDRESSES = (b"ip", b"parent_ip", b"func")


class Unknown(Exception):
    """A text isn't a constant that can be known."""


# ---- names


class Label:
    """A name of a number."""

    def __init__(self, name):
        self.name = name

    def shown(self, json, quoted):
        """In quotes; in a line of text as it is, if its bytes are printable, and none ends or joins names."""
        plain = all(33 <= byte <= 126 and byte not in b'"\\|:' for byte in self.name)
        return self.name if plain and not json else quoted(self.name)


class Bits:
    """Bits of a number that have no name."""

    def __init__(self, number):
        self.number = number

    def shown(self, json, _quoted):
        return b'"0x%x"' % self.number if json else b"0x%x" % self.number


class Place:
    """A function that an address is in, and how many bytes behind its beginning the address is."""

    def __init__(self, name, offset):
        self.name, self.offset = name, offset

    def shown(self, json, quoted):
        if json:
            return quoted(self.name)[:-1] + b'+0x%x"' % self.offset
        return Label(self.name).shown(False, quoted) + b"+0x%x" % self.offset


# ---- constants of C


def type_size(text):
    """How many bytes a type has, or None."""
    return SIZES.get(tuple(word for word in text.split(b" ") if word not in (b"", b"const", b"volatile")))


def literal(text):
    """A number, and the greatest one of its type."""
    found = LITERAL.fullmatch(text)
    if not found:
        raise Unknown(text)
    number = next(int(found[name], base) for name, base in BASES.items() if found[name])
    if number >= LIMIT:
        raise Unknown(text)
    suffix = found["suffix"].lower()
    bits = (64 if b"l" in suffix else 32) - (b"u" not in suffix)
    return number, (1 << bits) - 1


def is_narrow(casts):
    """Whether one of the casts before a number is to a type of four bytes."""
    if not casts:
        return False
    if not casts.endswith(b")"):
        raise Unknown(casts)
    sizes = []
    for cast in casts[:-1].split(b")"):
        found = CAST.fullmatch(cast)
        sizes.append(found and type_size(found[1]))
    if not all(size in (4, 8) for size in sizes):
        raise Unknown(casts)
    return 4 in sizes


def term(text):
    """A number, which may be shifted, and whether a cast before it is to a type of four bytes."""
    number, shift, count = text.partition(b"<")
    found = OPERAND.fullmatch(number)
    value, greatest = literal(found["word"])
    narrow = is_narrow(found["front"])
    if not shift:
        return value, narrow
    by = OPERAND.fullmatch(count[1:])
    bits, _ = literal(by["word"])
    # Brackets that are closed behind a number were opened right before it, and those before the count are closed.
    is_own = found["closing"].count(b")") <= found["opening"].count(b"(")
    is_closed = by["opening"].count(b"(") <= by["closing"].count(b")")
    is_shift = count.startswith(b"<") and not by["front"] and is_own and is_closed
    if not is_shift or bits >= 64 or value << bits > greatest:
        raise Unknown(text)
    return value << bits, narrow


def positive(text):
    """Numbers whose bits are joined."""
    terms = [term(part) for part in text.split(b"|")]
    value = 0
    for bits, _ in terms:
        value |= bits
    if any(narrow for _, narrow in terms) and value >= 1 << 31:
        raise Unknown(text)
    return value


def negative(text):
    """A number below zero, as 64 bits."""
    inner = text.rstrip(b") ").lstrip(b"( ")
    if not inner.startswith(b"-"):
        raise Unknown(text)
    value, greatest = literal(inner[1:].lstrip(b"( "))
    if greatest != (1 << 31) - 1 or not 0 < value <= greatest:
        raise Unknown(text)
    return LIMIT - value


def key(text):
    """The constant that a text is."""
    try:
        return positive(text)
    except Unknown:
        return negative(text)


# ---- tables


def print_format(text):
    """What is behind `print fmt: ` in the first line that begins with it."""
    for line in text.split(b"\n"):
        if line.startswith(b"print fmt: "):
            return line.removeprefix(b"print fmt: ")
    return None


def cut_near(text, byte):
    """What is before the first of a byte, and what is after it, if it is near."""
    at = text.find(byte, 0, NEAR)
    return None if at < 0 else (text[:at], text[at + 1 :])


def call_of(kind, arguments, name):
    """The kind of a table and its text, if these arguments begin with the field of this name."""
    cut = cut_near(arguments, b",")
    found = ARGUMENT.fullmatch(cut[0]) if cut else None
    if not found or found["name"] != name or found["cast"] is not None and type_size(found["cast"]) != 8:
        return None
    if kind == b"symbolic":
        return kind, cut[1]
    quoted = DELIMITER.fullmatch(cut[1])
    if not quoted or len(quoted["delimiter"]) >= NEAR or b"\\" in quoted["delimiter"]:
        return None
    return kind, quoted["table"]


def entries_of(text):
    """The entries of a table, its keys and names, or None."""
    entries = []
    for part in text.split(b"}"):
        if part.lstrip(b", ").startswith(b")"):
            return entries
        found = ENTRY.fullmatch(part)
        if not found or len(entries) == MOST_ENTRIES:
            return None
        try:
            entries.append((key(found["key"]), found["name"]))
        except Unknown:
            return None
    return None


class Table:
    """The names of a field's numbers."""

    def __init__(self, kind, entries):
        self.is_flags, self.entries = kind == b"flags", entries

    def names(self, number):
        """The names of a number, as 64 bits, and the bits that have none behind them."""
        number %= LIMIT
        if not self.is_flags:
            return [Label(name) for bits, name in self.entries if bits == number][:1]
        names = []
        for bits, name in self.entries:
            if number and number & bits == bits:
                names.append(Label(name))
                number &= ~bits
        return names + [Bits(number)] if names and number else names


def table_of(text, name):
    """The table of the field of this name, by the format's text: that of the only call which prints it by names."""
    line = print_format(text)
    if line is None:
        return None
    found = (call_of(call[1], line[call.end() :], name) for call in CALL.finditer(line))
    calls = [call for call in found if call]
    if len(calls) != 1:
        return None
    entries = entries_of(calls[0][1])
    return None if entries is None else Table(calls[0][0], entries)


# ---- lists of the kernel


def tasks_of(texts):
    """The names of processes: of several of one process the last."""
    names = {}
    for line in (line for text in texts for line in text.split(b"\n")):
        found = PROCESS.fullmatch(line)
        if found and int(found[1]) < 1 << 31:
            names[int(found[1])] = found[2]
    return names


class Symbols:
    """The functions of the kernel by their addresses: of several at one address the first."""

    def __init__(self, texts):
        names = {}
        for line in (line for text in texts for line in text.split(b"\n")):
            found = FUNCTION.match(line)
            if found and 0 < int(found[1], 16) < LIMIT:
                names.setdefault(int(found[1], 16), found[2])
        self.places, self.found = sorted(names), names

    def names(self, number):
        """The function that an address is in, if there is one: that whose address is the greatest of those up to it."""
        number %= LIMIT
        at = bisect_right(self.places, number)
        if not at:
            return []
        start = self.places[at - 1]
        return [Place(self.found[start], number - start)]
