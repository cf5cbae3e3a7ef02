"""Reads a script, after docs/formats/program.md, "Script"."""

import re
from typing import NamedTuple

LINK_FILLS = 1 << 48
# The lines of a header: their words, and the least and the greatest value of each; a size is a multiple of 4.
HEADER = (("pages", 2, 1024), ("size", 32, 65_520), ("cpus", 1, 256), ("collectors", 1, 16))
# The commands of a CPU by their words, each with the names of its other fields.
WORDS = {
    "b": ("begin_frame", "moment", "payload"),
    "s": ("step_frame", "count"),
    "f": ("finish_frame",),
    "w": ("write", "moment", "payload"),
    "c": ("close",),
    "r": ("step_reader", "count"),
    "t": ("take_page",),
    "a": ("wish",),
}
MOST_STEPS = 1_000_000


class Unreadable(Exception):
    """A text is no script: where it is at fault."""


class Command(NamedTuple):
    """What a line asks for. Of the fields behind `cpu` those count that it spells."""

    name: str
    cpu: int
    moment: int = 0
    payload: bytes = b""
    count: int = 0
    collector: int = 0
    fill: int = 0


class Script(NamedTuple):
    """commands: each with the number of its line."""

    pages: int
    size: int
    cpus: int
    collectors: int
    start: int
    commands: tuple


def number_in(field):
    """The number that a field spells."""
    if not re.fullmatch(r"[0-9]{1,20}", field) or int(field) >= 1 << 64:
        raise ValueError
    return int(field)


def number_from(least, most, field):
    value = number_in(field)
    if not least <= value <= most:
        raise ValueError
    return value


def payload_in(field):
    if not re.fullmatch(r"-|(?:[0-9a-fA-F]{2})+", field):
        raise ValueError
    return bytes.fromhex(field.strip("-"))


def cpu_in(cpus, field):
    if not field.startswith("c"):
        raise ValueError
    return number_from(0, cpus - 1, field[1:])


def setting_in(word, least, most, text):
    found, field = text.split(" ")
    value = number_from(least, most, field)
    if found != word or (word == "size" and value % 4):
        raise ValueError
    return value


def command_in(cpus, collectors, text):
    first, second, *rest = text.split(" ")
    if first == "d":
        collector, (at, fill) = number_from(0, collectors - 1, second), rest
        return Command("deliver", cpu_in(cpus, at), collector=collector, fill=number_in(fill))
    name, *fields = WORDS[second]
    read = {"moment": number_in, "payload": payload_in, "count": lambda field: number_from(1, MOST_STEPS, field)}
    values = {field: read[field](value) for field, value in zip(fields, rest, strict=True)}
    return Command(name, cpu_in(cpus, first), **values)


def read_line(line, reading, *arguments):
    number, text = line
    try:
        return reading(*arguments, text)
    except (ValueError, KeyError):
        raise Unreadable(f"line {number} is no line of a script") from None


def significant_lines(text):
    """The lines that count, with their numbers."""
    return [(number, line) for number, line in enumerate(text.split("\n"), 1) if line and not line.startswith("#")]


def read_script(text):
    """The script that a text spells."""
    lines = significant_lines(text)
    values = [read_line(line, setting_in, *setting) for line, setting in zip(lines, HEADER)]
    if len(values) < len(HEADER):
        raise Unreadable("the header isn't whole")
    pages, size, cpus, collectors = values
    rest, start = lines[len(HEADER) :], 0
    if rest and re.fullmatch("start [^ ]+", rest[0][1]):
        start = read_line(rest[0], setting_in, "start", 0, LINK_FILLS - 1 - pages)
        rest = rest[1:]
    commands = tuple((line[0], read_line(line, command_in, cpus, collectors)) for line in rest)
    return Script(pages, size, cpus, collectors, start, commands)
