"""Finds what comes late in a text that `tracering collect --follow` printed: the records that stand behind a line
`late CPU NUMBER`, since they came after their place by time."""

import re
import shutil
import tempfile

# Bytes that are read at once.
PIECE = 1 << 20
LATE = rb"late (\d{1,3}) (\d{1,20})\n"
LATE_JSON = rb'\{"cpu":(\d{1,3}),"late":(\d{1,20})\}\n'
LINE = re.compile(LATE + rb"|" + LATE_JSON)
# Such a line, and the one below it.
ANNOUNCED = re.compile(rb"^(?:" + LATE + rb"|" + LATE_JSON + rb")(.*\n)", re.MULTILINE)
# A text without these has no such line.
SIGNS = b"late ", b'"late":'


def readable_twice(file):
    """The file; a copy of what is left of it, if it is one that can be read only once."""
    if file.seekable():
        return file
    copy = tempfile.TemporaryFile()
    shutil.copyfileobj(file, copy, PIECE)
    copy.seek(0)
    return copy


def announced(file):
    """Of each line that says what comes late: the number of the line below it, its words, and that line. The file is
    then where it was before."""
    begin, line, rest = file.tell(), 1, b""
    while data := file.read(PIECE):
        data = rest + data
        end = end_of_pairs(data)
        yield from announced_in(data[:end], line)
        line += data.count(b"\n", 0, end)
        rest = data[end:]
    yield from announced_in(rest, line)
    file.seek(begin)


def end_of_pairs(data):
    """Where whole lines end; before the last one of these, if it announces the line below it."""
    end = data.rfind(b"\n") + 1
    last = data.rfind(b"\n", 0, max(0, end - 1)) + 1
    return last if LINE.match(data, last) else end


def announced_in(data, line):
    """The same of whole lines, of which the first one has this number."""
    if not any(sign in data for sign in SIGNS):
        return
    at = 0
    for found in ANNOUNCED.finditer(data):
        line += data.count(b"\n", at, found.start(5))
        at = found.start(5)
        cpu, number, json_cpu, json_number, below = found.groups()
        yield line, (int(cpu or json_cpu), int(number or json_number)), below
