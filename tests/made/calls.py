"""The worked calls of the program, in calls.txt of the folders of examples/: each with its words, its standard input, and
what it has to answer. The head of examples/calls.txt says how they are written.
"""

import re
import sys
from dataclasses import dataclass
from pathlib import Path

TOP = Path(__file__).resolve().parents[2]
EXAMPLES = TOP / "examples"
FOLDERS = (EXAMPLES, *(EXAMPLES / name for name in ("kernel_pages", "fields", "parts", "streams", "recover")))
FAULT = re.compile(rb"(line \d+|image): ")
ESCAPES = {b"n": b"\n", b"r": b"\r", b"t": b"\t", b"\\": b"\\", b"\"": b"\""}
ESCAPE = re.compile(rb"\\(?:x(..)|(.))", re.DOTALL)
REPEATED = re.compile(r"\{([^{}]*)\*(\d+)\}")
# The text of `--help`, as the code has it.
HELP = re.search(r'(?s)HELP: &str = "\\\n(.*?)";', (TOP / "crates/command_line/src/usage.rt").read_text())[1].encode()
QUOTED = re.compile(r'"((?:[^"\\]|\\.)*)"')
# The words of a call, and files as its standard input and output.
ASKED = re.compile(r"(.*?)(?:(?:^| )< (\S+))?(?:(?:^| )> (\S+))?")


@dataclass
class Call:
    """A call from `folder`. `given` is its standard input, or the path of that; if `sink` isn't None, standard output is
    that path. `wanted` is what must be on standard output, `errors` on standard error, and `kept` the name of the file
    that KEPT has to be equal to. `source` is where the call is written."""

    source: str
    folder: Path
    words: list
    given: bytes | Path = b""
    sink: str | None = None
    wanted: bytes = b""
    status: int = 0
    errors: bytes = b""
    kept: str | None = None
    # The name of the file of which `wanted` is, if it is one's.
    stored: str | None = None

    def data(self):
        """What is on standard input, or None if it isn't a file's bytes."""
        if isinstance(self.given, bytes):
            return self.given
        return self.given.read_bytes() if self.given.is_file() else None


# ---- texts


def escaped_bytes(text):
    """The bytes of a text with escapes."""

    def byte(found):
        return bytes.fromhex(found[1].decode()) if found[1] else ESCAPES[found[2]]

    return ESCAPE.sub(byte, text.encode())


def repeated_bytes(text, read):
    """The bytes that `read` gives for the text, and where `{X*N}` is, N times those of X."""
    data, end = b"", 0
    for found in REPEATED.finditer(text):
        data += read(text[end : found.start()]) + read(found[1]) * int(found[2])
        end = found.end()
    return data + read(text[end:])


def input_bytes(text):
    """The bytes of an input: texts in quotes, and bytes in hexadecimal."""
    data, end = b"", 0
    for found in QUOTED.finditer(text):
        data += repeated_bytes(text[end : found.start()], bytes.fromhex)
        data += repeated_bytes(found[1], escaped_bytes)
        end = found.end()
    return data + repeated_bytes(text[end:], bytes.fromhex)


# ---- calls


class Table:
    """Reads a file of calls, line by line."""

    def __init__(self, folder, usage):
        self.folder, self.usage, self.calls = folder, usage, []
        self.words, self.front, self.whole, self.open = [], b"", b"", None
        path = folder / "calls.txt"
        for number, line in enumerate(path.read_text().splitlines(), 1):
            self.source = f"{path.relative_to(TOP)}:{number}"
            self.take(line)

    def take(self, line):
        first, _, rest = line.partition(" ")
        if not line or first.startswith("#"):
            self.open = None
        elif first == "$":
            self.add_call(*line[1:].partition(" => "))
        elif self.open:
            self.take_answer(first, rest, line)
        elif first == "usage:":
            self.usage = f"{line}\n".encode()
        elif first == "run":
            self.words = rest.split()
        elif first == "front":
            self.front = input_bytes(rest)
        elif first == "whole":
            self.whole = input_bytes(rest)
        else:
            self.add_rows(*line.partition(" => "))

    def add_call(self, asked, arrow, answer):
        words, given, sink = ASKED.fullmatch(asked.strip()).groups()
        given = self.folder / given if given else self.front
        call = Call(self.source, self.folder, [escaped_bytes(word) for word in words.split()], given, sink)
        self.calls.append(call)
        if arrow:
            self.answer(call, answer)
        else:
            self.open = call

    def add_rows(self, asked, arrow, answer):
        if not arrow:
            sys.exit(f"{self.source}: a row has ' => ' and what must be printed")
        data = [self.front + input_bytes(asked)] if not asked.startswith("cut ") else self.cut(asked)
        for given in data:
            self.calls.append(Call(self.source, self.folder, [word.encode() for word in self.words], given))
            self.answer(self.calls[-1], answer)

    def cut(self, asked):
        low, high = map(int, asked.removeprefix("cut ").split(".."))
        return [self.whole[:length] for length in range(low, high + 1)]

    def answer(self, call, text):
        """What is wanted of a call, in one line."""
        kind, _, rest = text.partition(" ")
        if kind == "usage":
            cause = f"tracering: {rest}\n".encode() if rest else b""
            call.status, call.errors = 2, cause + self.usage
        elif text == "help":
            call.wanted = HELP
        elif kind == "!":
            status, _, line = rest.partition(" ")
            call.status, call.errors = int(status), f"{line}\n".encode()
        elif kind == "file":
            call.stored, call.wanted = rest, (self.folder / rest).read_bytes()
        else:
            call.wanted = repeated_bytes(text, escaped_bytes) + b"\n"
        if FAULT.match(call.wanted):
            call.status = 1

    def take_answer(self, mark, rest, line):
        """A line below a call."""
        if mark == "!":
            self.open.errors += f"{rest}\n".encode()
        elif mark == "=":
            self.open.status = int(rest)
        elif mark == ">":
            self.open.kept = rest
        else:
            self.open.wanted += f"{line}\n".encode()


def read_calls():
    """All calls, in the order of FOLDERS."""
    calls, usage = [], b""
    for folder in FOLDERS:
        table = Table(folder, usage)
        calls, usage = calls + table.calls, table.usage
    return calls
