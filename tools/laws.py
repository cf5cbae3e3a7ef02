"""Reads the laws of the crates, for tools/where.

A law is a public function with an empty body in `src/laws.rt` or `src/laws/*.rt` of a crate: its contract is a
statement over definitions, and its doc comment is the one wording of it.
"""

import re
import sys
import textwrap
from pathlib import Path

TOP = Path(__file__).resolve().parent.parent
WIDTH = 120
CRATE = re.compile(r"^(\w+)[^:\n]*:", re.MULTILINE)
MODULE = re.compile(r"^pub mod (\w+);", re.MULTILINE)
LAW = re.compile(r"((?:^///[^\n]*\n)*)^pub fn (\w+)\(\)\n(.*?)^\{\}$", re.MULTILINE | re.DOTALL)
CLAUSE = re.compile(r"^    ensures\*? (\w+) \{", re.MULTILINE)


def law_files():
    """The files that have laws: by the order of crates.txt, of each crate as its src/laws.rt names them."""
    for crate in CRATE.findall((TOP / "crates.txt").read_text()):
        top = TOP / "crates" / crate / "src" / "laws.rt"
        if top.is_file():
            yield top
            yield from (top.parent / "laws" / f"{name}.rt" for name in MODULE.findall(top.read_text()))


def comment(lines, mark):
    """The text of the comment lines that begin with a mark, in one line."""
    return " ".join(line.removeprefix(mark).strip() for line in lines.splitlines() if line.startswith(mark))


def wrapped(text, further):
    return textwrap.fill(text, WIDTH, subsequent_indent=further, break_on_hyphens=False)


def law_text(path, found):
    """What is printed of a law: its name, the names of its clauses, and what its comment says."""
    words, name, contract = found
    said = " ".join(comment(words, "///").split())
    if not said.endswith("."):
        sys.exit(f"{path.relative_to(TOP)}: {name} has no comment that ends with a full stop")
    clauses = ", ".join(CLAUSE.findall(contract))
    return wrapped(f"{name}{f' ({clauses})' if clauses else ''}: {said}", "    ")


def laws():
    """Of each file with laws its path, what it is about, and the text of each law."""
    for path in law_files():
        text = path.read_text()
        found = [law_text(path, law) for law in LAW.findall(text)]
        if found:
            yield str(path.relative_to(TOP)), comment(text, "//!"), found
