"""The worked rows, which are in crates/rows/stdout and nowhere else, by their kinds."""

from pathlib import Path

TEXT = Path(__file__).resolve().parents[2] / "crates" / "rows" / "stdout"
# What the line that begins a row has after the row's name.
KINDS = {"rings": "] pages ", "collectors": "] collectors ", "files": "] files"}


def bare(text):
    """The text without its answers."""
    lines = [line.split(" -> ")[0] for line in text.splitlines() if not line.startswith("  ")]
    return "\n".join(lines) + "\n"


def rows_of(kind):
    """The rows of a kind, each with its answers."""
    rows = ["[" + row for row in ("\n" + TEXT.read_text()).split("\n[")[1:]]
    return [row.rstrip("\n") + "\n" for row in rows if KINDS[kind] in row.partition("\n")[0]]
