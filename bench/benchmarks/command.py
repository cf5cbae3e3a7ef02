"""The command `./tracering`: what it adds to a run of the program, by looking whether a source has changed

A script of the examples, replayed 100 times in a row; the least of five rounds.
"""

import subprocess
import time

from lib import tables
from lib.programs import TOP, tracering

NEEDS = ("rt",)
CALLS, ROUNDS = 100, 5
SCRIPT = TOP / "examples/flight_recorder.trace"


def milliseconds(program):
    """What a call takes, in the quickest round."""
    rounds = []
    for _ in range(ROUNDS):
        begun = time.monotonic()
        for _ in range(CALLS):
            with open(SCRIPT, "rb") as source:
                subprocess.run([program, "replay"], stdin=source, stdout=subprocess.DEVNULL, check=True)
        rounds.append((time.monotonic() - begun) / CALLS)
    return 1_000 * min(rounds)


def run(_folder):
    program = tracering()
    yield from tables.head("What", "Milliseconds")
    yield tables.line(["a call of `./tracering`", f"{milliseconds(TOP / 'tracering'):.1f}"])
    yield tables.line(["the program itself", f"{milliseconds(program):.1f}"])
