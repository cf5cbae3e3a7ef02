"""Random and forged files of trace-cmd, which are read as a plain reader reads them.

Made files are cut at every byte, each byte of them is set to another value, and numbers in them are changed. Each FILE
that is named is read as it is.
"""

import random
import subprocess
import sys
from collections import Counter
from pathlib import Path

from made.trace_dat import Source
from oracles.trace_dat import answer

# How many files of each version are made, and how many changes of numbers are tried in each.
FILES, CHANGES = 16, 400
# How often each of these answers comes at least.
OFTEN = 10
ANSWERS = ["format", "event", "buffer", "pages", "counters"]
CAUSES = ["Cut", "NotTraceDat", "BadVersion", "OtherMachine", "Compressed", "Misplaced", "OutsideFile", "Backward"]
# The line that begins a row of files.
ROW = "[random] files"


def answers_to(program, files):
    """What the program answers to files, if it is what the plain reader answers."""
    asked, wanted = [f"file {file.hex()}" for file in files], [answer(file) for file in files]
    text = "\n".join([ROW, *asked, ""])
    done = subprocess.run([program], input=text.encode(), stdout=subprocess.PIPE, check=True)
    answered = ("\n".join([line, *lines, ""]) for line, lines in zip(asked, wanted))
    expected = f"{ROW}\n" + "".join(answered)
    if done.stdout.decode() == expected:
        return [line.split()[-2 if "fault" in line else 0] for lines in wanted for line in lines]
    for line, lines in zip(asked, wanted):
        text = f"{ROW}\n{line}\n"
        got = subprocess.run([program], input=text.encode(), stdout=subprocess.PIPE, check=False).stdout
        if got.decode().splitlines()[2:] != lines:
            sys.exit("\n".join([f"random: {line}", "wanted", *lines, "got", got.decode()]))
    sys.exit("random: files are answered otherwise if they are asked together")


def tries_of(source, file):
    """The file, and what is made of it."""
    chance = source.chance
    yield file
    yield from (file[:end] for end in range(1, len(file)))
    yield from (file[:at] + bytes([chance.randrange(256)]) + file[at + 1 :] for at in range(len(file)))
    yield from (source.changed(file) for _ in range(CHANGES))


def tried(program, seed=1, *names):
    source, seen = Source(random.Random(seed)), Counter()
    answers_to(program, [Path(name).read_bytes() for name in names])
    for make in source.six, source.seven:
        for _ in range(FILES):
            seen.update(answers_to(program, [*tries_of(source, make())]))
    rare = [word for word in ANSWERS + CAUSES if seen[word] < OFTEN]
    if rare:
        sys.exit(f"random: too few of {' '.join(rare)}")
    return f"{sum(seen.values())} answers to files of trace-cmd are those of the plain reader"
