"""`tracering replay` on whole scripts: instructions, and memory

First ours and the rival print the same bytes and end with the same status on the scripts of examples/ and on 600 made
ones of all kinds of lines, a third of them cut or faulty.
"""

import random
import shutil
import tempfile
from pathlib import Path

from lib import count, scripts, tables
from lib.programs import Failure, rival, tracering
from made.calls import read_calls

NEEDS = ("rt", "rustc", "valgrind", "/usr/bin/time")
MADE, SEED = 600, 1
# How often the rival's instructions, and its memory, a record may take; and the instructions of some scripts.
INSTRUCTIONS, MEMORY = 1.1, 1.2
TIMES = {"writers three deep": INSTRUCTIONS, "64 CPUs, 4 collectors": 1.3}
# How often its own size any long script may take in memory.
MOST_MEMORY = 16


class Replays:
    def __init__(self, folder):
        self.folder, self.script = folder, folder / "script"
        self.programs = [tracering(), rival(folder, "replay")]

    def alike(self, script, words):
        """Replays the script by both, answers the most memory of each, and fails if they differ."""
        found, memory = [], []
        for at, program in enumerate(self.programs):
            output = self.folder / f"out{at}"
            status, most = count.most_memory([program, "replay", *words], script, output)
            found.append((status, output.read_bytes()))
            memory.append(most)
        if found[0] != found[1]:
            kept = Path(tempfile.gettempdir()) / "differs.trace"
            shutil.copy(script, kept)
            raise Failure(f"the two differ on {kept}, replayed with {words}")
        return memory

    def compare(self):
        """Replays the examples and the made scripts by both, and answers how many there are of each."""
        examples = 0
        for call in read_calls():
            if call.stored and call.words[0] == b"replay":
                self.alike(call.given, [word.decode() for word in call.words[1:]])
                examples += 1
        rng = random.Random(SEED)
        for _ in range(MADE):
            self.script.write_bytes(scripts.made_script(rng))
            self.alike(self.script, rng.choice([[], ["--log"], ["--log"]]))
        return examples, MADE

    def memory(self, make, records, words=()):
        """The most memory of each program, and the script's length."""
        self.script.write_bytes(make(records))
        return self.alike(self.script, words), self.script.stat().st_size

    def instructions(self, make, few):
        """For each program the instructions of each of `few` more, after `few` and after twice as many."""
        found = []
        for program in self.programs:
            counts = []
            for many in (few, 2 * few, 4 * few):
                self.script.write_bytes(make(many))
                counts.append(count.callgrind([program, "replay"], self.script))
            found.append(((counts[1] - counts[0]) / few, (counts[2] - counts[1]) / (2 * few)))
        return found


def by_payload(replays):
    yield from tables.compared_head("A record with a payload of")
    for length, few, records in scripts.PAYLOADS:
        make = lambda number, length=length: scripts.writes(number, length)
        (_, ours), (_, plain) = replays.instructions(make, few)
        yield tables.compared(f"{length:,} bytes: instructions", ours, plain, times=INSTRUCTIONS)
        ours, plain = (most / records for most in replays.memory(make, records)[0])
        yield tables.compared(f"{length:,} bytes: bytes of memory", ours, plain, times=MEMORY)


def by_script(replays):
    yield "Instructions of a line or a record in a script's second half, and of one in the second half of a script half"
    yield "as long; the most memory as a multiple of the script's own size."
    yield ""
    names = ["Script", "Ours", "in half as long", "Rival", "Ratio", "Limit"]
    yield from tables.head(*names, "Lines or records", "Memory", "with `--log`", "Rival", "Limit")
    for name, make, few, many, unit in scripts.SCRIPTS:
        (first, later), (_, plain) = replays.instructions(make, few)
        plainly, size = replays.memory(make, many)
        logged, _ = replays.memory(make, many, ["--log"])
        times = TIMES.get(name)
        memory = [most / size for most in (plainly[0], logged[0], logged[1])]
        is_long = size > 2**20
        if times and later > times * plain or is_long and max(memory[:2]) > MOST_MEMORY:
            tables.OVER.append(name)
        cells = [f"{later:,.0f} a {unit}", f"{first:,.0f}", f"{plain:,.0f}", f"{later / plain:.2f}"]
        cells += [f"{times} times" if times else "", f"{many:,}", *(f"{most:.1f}" for most in memory)]
        yield tables.line([name, *cells, MOST_MEMORY if is_long else ""])


def run(folder):
    replays = Replays(folder)
    examples, made = replays.compare()
    yield f"The same bytes and exit status as the rival's on {examples} scripts of examples/ and {made} made ones."
    yield ""
    yield from by_payload(replays)
    yield ""
    yield from by_script(replays)
