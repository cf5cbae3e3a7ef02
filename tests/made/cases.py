"""Made inputs of the program, each with a call over it and what a plain program says of it: `wanted`. How often each
thing has to be printed; and the inputs of a difference, which are kept.
"""

import subprocess
import sys
import tempfile
from concurrent.futures import ThreadPoolExecutor
from pathlib import Path

TOOL = " ".join([Path(sys.argv[0]).name, *sys.argv[1:2]])
# How many calls are made at a time, how many cases there are if none are asked for, and how long a call may take.
AT_A_TIME, COUNT, SECONDS = 4, 300, 60


def check(is_so, said, inputs):
    """Ends the tool if it isn't so, and keeps the inputs."""
    if not is_so:
        end(said, lambda folder: write_all(folder, inputs))


def end(said, keep):
    """Ends the tool, with a folder in which `keep` puts what it is about."""
    folder = Path(tempfile.mkdtemp(prefix="tracering-differs-"))
    keep(folder)
    sys.exit(f"{TOOL}: {said}; kept in {folder}")


def write_all(folder, inputs):
    """Writes inputs as files of this folder, by their positions."""
    for at, data in enumerate(inputs):
        (folder / str(at)).write_bytes(data)


class Case:
    """Inputs with the words of a call of a command, and what the plain program says of them: `wanted`."""

    command = None

    def __init__(self, inputs, form, stdin, folder, wanted):
        self.inputs, self.form, self.stdin, self.folder, self.wanted = inputs, form, stdin, folder, wanted

    def words(self):
        """Writes the files, and gives the words of the call."""
        self.folder.mkdir()
        self.kept = self.folder / "kept"
        words = [self.command, *self.form, *([str(self.kept)] if self.form == ["--keep"] else [])]
        self.keep(self.folder)
        for at in range(len(self.inputs)):
            words.append("-" if at == self.stdin else str(self.folder / str(at)))
        return words

    def keep(self, folder):
        write_all(folder, self.inputs)

    def differs(self, program):
        """How the program differs from the plain one, or nothing."""
        words = self.words()
        given = b"" if self.stdin is None else self.inputs[self.stdin]
        ran = subprocess.run([program, *words], input=given, capture_output=True, timeout=SECONDS, check=False)
        found = ran.returncode, ran.stdout.decode()
        if found != (self.wanted.status, self.wanted.text):
            return f"{' '.join(words)}: {first_difference(found, self.wanted)}; {ran.stderr.decode()}"
        faulty = self.wanted.faulty
        if faulty not in (None, self.stdin) and str(self.folder / str(faulty)) not in ran.stderr.decode():
            return f"{' '.join(words)}: standard error doesn't name the file with the fault: {ran.stderr.decode()}"
        if self.form == ["--keep"] and self.kept.read_bytes() != self.wanted.kept:
            return f"{' '.join(words)}: it keeps {len(self.kept.read_bytes())} bytes, and not {len(self.wanted.kept)}"
        return None


def first_difference(found, wanted):
    """In which line, or by how many lines, two texts with a status differ."""
    pairs = zip(found[1].splitlines(), wanted.lines)
    differs = next((pair for pair in pairs if pair[0] != pair[1]), None)
    if differs:
        return f"{differs[0]!r}, and not {differs[1]!r}"
    return f"status {found[0]} and {found[1].count(chr(10))} lines, and not {wanted.status} and {len(wanted.lines)}"


def compare(program, cases):
    """Each case has to be answered as the plain program answers it."""
    with ThreadPoolExecutor(AT_A_TIME) as pool:
        for case, differs in zip(cases, pool.map(lambda each: each.differs(program), cases)):
            if differs:
                end(differs, case.keep)


def check_often(seen, often, count):
    """Of as many cases as there are by default, or more: each thing is printed as often in a thousand as it should."""
    rare = [what for what, least in often.items() if seen[what] * 1000 < least * count]
    if rare and count >= COUNT:
        sys.exit(f"{TOOL}: too few with {', '.join(rare)}; {dict(seen)}")
