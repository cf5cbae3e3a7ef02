"""Regions, which `recover` reads: one to three files, or standard input. Of regions that aren't forged the plain program
has to list each record that is there, and each loss, as the made rings know them.
"""

from made.cases import Case, check
from made.regions import Source
from oracles.fleet import Collected
from oracles.region import Recovered

FORMS = ([], [], ["--keep"], ["--keep"], ["--json"])
# How often each of these is printed at least, in every thousand cases.
OFTEN = {"records": 300, "missing": 80, "unknown": 100, "damaged": 60, "OtherCpu": 3, "Missed": 3, "BadCommit": 10}
OFTEN |= {"Cut": 8, "BadLength": 1, "SameFill": 5, "Overlap": 5, "TooShort": 20, "NotARegion": 3, "BadVersion": 3}
OFTEN |= {"BadPages": 2, "BadSize": 3, "BadCpu": 1, "BadEnd": 3, "stream:": 20}
ALSO = ()


class Recovery(Case):
    """A call of `recover`."""

    command = "recover"

    def kinds(self):
        """What is printed, by the first words of its lines, and the causes."""
        if "--json" in self.form:
            return
        for line in self.wanted.lines:
            words = line.split(" ")
            yield "records" if words[0][-1] != ":" and ":" in words[0] else words[0]
            if words[0] == "region:":
                yield words[1]
            elif words[0] == "damaged":
                yield words[-1]


# ---- laws


def check_laws(inputs, rings):
    """What the plain program says of regions that aren't forged, and of what it keeps."""
    for data, ring in zip(inputs, rings):
        found = Recovered([data])
        check(found.status == 0, f"a true region: {found.text}", [data])
        for line in found.lines:
            words = line.split(" ")
            if ":" in words[0]:
                moment, payload = ring.records[int(words[1])]
                check(words[2:] == [str(moment), payload.hex()], f"another record: {line}", [data])
    kept = Recovered(inputs)
    if kept.faulty is None:
        again = Collected([kept.kept])
        lines = [line for line in kept.lines if not line.startswith("damaged ")]
        check(again.lines == lines, "what is kept prints otherwise", inputs)


# ---- the cases


def cases(seed, folder):
    """One case after the other."""
    source, at = Source(seed), 0
    while True:
        inputs, rings = source.inputs()
        check_laws(inputs, rings)
        stdin = source.random.choice([None, None, source.random.randrange(len(inputs))])
        form = source.random.choice(FORMS)
        yield Recovery(inputs, form, stdin, folder / str(at), Recovered(inputs, "--json" in form))
        at += 1
