"""Captures, which `collect` lists, all or a part: raw pages, those of running kernels, and files of trace-cmd, in one to
three files."""

import random
from itertools import count

from made.captures import Case, Source, write_formats

# How often each of these is printed at least, in every thousand captures.
OFTEN = {"records": 120, "missing": 100, "unknown": 80, "damaged": 150, "numbers": 10, "trace.dat:": 30, "losses": 5}
OFTEN |= {"pages:": 10, "OtherHost": 5}
ALSO = ()


def cases(seed, folder):
    """One case after the other."""
    source = Source(random.Random(seed))
    write_formats(folder)
    return (Case(source, folder, at) for at in count())
