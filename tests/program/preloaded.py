"""Runs of the built program over a library of preload/."""

import os
import struct
import subprocess
import tempfile
from pathlib import Path
from typing import NamedTuple

SECONDS = 60
HERE = Path(__file__).resolve().parent
INPUTS = HERE.parents[1] / "examples"


def library(folder, name):
    """Builds preload/NAME.c."""
    built = Path(folder) / f"{name}.so"
    source = HERE / "preload" / f"{name}.c"
    subprocess.run(["cc", "-O2", "-shared", "-fPIC", "-o", built, source, "-ldl"], check=True)
    return built


def ran(command, data, **environment):
    """The status, the output and the standard error."""
    given = {**os.environ, **environment}
    done = subprocess.run(command, input=data, capture_output=True, env=given, timeout=SECONDS, check=False)
    return done.returncode, done.stdout, done.stderr


class Seen(NamedTuple):
    """What preload/refuse.c saw: growths, those that were refused, blocks that were not freed, and threads."""

    growths: int
    refused: int
    kept: int
    threads: int


def refused(preloaded, number, command, data, and_on=False, **given):
    """What a run answers if the growth of that number is refused, alone or with all after it, and what was seen."""
    with tempfile.NamedTemporaryFile() as file:
        file.write(bytes(32))
        file.flush()
        given |= {"LD_PRELOAD": str(preloaded), "REFUSED": str(number), "REFUSED_SEEN": file.name}
        found = ran(command, data, **given, **({"REFUSED_ON": "1"} if and_on else {}))
        return found, Seen(*struct.unpack("4q", Path(file.name).read_bytes()))
