"""What flight-show and flight-file share: the built `tracering-flight` and what it says of a file, the same built to be
watched by sanitizers, two sites that record, and files that are damaged at random."""

import json
import os
import re
import shutil
import subprocess
import sys
from itertools import count
from pathlib import Path

from made import flight_dumps as form
from made.flight_dumps import Site

TOP, TOOL = Path(__file__).resolve().parent.parent.parent, Path(sys.argv[0]).name
FLAGS = ["-std=c11", "-D_POSIX_C_SOURCE=200809L", f"-I{TOP}/c/include"]
SANITIZERS = ["-g", "-O1", "-fsanitize=address,undefined", "-fno-sanitize-recover=all"]
# What makes AddressSanitizer quick where a program is run a thousand times.
NO_LEAKS = os.environ | {"ASAN_OPTIONS": "detect_leaks=0"}
SECOND = 1_000_000_000
# 2026-11-27 13:45:07 UTC.
NOON = 1795787107 * SECOND
REQUEST = Site(0, "request %u took %lu ns", [form.U32, form.U64], "server.c", 17)
OPENED = Site(1, "opened %s\n", [form.TEXT], "files.c", 80)


def check(is_so, said):
    if not is_so:
        sys.exit(f"{TOOL}: {said}")


def same(what, found, wanted):
    if found == wanted:
        return
    pairs = zip(found.splitlines(), wanted.splitlines())
    differs = next((pair for pair in pairs if pair[0] != pair[1]), (found[-300:], wanted[-300:]))
    sys.exit(f"{TOOL}: {what}: wanted {differs[1]!r}, and not {differs[0]!r}")


class Program:
    """A built program, a folder for what is given to it (bytes, or what has them), and the environment of a listing."""

    def __init__(self, path, folder, environment=None):
        self.path, self.folder, self.environment, self.numbers = path, folder, environment, count()

    def run(self, *words, **more):
        return subprocess.run([self.path, *words], stdout=subprocess.PIPE, stderr=subprocess.PIPE, **more)

    def file(self, content):
        # (Several threads may do this at once.)
        path = self.folder / f"{self.path.name}.{next(self.numbers)}.flight"
        path.write_bytes(content if isinstance(content, bytes) else content.bytes())
        return path

    def show(self, content, *words):
        """What is printed of a file, which isn't refused."""
        path = self.file(content)
        ran = self.run("show", path, *words, env=self.environment)
        path.unlink()
        check(ran.returncode == 0 and not ran.stderr, f"show {words} ends with {ran.returncode}: {ran.stderr.decode()}")
        return ran.stdout.decode()

    def refused(self, content):
        """Why a file is refused, and the offset, or None: it is shown."""
        path = self.file(content)
        ran = self.run("show", path, env=NO_LEAKS)
        path.unlink()
        check(ran.returncode in (0, 1), f"a damaged file: status {ran.returncode}: {ran.stderr.decode()}")
        if ran.returncode == 0:
            return None
        said = re.fullmatch(rf"tracering-flight: {re.escape(str(path))}: ([^\n]+): byte (\d+)\n", ran.stderr.decode())
        check(said and not ran.stdout, f"a refused file: {ran.stderr.decode()!r}")
        return said[1], int(said[2])

    def show_damaged(self, content):
        """Shows a file in all ways: each ends well, or is refused as the others are."""
        path = self.file(content)
        folder = path.with_suffix(".ctf")
        ways = [[], ["--json"], ["--ctf", folder], ["--last", "2"]]
        runs = [self.run("show", path, *words, env=NO_LEAKS) for words in ways]
        check(all(ran.returncode == runs[0].returncode for ran in runs), "ways of showing differ in their status")
        for ran in runs:
            said = ran.stderr.decode(errors="replace")
            is_well = ran.returncode in (0, 1) and ("byte" in said if ran.returncode else not said)
            check(is_well, f"random damage: {said}")
        for line in runs[1].stdout.decode().splitlines():
            json.loads(line)
        shutil.rmtree(folder, ignore_errors=True)
        path.unlink()


def built(path, compiler, flags, archive):
    """Has a compiler build the program with these flags more: its status, and what it says."""
    sources = sorted((TOP / "c/flight/show").glob("*.c"))
    return subprocess.run([compiler, *FLAGS, *flags, *sources, archive, "-o", path], stderr=subprocess.PIPE, text=True)


def watched_program(folder, archive, environment=None):
    """The program with the sanitizers, if they are here."""
    watched = Program(folder / "shown", folder, environment)
    is_built = built(watched.path, "cc", SANITIZERS, archive).returncode == 0
    return watched if is_built and watched.run("show").returncode == 2 else None
