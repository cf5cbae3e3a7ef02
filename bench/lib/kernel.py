"""The kernel's own ring buffer: its source as Debian ships it, and programs that are built over it in user space.

The source is under the GPL. It is fetched and compiled in a scratch folder, where the comparison runs; neither it nor
what is built from it is part of this repository.
"""

import os
import re
import shutil
import subprocess
import tempfile
from pathlib import Path

from lib.programs import BENCH, Failure, call, tried

PACKAGE = "linux-source-6.1"
RING, HEADER = "kernel/trace/ring_buffer.c", "include/linux/ring_buffer.h"
DRIVERS = BENCH / "rivals" / "kernel"
FLAGS = "-std=gnu11 -w -fno-strict-aliasing -fno-strict-overflow -D_GNU_SOURCE -DCONFIG_RING_BUFFER=1".split()


class Kernel:
    """The two files of a kernel that the programs are built over, and the package that they are from."""

    def __init__(self, folder):
        self.package, self.ring, self.header = ((folder / name).read_text() for name in ("package", RING, HEADER))

    def build(self, folder, driver, ring=None, level="-O2"):
        """Builds bench/rivals/kernel/DRIVER over the kernel's ring buffer, or over a changed text of it."""
        stubs = folder / "stubs"
        for name in re.findall(r"^#include <(.*)>", self.ring + self.header, re.MULTILINE):
            (stubs / name).parent.mkdir(parents=True, exist_ok=True)
            (stubs / name).touch()
        (stubs / "linux/ring_buffer.h").write_text(self.header)
        source, program = folder / "ring_buffer.c", folder / f"kernel-{driver}"
        source.write_text(ring or self.ring)
        given = [f'-DRING_SOURCE="{source}"', f"-I{stubs}", "-include", DRIVERS / "shim.h"]
        call(["cc", level, *FLAGS, *given, "-o", program, DRIVERS / f"{driver}.c"])
        return program


def kernel():
    """The kernel's files, which are fetched once and kept in a scratch folder."""
    kept = Path(tempfile.gettempdir()) / f"tracering-bench-{os.getuid()}-{PACKAGE}"
    if not (kept / "package").is_file():
        with tempfile.TemporaryDirectory() as scratch:
            fetch(Path(scratch), kept)
    return Kernel(kept)


def fetch(scratch, kept):
    """Fetches the package, by the machine's own sources of packages, and keeps the two files of it."""
    # (apt as root hands the download to a user who has to be able to write here.)
    scratch.chmod(0o777)
    if tried(["apt-get", "download", PACKAGE], cwd=scratch)[0]:
        call(["apt-get", "update"])
        call(["apt-get", "download", PACKAGE], cwd=scratch)
    [package] = scratch.glob("*.deb")
    call(["dpkg-deb", "-x", package, scratch])
    [archive] = scratch.glob("usr/src/*.tar.xz")
    names = [f"{PACKAGE}/{name}" for name in (RING, HEADER)]
    call(["tar", "-xJf", archive, "-C", scratch, "--occurrence=1", *names])
    for name in (RING, HEADER):
        (kept / name).parent.mkdir(parents=True, exist_ok=True)
        shutil.copy(scratch / PACKAGE / name, kept / name)
    version = subprocess.run(["dpkg-deb", "-f", package, "Version"], stdout=subprocess.PIPE, text=True, check=True)
    (kept / "package").write_text(f"{PACKAGE} {version.stdout}")


def changed(text, function, old, new):
    """The text with one line of a function changed: `old`, a pattern, is found there first, and becomes `new`."""
    start = re.search(rf"\b{function}\([^;{{}}()]*\)\n\{{", text)
    found = start and re.compile(old).search(text, start.end())
    if not found or "\n" in found[0] or "\n}" in text[start.end() : found.start()]:
        raise Failure(f"{function} has no {old}")
    return text[: found.start()] + found.expand(new) + text[found.end() :]
