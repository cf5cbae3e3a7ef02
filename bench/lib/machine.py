"""The machine and its tools: what is missing, and what a result was measured with."""

import os
import platform
import shutil
import subprocess
import time

from lib.programs import TOP, Failure

# Each tool, what it is part of, and the command that prints its version.
TOOLS = {
    "rt": ("the Rattle kit, see README.md", ["rt", "version"]),
    "rustc": ("the package rustc, or rustup", ["rustc", "--version"]),
    "cc": ("the package gcc", ["cc", "--version"]),
    "valgrind": ("the package valgrind", ["valgrind", "--version"]),
    "/usr/bin/time": ("the package time", None),
    "trace-cmd": ("the package trace-cmd", ["dpkg-query", "-W", "trace-cmd"]),
    "nats-server": ("the packages nats-server and libnats-dev", ["nats-server", "--version"]),
    "taskset": ("the package util-linux", None),
    "chrt": ("the package util-linux", None),
    "chromium": ("the packages chromium and python3-selenium", ["chromium", "--version"]),
    "chromedriver": ("the package chromium-driver", None),
    "apt-get": ("Debian's own", None),
    "dpkg-deb": ("Debian's own", None),
}


def want(tools):
    """Fails if one of these tools is missing."""
    missing = [f"{tool} ({TOOLS[tool][0]})" for tool in tools if not shutil.which(tool)]
    if missing:
        raise Failure(f"it needs {', '.join(missing)}")


def first_line(command):
    done = subprocess.run(command, cwd=TOP, stdout=subprocess.PIPE, stderr=subprocess.DEVNULL, text=True, check=False)
    return done.stdout.partition("\n")[0]


def processor():
    with open("/proc/cpuinfo") as text:
        names = [line.partition(": ")[2].strip() for line in text if line.startswith("model name")]
    return f"{names[0] if names else platform.machine()}, {os.cpu_count()} processors, {platform.system()}"


def sources():
    """The last commit that changed a source of the product."""
    changed = first_line(["git", "status", "--porcelain", "crates", "crates.txt"])
    commit = first_line(["git", "log", "-1", "--format=%h", "--", "crates", "crates.txt"])
    return f"crates of commit {commit}{', changed since' if changed else ''}"


def lines(tools):
    """The lines of a result that say when, of what, on which machine and with which tools it was measured."""
    yield f"{time.strftime('%Y-%m-%d')}, {sources()}"
    yield f"{processor()}, load {os.getloadavg()[0]:.1f} at the start"
    yield "; ".join(first_line(command) for tool in tools if (command := TOOLS[tool][1]))
    yield ""
