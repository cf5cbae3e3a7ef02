"""What a program takes: instructions, which callgrind counts the same at every run, and memory."""

import os
import subprocess

from lib.programs import Failure


def fed(source):
    """What a program reads: a file, or nothing."""
    return open(source or os.devnull, "rb")


def callgrind(command, source=None, profile="/dev/null", function=None, flags=()):
    """How many instructions callgrind counts; with a function, while it runs. A profile is written for `functions`."""
    toggle = [f"--toggle-collect={function}"] if function else []
    counted = ["valgrind", "--tool=callgrind", f"--callgrind-out-file={profile}", *toggle, *flags, *command]
    with fed(source) as given, open(os.devnull, "wb") as sink:
        done = subprocess.run(counted, stdin=given, stdout=sink, stderr=subprocess.PIPE, text=True, check=False)
    _, found, count = done.stderr.partition("Collected : ")
    if done.returncode or not found:
        raise Failure(f"{' '.join(map(str, counted))} ends with status {done.returncode}\n{done.stderr}")
    return int(count.split()[0])


def thread_counts(command, profile):
    """How many instructions callgrind counts of each thread, that of `main` first."""
    callgrind([*command], profile=profile, flags=["--separate-threads=yes"])
    counts = []
    for file in sorted(profile.parent.glob(f"{profile.name}-*")):
        [line] = [line for line in file.read_text(errors="replace").splitlines() if line.startswith("totals:")]
        counts.append(int(line.split()[1]))
        file.unlink()
    return counts


def functions(profile):
    """How many instructions each function of a profile takes with all that it calls."""
    command = ["callgrind_annotate", "--inclusive=yes", "--threshold=100", profile]
    text = subprocess.run(command, stdout=subprocess.PIPE, text=True, check=True).stdout
    found = {}
    for line in text.splitlines():
        count, _, rest = line.strip().partition(" (")
        if count.replace(",", "").isdigit() and ":" in rest:
            name = rest.partition(":")[2].split()[0]
            found[name] = max(found.get(name, 0), int(count.replace(",", "")))
    return found


def output(command, source=None):
    """What the command prints; it has to end with status 0."""
    with fed(source) as given:
        done = subprocess.run(command, stdin=given, stdout=subprocess.PIPE, check=False)
    if done.returncode:
        raise Failure(f"{' '.join(map(str, command))} ends with status {done.returncode}")
    return done.stdout


def most_memory(command, source, sink):
    """The exit status, and the most memory at any moment in bytes, by GNU time. The output is kept in `sink`.

    A child of this process itself would report at least as much memory as this process has.
    """
    timed = ["/usr/bin/time", "--quiet", "-f", "%M", *command]
    with fed(source) as given, open(sink, "wb") as taken:
        done = subprocess.run(timed, stdin=given, stdout=taken, stderr=subprocess.PIPE, check=False)
    return done.returncode, int(done.stderr.split()[-1]) * 1024


def timed(command, sink):
    """The seconds of the processor that a command takes, and its most memory in bytes, by GNU time."""
    timing = ["/usr/bin/time", "--quiet", "-f", "%U %S %M", *command]
    with open(sink, "wb") as taken:
        done = subprocess.run(timing, stdout=taken, stderr=subprocess.PIPE, check=False)
    if done.returncode:
        raise Failure(f"{' '.join(map(str, command))} ends with status {done.returncode}")
    user, system, most = done.stderr.split()[-3:]
    return float(user) + float(system), int(most) * 1024
