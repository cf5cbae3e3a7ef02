"""Crates that are built over the libraries that `rt ci` left in this checkout.

No other command of `rt` takes these libraries, so the compiler itself is called over them, as `rt` calls it. It proves
the crate that it builds, and keeps its work in the crate's folder `out/over_gate` for the next call.
"""

import subprocess
from functools import cache
from pathlib import Path

TOP = Path(__file__).resolve().parent.parent


class NotBuilt(Exception):
    """What the compiler or the linker says of a crate that it doesn't build."""


def read_uses():
    """The crates of this repository, each with those that it uses."""
    lines = [line.split("#")[0] for line in (TOP / "crates.txt").read_text().splitlines()]
    named = dict(line.split(":", 1) for line in lines if ":" in line)
    return {words.split()[0]: uses.split() for words, uses in named.items()}


def below(uses, named):
    """The crates of this repository that are among the named ones or below them, the lowest first."""
    found = []
    for name in named:
        if name in uses:
            found += [it for it in [*below(uses, uses[name]), name] if it not in found]
    return found


@cache
def kit():
    """The kit's folder."""
    return Path(subprocess.run(["rt", "doc"], stdout=subprocess.PIPE, text=True, check=True).stdout.strip()).parent


def call(command, folder):
    ends = {"stdin": subprocess.DEVNULL, "stdout": subprocess.PIPE, "stderr": subprocess.STDOUT}
    ran = subprocess.run(command, cwd=folder, text=True, errors="replace", check=False, **ends)
    if ran.returncode:
        raise NotBuilt(ran.stdout)


def words_of(verb, crate, named, root):
    """A call of the compiler for a crate that uses the named ones, without what says how it works."""
    lower = below(read_uses(), named)
    place = {name: TOP / "crates" / name / "out" / "rlib" / f"{name}.rlib" for name in lower}
    words = [kit() / "bin" / "rattle", verb, "--crate-name", crate, *root]
    for name in ["std", *named]:
        words += ["--extern", f"{name}={place.get(name, kit() / 'rlibs' / f'{name}.rlib')}"]
    for libraries in [kit() / "rlibs", *(rlib.parent for rlib in place.values())]:
        words += ["-L", f"dependency={libraries}"]
    words += ["--antt-project", kit() / "rattle" / "logic" / "antt-project.json", "--logic-built", kit() / "logic_built"]
    return words


def compile_crate(folder, crate, named, root, file, target=None):
    """Proves the crate in this folder, which uses the named ones, and compiles it, for another machine if that is
    named."""
    words = words_of("build", crate, named, root)
    if target:
        words += ["--target", target]
    kept = folder / "out" / "over_gate"
    kept.mkdir(parents=True, exist_ok=True)
    words += ["--jobs", "4", "--links", f"{crate}=", "--incremental", kept]
    call([*words, "--toolchain", kit() / "toolchain", "--backend", "llvm", "-o", file], folder)


def build_archive(folder, crate, named, file, target=None):
    """Builds a static library."""
    compile_crate(folder, crate, named, ["src/lib.rt", "--crate-type", "staticlib"], file, target)


def build_program(folder, crate, named, file):
    """Builds a program."""
    made = folder / "out" / f"{crate}.o"
    compile_crate(folder, crate, named, ["src/main.rt"], made)
    words = [kit() / "bin" / "rattle-link", "--target", "x86_64-unknown-linux-gnu", "--toolchain", kit() / "toolchain"]
    call([*words, "-o", file, made, kit() / "c" / "libos_c.a", kit() / "c" / "liblibc_c.a"], folder)
