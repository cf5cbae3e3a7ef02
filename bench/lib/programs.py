"""The programs that are measured, and how they are built: the product's own, and the rivals."""

import os
import shutil
import subprocess
import tempfile
import zlib
from pathlib import Path

from over_gate import NotBuilt, below, build_archive, build_program, kit, read_uses

BENCH = Path(__file__).resolve().parent.parent
TOP = BENCH.parent

# Set in the environment if programs are built over what the merge gate left in this checkout.
OVER_GATE = "TRACERING_OVER_GATE"
RUST_FLAGS = "--edition 2021 -C opt-level=3 -C codegen-units=1 -C panic=abort -C target-cpu=x86-64-v2".split()


class Failure(Exception):
    """Why a benchmark can't be run, or what a program answers wrongly."""


def tried(command, **options):
    """Runs the command without input, and answers its status and its output, both ends of it."""
    ends = {"stdin": subprocess.DEVNULL, "stdout": subprocess.PIPE, "stderr": subprocess.STDOUT}
    done = subprocess.run(command, text=True, check=False, **ends, **options)
    return done.returncode, done.stdout


def call(command, **options):
    """Runs the command, whose output counts only if it fails."""
    status, output = tried(command, **options)
    if status:
        raise Failure(f"{' '.join(map(str, command))} ends with status {status}\n{output}")


def rival(folder, name, cfg=None):
    """Builds the Rust program bench/rivals/NAME, with this `cfg` set if there is one."""
    program = folder / "-".join(["rival", name, *([cfg] if cfg else [])])
    flags = [*RUST_FLAGS, "--cfg", cfg] if cfg else RUST_FLAGS
    call(["rustc", *flags, "-o", program, BENCH / "rivals" / name / "main.rs"])
    return program


def rival_in_c(folder, name, *libraries):
    """Builds the C program bench/rivals/NAME."""
    program = folder / f"{name}-rival-in-c"
    call(["cc", "-O2", "-o", program, BENCH / "rivals" / name / "main.c", *libraries])
    return program


def crate_lines(file):
    """The lines of a crates.txt by the crates' names."""
    lines = [line for line in file.read_text().splitlines() if line and not line.startswith("#")]
    return {line.partition(":")[0].split()[0]: line for line in lines}


def highest(names, uses):
    """Those of these crates that no other one of them is built on: with each, the kit proves all that are below it."""
    used = {name for crate in names for name in uses[crate]}
    return [name for name in names if name not in used]


def staging(name):
    """The folder in which a program's crate is made, with what an earlier run there proved, and nothing else.

    It is outside of the checkout, since the merge gate allows no other crates there.
    """
    checkout = f"tracering-bench-{os.getuid()}-{zlib.crc32(bytes(TOP)):08x}"
    folder = Path(tempfile.gettempdir()) / checkout / name
    folder.mkdir(parents=True, exist_ok=True)
    for part in ("src", "specs", "proofs"):
        for old in folder.glob(f"crates/*/{part}"):
            shutil.rmtree(old)
    return folder


def staged(name):
    """Proves and builds the product's program or static library bench/programs/NAME, and answers what is built."""
    source, folder = BENCH / "programs" / name, staging(name)
    [(crate, line)] = crate_lines(source / "crate").items()
    here = folder / "crates" / crate
    for file in source.rglob("*.rattle"):
        copied(file, here / "src" / f"{file.stem}.rt")
    for file in source.rglob("*.proof"):
        function, _, part = file.stem.partition(".")
        copied(file, here / "proofs" / function / f"{part}.antt")
    build = built_over_gate if os.environ.get(OVER_GATE) else built_beside_copies
    try:
        return build(folder, crate, line)
    except NotBuilt as failure:
        raise Failure(f"bench/programs/{name} isn't built\n{failure}") from failure


def built_over_gate(folder, crate, line):
    """Builds the crate over the libraries that the merge gate left in this checkout."""
    head, _, named = line.partition(":")
    here = folder / "crates" / crate
    build, file = (build_archive, f"lib{crate}.a") if "staticlib" in head else (build_program, crate)
    build(here, crate, named.split(), here / "out" / file)
    return here / "out" / file


def built_beside_copies(folder, crate, line):
    """Builds the crate beside copies of those that it is built on. These are proved in this checkout first, which keeps
    their proofs.
    """
    crates, uses = crate_lines(TOP / "crates.txt"), read_uses()
    lower_crates = below(uses, line.partition(":")[2].split())
    for top in highest(lower_crates, uses):
        call(["rt", "lib"], cwd=TOP / "crates" / top)
    for lower in lower_crates:
        for part in ("src", "specs", "proofs"):
            if (TOP / "crates" / lower / part).is_dir():
                shutil.copytree(TOP / "crates" / lower / part, folder / "crates" / lower / part)
        linked(TOP / "crates" / lower / "out" / "rlib", folder / "crates" / lower / "out" / "rlib")
    (folder / "crates.txt").write_text("".join(f"{crates[lower]}\n" for lower in lower_crates) + f"{line}\n")
    shutil.copy(TOP / "HANDLES", folder)
    here = folder / "crates" / crate
    if "staticlib" in line:
        call(["rt", "lib"], cwd=here)
        return here / "out" / f"lib{crate}.a"
    program = here / "out" / crate
    program.unlink(missing_ok=True)
    # (This also runs the program, without a word and without input, so that its status says nothing.)
    _, output = tried(["rt", "run"], cwd=here)
    if not program.is_file():
        raise NotBuilt(output)
    return program


def linked(library, to):
    """Links a proved library into another folder, or copies it if that is on another disk."""
    shutil.rmtree(to, ignore_errors=True)
    try:
        shutil.copytree(library, to, copy_function=os.link)
    except shutil.Error:
        shutil.rmtree(to)
        shutil.copytree(library, to)


def copied(file, to):
    to.parent.mkdir(parents=True, exist_ok=True)
    shutil.copy(file, to)


def tracering():
    """Has ./tracering build the program, and answers where it is."""
    _, output = tried([TOP / "tracering", "dump"])
    program = TOP / "crates/trace_cli/out/tracering"
    if not program.is_file():
        raise Failure(f"./tracering builds no program\n{output}")
    return program


def is_fresh(archive):
    """Whether the program and, after it, this library were built from the sources as they are."""
    # (A program that isn't fresh would be taken from here, where none is.)
    status, _ = tried([TOP / "tracering", "dump"], env=os.environ | {"TRACERING_BUILT": "/dev/null/none"})
    built_from = TOP / "crates/trace_cli/out/tracering.sources"
    return status != 127 and built_from.stat().st_mtime <= archive.stat().st_mtime
