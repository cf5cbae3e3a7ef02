"""Made scripts, page images and captures, whole and damaged, to the program and to plain rivals: `bench/run fuzz COUNT SEED`

The rival of `replay` is plain Rust (bench/rivals/replay), those of `dump` and of `collect` are plain Python
(tests/oracles/image.py, collect.py). Inputs on which they differ are kept in the folder for temporary files.
"""

import random
import subprocess
import tempfile
from concurrent.futures import ThreadPoolExecutor
from pathlib import Path

from lib import scripts, tables
from lib.programs import Failure, rival, tracering
from made import captures, images
from oracles.image import dumped

NEEDS = ("rt", "rustc")
# How many programs are run at a time.
AT_A_TIME = 4
# How many page images are made for each script.
IMAGES = 4


def ran(program, words, data):
    done = subprocess.run([program, *words], input=data, stdout=subprocess.PIPE, stderr=subprocess.DEVNULL, check=False)
    return done.returncode, done.stdout


def kept(name, data):
    file = Path(tempfile.gettempdir()) / f"tracering-differs-{name}"
    file.write_bytes(data)
    return str(file)


def compare_scripts(pool, rng, programs, count, seed):
    made = [(scripts.made_script(rng), ["replay", *rng.choice([[], ["--log"], ["--log"]])]) for _ in range(count)]
    found = list(pool.map(lambda given: [ran(program, given[1], given[0]) for program in programs], made))
    differ = [kept(f"{seed}-{at}.trace", made[at][0]) for at, (ours, plain) in enumerate(found) if ours != plain]
    return "scripts", sum(ours[0] == 1 for ours, _ in found), differ


def compare_images(pool, rng, program, count, seed):
    made = [images.made_image(rng) for _ in range(IMAGES * count)]
    wanted = [dumped(image) for image in made]
    found = list(pool.map(lambda image: ran(program, ["dump"], image), made))
    differ = [kept(f"{seed}-{at}.page", made[at]) for at in range(len(made)) if found[at] != wanted[at]]
    return "page images", sum(answer[0] == 1 for answer in wanted), differ


def compare_captures(pool, rng, program, folder, count, seed):
    captures.write_formats(folder)
    source = captures.Source(rng)
    made = [captures.Case(source, folder, at) for at in range(count)]
    differ = []
    for at, (case, differs) in enumerate(zip(made, pool.map(lambda case: case.differs(program), made))):
        if differs:
            kept_in = Path(tempfile.gettempdir()) / f"tracering-differs-{seed}-{at}.captures"
            kept_in.mkdir(exist_ok=True)
            case.keep(kept_in)
            differ.append(str(kept_in))
    return "captures", sum(case.wanted.status == 1 for case in made), differ


def run(folder, count="1000", seed="1"):
    ours, rng, number = tracering(), random.Random(int(seed)), int(count)
    with ThreadPoolExecutor(AT_A_TIME) as pool:
        found = [
            compare_scripts(pool, rng, [ours, rival(folder, "replay")], number, seed),
            compare_images(pool, rng, ours, number, seed),
            compare_captures(pool, rng, ours, Path(folder) / "captures", number, seed),
        ]
    yield f"Seed {seed}."
    yield ""
    yield from tables.head("Compared", "Number", "of them refused", "Differ")
    for what, refused, differ in found:
        yield tables.line([what, f"{number:,}", f"{refused:,}", len(differ)])
    differ = [file for _, _, files in found for file in files]
    if differ:
        raise Failure(f"the two differ: {', '.join(differ[:5])}")
