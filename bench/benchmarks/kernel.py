"""The kernel's own ring buffer and ours on the same scripts: what both print, and each page image byte for byte

The source is that of Debian's package linux-source-6.1, fetched and built in a scratch folder. The scripts are made
from seeds (bench/lib/lockstep.py). Then eight changes of one line each are made to a copy of the kernel's file, and the
same comparison has to notice each.
"""

import subprocess

from benchmarks.running_ring import ROUND, instructions
from lib import count, tables
from lib.kernel import changed, kernel
from lib.lockstep import Maker
from lib.programs import Failure, staged, tracering

NEEDS = ("rt", "cc", "valgrind", "apt-get", "dpkg-deb")
KINDS = {"whole records": False, "nested writers": True}
SCRIPTS = 500
# With how many scripts of each kind a changed kernel is compared, and how many seconds each may run.
TRIED, SECONDS = 40, 20
# A function, what is found in it, and what becomes of that.
CHANGES = (
    ("rb_add_timestamp", r"\*delta = 0", "*delta = 1", "a delta in the record behind an extend"),
    ("rb_calculate_event_length", r"EXTEND \+ RB_ALIGNMENT\)", "EXTEND)", "other lengths are made longer"),
    ("test_time_stamp", r"TS_DELTA_TEST", "(TS_DELTA_TEST << 1)", "time extends from 2^28 on"),
    ("__rb_reserve_next", r"write > BUF_PAGE_SIZE", "write >= BUF_PAGE_SIZE", "no record ends with its page"),
    ("rb_handle_head_page", r"local_add\(entries,", "local_add(entries + 1,", "one lost record too many"),
    ("rb_get_reader_page", r"overwrite - cpu", "overwrite + cpu", "losses told from the start on"),
    ("rb_update_read_stamp", r"read_stamp \+= delta", "read_stamp -= delta", "an extend is subtracted"),
    ("ring_buffer_read_page", r"local_add\(RB_MISSED_STORED", "local_add(0", "a count without its flag"),
)


def image_seen(image):
    """A page image without the upper half of commit."""
    return image[:12] + bytes(4) + image[16:]


def pages_of(images):
    return [image_seen(images[at : at + 4096]) for at in range(0, len(images), 4096)]


def ran(command, script):
    """The status and the output of a program."""
    try:
        done = subprocess.run(command, input=script, capture_output=True, timeout=SECONDS, check=False)
    except subprocess.TimeoutExpired:
        return None, b""
    return done.returncode, done.stdout


class Found:
    """What one side answers to a script: the printed text, and the pages."""

    def __init__(self, script, print_command, pages_command):
        self.status, self.text = ran(print_command, script)
        status, images = ran(pages_command, script)
        self.status, self.pages = self.status or status, pages_of(images)

    def is_like(self, other):
        return (self.status, self.text, self.pages) == (other.status, other.text, other.pages) and self.status == 0


class Sides:
    """Both sides, and what ours answered so far."""

    def __init__(self, program, images):
        self.ours, self.known = ([program, "replay", "--log"], [images]), {}

    def script(self, kind, seed):
        return Maker(f"{kind} {seed}", KINDS[kind]).make().encode()

    def differs(self, kind, seed, driver):
        """Whether the two differ on this script, and what ours answers."""
        script = self.script(kind, seed)
        if (kind, seed) not in self.known:
            self.known[kind, seed] = Found(script, *self.ours)
        ours = self.known[kind, seed]
        return not ours.is_like(Found(script, [driver, "records"], [driver, "pages"])), ours


def compare(sides, driver):
    yield from tables.head("Scripts", "Number", "Records kept", "Records lost", "Pages", "of them with losses", "Differ")
    failed = []
    for kind in KINDS:
        kept = lost = pages = losses = differ = 0
        for seed in range(SCRIPTS):
            is_other, ours = sides.differs(kind, seed, driver)
            lines = ours.text.splitlines()
            runs = [line.split()[2].split(b"-") for line in lines if line.startswith(b"missing")]
            kept += sum(line.startswith(b"0 ") for line in lines)
            lost += sum(int(last) - int(first) + 1 for first, last in runs)
            pages += len(ours.pages)
            losses += sum(page[11] >> 7 for page in ours.pages)
            differ += is_other
            if is_other:
                failed.append(f"{kind}, seed {seed}")
        numbers = (SCRIPTS, kept, lost, pages, losses, differ)
        yield tables.line([kind, *(f"{number:,}" for number in numbers)])
    if failed:
        raise Failure(f"the two differ: {'; '.join(failed[:5])}")


def notices(sides, folder, files, change):
    """The first script on which a changed kernel differs from ours."""
    function, old, new, _ = change
    driver = files.build(folder, "replay", changed(files.ring, function, old, new), "-O1")
    for seed in range(TRIED):
        for kind in KINDS:
            if sides.differs(kind, seed, driver)[0]:
                return f"{kind}, seed {seed}"
    raise Failure(f"a change of {function} isn't noticed")


def run(folder):
    files = kernel()
    sides = Sides(tracering(), staged("page_images"))
    yield f"The kernel's ring buffer of {files.package.strip()}, built in user space. Compared are the log, the listing, the moments,"
    yield "the runs of missing records, and all 4,096 bytes of each page but the upper half of commit."
    yield ""
    yield from compare(sides, files.build(folder, "replay"))
    yield ""
    yield from tables.head("Changed in a copy of the kernel's file", "Function", "Noticed at")
    for change in CHANGES:
        yield tables.line([change[3], f"`{change[0]}`", notices(sides, folder, files, change)])
    yield ""
    write = files.build(folder, "write")
    few, many = (count.callgrind([write, str(rounds)], function="write_rounds") for rounds in (2, 22))
    ours = instructions(folder, staged("running_ring"), "alone", "write", "round_by_write")
    yield "Instructions of a record of 8 to 112 bytes, on 64 pages of 4,080 bytes; the rival is the kernel's ring."
    yield ""
    yield from tables.compared_head()
    yield tables.compared("`write` of the running ring", ours, (many - few) / (20 * ROUND), digits=1)
