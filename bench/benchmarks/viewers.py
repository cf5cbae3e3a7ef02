"""Listings of a made kernel, read by what shows them: 10 million records in a browser, a million as CTF

The browser is Debian's chromium without a window. The page is opened, and then the text, as a user opens a file: until
all is drawn, and what is counted is there. Four workers read a part each, one of them joins these, and the page draws:
the processor time of the last two is what opening takes if no other program has the processors. A redraw is that of
another part of the trace, until its pixels are there.
"""

import os
import random
import resource
import subprocess
import time
from pathlib import Path
from statistics import median

from lib import tables
from lib.programs import TOP, Failure
from made import scheduling
from pages import browser

NEEDS = ("chromium", "chromedriver")
OPENED, LISTED, BLOCK, CPUS, TASKS = 10_000_000, 1_000_000, 50_000, 4, 40
# Of each CPU every so many numbers some are missing.
LOST_EACH, LOST = 5_000, 7
OPEN_SECONDS, REDRAW_MILLISECONDS, CTF_SECONDS, LONGEST_WAIT = 10, 30, 8, 600

SAID = "return [trace.columns.count, performance.now() - window.begun, element('said').textContent]"
NOTE_BEGIN = "element('file').addEventListener('change', () => { window.begun = performance.now(); }, true)"
# How the lanes are drawn: by what, and colored by what.
LANES = {"lanes by CPU": ("cpu", ""), "lanes by task": ("task", ""), "by task, colored by event": ("task", "event")}


def write_listing(path, records):
    """A made kernel over and over, with numbers and moments that go on, and losses; how many records it has."""
    kernel, _ = scheduling.made(random.Random(1), BLOCK, cpus=CPUS, tasks=TASKS)
    span, count, lost = kernel.rows[-1][0] - kernel.rows[0][0] + 1000, 0, []
    with path.open("w") as file:
        turn = 0
        while count < records:
            for moment, cpu, number, pid, event, fields in kernel.rows:
                number += turn * kernel.cpus[cpu].number
                if number % LOST_EACH >= LOST:
                    file.write(f"{cpu} {number} {moment + turn * span} {pid} {event} {fields}\n")
                    count += 1
                elif number % LOST_EACH == 0:
                    lost.append((cpu, number))
            turn += 1
        for cpu, number in sorted(lost):
            file.write(f"missing {cpu} {number}-{number + LOST - 1}\n")
    return count


def write_addresses(path, records):
    """Records of which each has other values."""
    source = random.Random(2)
    with path.open("w") as file:
        for at in range(records):
            values = f"call_site=0x{source.getrandbits(64):x} ptr=0x{source.getrandbits(64):x}"
            sizes = f"bytes_req={source.randrange(5000)} bytes_alloc={source.randrange(5000)}"
            file.write(f"{at % 4} {at // 4} {10**15 + at * 1000} {at % 50} kmem:kmalloc {values} {sizes}\n")
    return records


def write_payloads(path, records):
    source = random.Random(3)
    with path.open("w") as file:
        for at in range(records):
            file.write(f"{at % 4} {at // 4} {10**15 + at * 1000} {at % 50} 314 {source.getrandbits(512):0128x}\n")
    return records


def opened(driver, path, records):
    """How many seconds it takes until a text is drawn that the user opens."""
    driver.get((TOP / "show" / "timeline.html").as_uri())
    driver.execute_script(NOTE_BEGIN)
    driver.find_element("id", "file").send_keys(str(path))
    end = time.monotonic() + LONGEST_WAIT
    while not driver.execute_script(browser.IS_DRAWN):
        if time.monotonic() > end:
            raise Failure(f"the page says: {driver.execute_script('return document.body.innerText')[:300]}")
        time.sleep(0.02)
    count, milliseconds, said = driver.execute_script(SAID)
    if count != records:
        raise Failure(f"the page has {count} records of {records}, and says {said}")
    return milliseconds / 1000


def processor_seconds(stat):
    """The time of the processor of a process or a thread, by its file `stat`."""
    words = stat.read_text().rpartition(")")[2].split()
    return (int(words[11]) + int(words[12])) / os.sysconf("SC_CLK_TCK")


def below(process):
    """A process and all that it started, and these."""
    yield process
    for thread in process.glob("task/*/children"):
        for child in thread.read_text().split():
            yield from below(Path("/proc", child))


def page_processes(driver):
    """The processes of a browser that have pages."""
    own = below(Path("/proc", str(driver.service.process.pid)))
    return [process for process in own if b"--type=renderer" in (process / "cmdline").read_bytes()]


def thread_of_page(process):
    return processor_seconds(process / "task" / process.name / "stat")


def page_seconds(driver):
    """The time of the processor of the thread that draws."""
    return max(map(thread_of_page, page_processes(driver)))


def longest_chain(driver):
    """How many seconds of the processor the page and the worker that joins what others have read took."""
    return max(map(chain_of, page_processes(driver)))


def chain_of(process):
    workers = [processor_seconds(thread / "stat") for thread in process.glob("task/*")
               if (thread / "comm").read_text().startswith("DedicatedWorker")]
    return max(workers, default=0.0) + thread_of_page(process)


def redraws(driver):
    """Of each way to draw lanes how many milliseconds of the processor a redraw takes of the page, and each of some
    redraws of the clock."""
    for name, (mode, coloring) in LANES.items():
        driver.execute_script("setMode(arguments[0]); setColoring(arguments[1]); draw()", mode, coloring)
        before = page_seconds(driver)
        times = [driver.execute_script(browser.REDRAWS) for _ in range(2)]
        spent = (page_seconds(driver) - before) * 1000 / sum(map(len, times))
        yield name, spent, min(times, key=median)


def in_a_browser(folder):
    path = folder / "opened.txt"
    records = write_listing(path, OPENED)
    yield f"{records:,} records with fields, {path.stat().st_size / 1e6:,.0f} MB of text, in the page."
    yield ""
    yield from tables.head("What", "Ours", "Rival", "Ratio", "Limit")
    driver = browser.started()
    driver.set_script_timeout(LONGEST_WAIT)
    try:
        yield tables.compared("opened, seconds of the clock", opened(driver, path, records), digits=1)
        chain = longest_chain(driver)
        yield tables.compared("opened, seconds of the processor", chain, limit=OPEN_SECONDS, digits=1)
        for name, spent, times in redraws(driver):
            what = f"a redraw, {name}, milliseconds of the processor"
            yield tables.compared(what, spent, limit=REDRAW_MILLISECONDS, digits=1)
            yield tables.compared(f"the same, {name}, of the clock", median(times), digits=1)
            yield tables.compared(f"the longest of 40, {name}", max(times), digits=1)
    finally:
        driver.quit()
        path.unlink()


def seconds_of(command):
    """The time of the processor that a command takes."""
    before = resource.getrusage(resource.RUSAGE_CHILDREN)
    subprocess.run(command, check=True)
    after = resource.getrusage(resource.RUSAGE_CHILDREN)
    return after.ru_utime + after.ru_stime - before.ru_utime - before.ru_stime


def as_ctf(folder):
    yield f"{LISTED:,} records as Common Trace Format, by `show/ctf`: seconds of the processor."
    yield ""
    yield from tables.head("What", "Ours", "Rival", "Ratio", "Limit")
    forms = {"a kernel that switches tasks": write_listing, "payloads of 64 bytes": write_payloads,
             "four numbers, all different": write_addresses}
    for name, write in forms.items():
        path = folder / "listed.txt"
        write(path, LISTED)
        seconds = seconds_of([TOP / "show" / "ctf", folder / "ctf", path])
        yield tables.compared(f"`show/ctf`, {name}, seconds", seconds, limit=CTF_SECONDS, digits=1)
        subprocess.run(["rm", "-r", folder / "ctf"], check=True)


def run(folder):
    if not browser.is_there():
        raise Failure("it needs the packages chromium, chromium-driver and python3-selenium")
    yield from as_ctf(folder)
    yield ""
    yield from in_a_browser(folder)
