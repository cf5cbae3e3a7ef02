"""For gdb, on the program of walked.c: amid each instruction of each call of the library, its caller and the registers
that a call keeps are found, as they were when it was made. (Calls of the C library are made in one step.) Prints how
many calls and instructions there were."""

import re

import gdb

KEPT = ["rsp", "rbx", "rbp", "r12", "r13", "r14", "r15"]
EXPORT = "tracering_raw_"
# What the library's own functions are called.
OWN = re.compile(r"::|^tracering_|^rattle_")
# How often a place is looked at, which a loop comes to again and again.
OFTEN = 4


def registers(frame):
    return [int(frame.read_register(name).cast(gdb.lookup_type("unsigned long"))) for name in KEPT]


def caller(back):
    """What is found of the frame that goes on at this address."""
    frame = gdb.newest_frame()
    while frame is not None and frame.pc() != back:
        frame = frame.older()
    return registers(frame) if frame is not None else None


def follow(looked):
    """Goes through a call from its first instruction; `looked` has how often each place was looked at."""
    name = gdb.newest_frame().name()
    back = gdb.newest_frame().older().pc()
    before = registers(gdb.newest_frame())
    before[0] += 8
    while (where := gdb.newest_frame()).pc() != back:
        if not OWN.search(where.name() or ""):
            gdb.execute("finish", to_string=True)
            continue
        looked[where.pc()] = looked.get(where.pc(), 0) + 1
        if looked[where.pc()] <= OFTEN and caller(back) != before:
            raise gdb.GdbError(f"walked: {name}: the caller isn't found at {where.pc():#x} in {where.name()}")
        gdb.execute("stepi", to_string=True)


def main():
    names = gdb.execute(f"info functions ^{EXPORT}", to_string=True).split()
    names = {word for word in names if word.startswith(EXPORT)}
    for name in names:
        gdb.Breakpoint(f"*{name}")
    gdb.execute("run", to_string=True)
    seen, looked = set(), {}
    while gdb.selected_inferior().pid:
        seen.add(gdb.newest_frame().name())
        follow(looked)
        gdb.execute("continue", to_string=True)
    if seen != names:
        raise gdb.GdbError(f"walked: {sorted(names - seen)} aren't called")
    if int(gdb.parse_and_eval("$_exitcode")) != 0:
        raise gdb.GdbError("walked: the program's answers are otherwise")
    print(f"walked: {len(names)} calls, {len(looked)} instructions")


gdb.execute("set pagination off")
gdb.execute("set confirm off")
main()
