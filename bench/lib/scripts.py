"""Scripts for the benchmark of replays: those that are measured, and made ones of all kinds of lines."""

import random

LAST_FILL = 2**48 - 1


def header(pages=16, size=4080, cpus=1, collectors=1):
    return b"pages %d\nsize %d\ncpus %d\ncollectors %d\n" % (pages, size, cpus, collectors)


def payload(rng, length):
    return rng.randbytes(length).hex().encode() or b"-"


def per_page(length, size=4080):
    """How many records with payloads of this length a page has room for."""
    slot = max(4, -(-length // 4) * 4)
    return size // (slot + (4 if slot <= 112 else 8))


def writes(records, length, pages=16, collectors=1):
    """Writes of payloads of this length; each page is closed, taken and delivered to each collector when it is full."""
    rng = random.Random(length)
    lines = [header(pages, collectors=collectors)]
    for number in range(records):
        lines.append(b"c0 w %d %s\n" % (1_000_000 + 100 * number, payload(rng, length)))
        if (number + 1) % per_page(length) == 0 or number + 1 == records:
            lines.append(b"c0 c\nc0 t\n")
            lines += [b"d %d c0 %d\n" % (collector, number // per_page(length)) for collector in range(collectors)]
    return b"".join(lines)


def nested(records):
    """Writers three deep, each interrupted after its reservation, with payloads of 8 bytes."""
    rng = random.Random(3)
    lines = [header()]
    for number in range(0, records, 3):
        moment = 1_000_000 + 100 * number
        given = (moment, payload(rng, 8), moment + 10, payload(rng, 8), moment + 20, payload(rng, 8))
        lines.append(b"c0 b %d %s\nc0 s 1\nc0 b %d %s\nc0 s 1\nc0 w %d %s\nc0 f\nc0 f\n" % given)
        if (number // 3 + 1) % (per_page(8) // 3) == 0:
            lines.append(b"c0 c\nc0 t\nd 0 c0 %d\n" % (number // 3 // (per_page(8) // 3)))
    return b"".join(lines)


def many_cpus(records, cpus=64, collectors=4):
    """So many CPUs in turn, and collectors to which each page is delivered; payloads of 8 bytes."""
    rng = random.Random(64)
    lines = [header(cpus=cpus, collectors=collectors)]
    full = per_page(8)
    for number in range(records):
        cpu, at = number % cpus, number // cpus
        lines.append(b"c%d w %d %s\n" % (cpu, 1_000_000 + 100 * number, payload(rng, 8)))
        if (at + 1) % full == 0 or number + cpus >= records:
            lines.append(b"c%d c\nc%d t\n" % (cpu, cpu))
            lines += [b"d %d c%d %d\n" % (collector, cpu, at // full) for collector in range(collectors)]
    return b"".join(lines)


def full_ring(pages):
    """A ring of so many pages, all of them full before the first is taken; each is delivered."""
    rng = random.Random(pages)
    lines = [header(pages)]
    lines += [b"c0 w %d %s\n" % (moment, payload(rng, 8)) for moment in range(pages * per_page(8))]
    lines += [b"c0 c\n", *(b"c0 t\nd 0 c0 %d\n" % fill for fill in range(pages))]
    return b"".join(lines)


def shuffled(fills):
    """So many pages of one record each, all of them taken before the first is delivered, in any order."""
    order = [*range(fills)]
    random.Random(fills).shuffle(order)
    taken = [b"c0 w %d 0011223344556677\nc0 c\nc0 t\n" % moment for moment in range(fills)]
    return b"".join([header(2, 32), *taken, *(b"d 0 c0 %d\n" % fill for fill in order)])


def deliveries(lines):
    """One full page, delivered to 16 collectors in turn."""
    text = [header(collectors=16)] + [b"c0 w %d 0011223344556677\n" % moment for moment in range(per_page(8))]
    return b"".join([*text, b"c0 c\nc0 t\n", *(b"d %d c0 0\n" % (number % 16) for number in range(lines))])


def repeated(*lines, size=4080):
    """These lines, again and again."""
    return lambda count: header(2, size) + b"".join(lines) * (count // len(lines))


PAGE_OF_ONE = (b"c0 w 1 -\n", b"c0 c\n", b"c0 t\n")


def stepped(lines):
    """Frames that are pushed and stepped to their end in a full ring, so that each moves the head."""
    text = b"".join(b"c0 b %d %s\nc0 s 1000000\n" % (moment, b"00" * 28) for moment in range(lines // 2))
    return header(2, 32) + text


PAYLOADS = ((8, 13_600, 1_000_000), (100, 1_560, 500_000), (4000, 400, 25_000))

# Name, what makes it, how many lines or records callgrind meets, how many GNU time, and what they are.
SCRIPTS = (
    ("writers three deep", nested, 13_560, 300_000, "record"),
    ("64 CPUs, 4 collectors", many_cpus, 87_040, 300_000, "record"),
    ("one page to 16 collectors in turn", deliveries, 1_600, 1_000_000, "line"),
    ("`c0 t`", repeated(b"c0 t\n"), 10_000, 2_000_000, "line"),
    ("`c0 a`", repeated(b"c0 a\n"), 10_000, 2_000_000, "line"),
    ("`c0 c`", repeated(b"c0 c\n"), 10_000, 2_000_000, "line"),
    ("`c0 f`", repeated(b"c0 f\n"), 10_000, 2_000_000, "line"),
    ("`d 0 c0 0`, not taken", repeated(b"d 0 c0 0\n"), 10_000, 1_000_000, "line"),
    ("`c0 r 1000000`", repeated(b"c0 r 1000000\n"), 10_000, 1_000_000, "line"),
    ("`c0 b` and `c0 s 1000000`, full ring", stepped, 10_000, 1_000_000, "line"),
    ("`c0 w 1 -`, `c0 c`, `c0 t`, pages of 32", repeated(*PAGE_OF_ONE, size=32), 9_999, 999_999, "line"),
    ("the same, of 4,080", repeated(*PAGE_OF_ONE), 9_999, 999_999, "line"),
    ("the same, of 65,520", repeated(*PAGE_OF_ONE, size=65_520), 999, 9_999, "line"),
)


def made_script(rng):
    """A small script of all kinds of lines, a third of them cut or with a few bytes changed, or a few bytes of any kind."""
    if rng.random() < 0.05:
        return rng.randbytes(rng.randrange(64))
    pages, size = rng.choice([2, 2, 2, 3, 3, 4, 5, 7]), rng.choice([32, 32, 32, 36, 40, 48, 64, 64, 128, 256, 4080])
    cpus, collectors = rng.choice([1, 1, 1, 2, 3, 5]), rng.choice([1, 1, 2, 3, 16])
    first = 0
    text = header(pages, size, cpus, collectors)
    if rng.random() < 0.25:
        last = LAST_FILL - pages
        first = rng.choice([0, 1, pages - 1, pages, 12345, last, last - 1, last - 2, last - 3, last - pages, last - 9])
        text += b"start %d\n" % first
    text += b"".join(made_lines(rng, size, cpus, collectors, first))
    if rng.random() < 0.2:
        return text[: rng.randrange(len(text) + 1)]
    if rng.random() < 0.2:
        changed = bytearray(text)
        for _ in range(rng.choice([1, 1, 2, 3])):
            at = rng.randrange(len(changed))
            changed[at : at + rng.randrange(3)] = rng.choice(CHANGES)
        return bytes(changed)
    return text


CHANGES = [b"", b" ", b"\n", b"0", b"c", b"x", b"9", b"-", b"#", b"\r", b"\0", b"\xff", b"c1", b" t", b"start 5\n"]
CHANGES += [b"0" * 23, b"18446744073709551615", b"18446744073709551616"]


# How often each command of "wbsfcrtad" comes.
WEIGHTS = [(25, 12, 20, 5, 6, 12, 8, 4, 8), (20, 6, 20, 2, 4, 28, 8, 6, 4), (50, 2, 4, 1, 4, 4, 10, 2, 10)]


def made_lines(rng, size, cpus, collectors, first):
    moments = [rng.choice([0, 1, 100, 2**59 - 20, 2**27 - 3]) for _ in range(cpus)]
    weights = rng.choice(WEIGHTS)
    count = rng.randrange(120)
    for _ in range(count):
        cpu = rng.choice([0, rng.randrange(cpus)])
        what = rng.choices("wbsfcrtad", weights)[0]
        if what in "wb":
            step = rng.choice([0, 1, 1, 2] * 5 + [5, 2**27 - 1, 2**27, 2**27 + 1, 2**40])
            moments[cpu] = min(moments[cpu] + step, 2**59 - 1)
            moment = rng.choice([moments[cpu]] * 40 + [0, 5, 2**59 - 1, 2**59, 2**64 - 1])
            lengths = [0, 1, 3, 4, 5, 8, 20, 24, 28] * 3 + [size - 8, size - 5, size - 4, size // 2, 29, 112, 113, size]
            digits = payload(rng, rng.choice(lengths))
            yield b"c%d %s %d %s\n" % (cpu, what.encode(), moment, digits.upper() if rng.random() < 0.1 else digits)
        elif what in "sr":
            yield b"c%d %s %d\n" % (cpu, what.encode(), rng.choice([1, 1, 1, 2, 2, 3, 4, 5, 6, 8, 10, 20, 1_000_000]))
        elif what == "d":
            fill = rng.choice([first + rng.randrange(max(1, count // 3))] * 20 + [0, first, 2**48, 2**64 - 1])
            yield b"d %d c%d %d\n" % (rng.randrange(collectors), cpu, fill)
        else:
            yield b"c%d %s\n" % (cpu, what.encode())
        if rng.random() < 0.02:
            yield rng.choice([b"\n", b"# comment\n", b"#\n"])
    for cpu in range(cpus):
        yield from (b"c%d f\n" % cpu for _ in range(rng.choice([0, 1, 3])))
        yield from (b"c%d c\nc%d t\n" % (cpu, cpu) for _ in range(rng.choice([0, 1, 4])))
        for fill in range(rng.choice([0, 5, 20, 40])):
            yield b"d %d c%d %d\n" % (rng.randrange(collectors), cpu, first + fill)
