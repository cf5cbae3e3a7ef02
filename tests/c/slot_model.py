#!/usr/bin/env python3
"""Tries all interleavings of one slot's writer with one reader, or with a kill: tests/c/slot_model.py

The writer fills the slot again and again: it zeroes commit, stores the fill, and then each cell of data and how many
are whole. Its stores are seen in their order, and each load of the reader is done before the next one, at any moment
that isn't before that of the last. What the reader takes for whole has to be of the fill that it says. The order that
docs/formats/pages.md, "Regions", states is never wrong; each other one that is tried here has to be.
"""

import sys

FILLS, CELLS = 4, 4


def stores(zeroes=True, fill_first=True, early=False):
    """The writer's stores, in their order: which word, and its new value. A cell's value is the fill that it is of."""
    made = []
    for fill in range(1, FILLS + 1):
        made += [("commit", 0)] if zeroes else []
        made += [("fill", fill)] if fill_first else []
        for cell in range(CELLS):
            both = [(cell, fill), ("commit", cell + 1)]
            made += both[::-1] if early else both
        made += [] if fill_first else [("fill", fill)]
    return made


def memories(made):
    """What the slot has at each moment, from one with a whole page of fill 0 on."""
    memory = {"commit": CELLS, "fill": 0} | {cell: 0 for cell in range(CELLS)}
    seen = [memory]
    for word, value in made:
        memory = memory | {word: value}
        seen.append(memory)
    return seen


def is_wrong_after_kill(memory):
    return any(memory[cell] != memory["fill"] for cell in range(memory["commit"]))


class Reader:
    """Counts the readings of which it makes each, and those that are wrong."""

    def __init__(self, seen, first=("fill", "commit"), looks_again=True):
        self.seen, self.looks_again = seen, looks_again
        self.readings = self.wrong = 0
        self.load(0, [(word, word) for word in first], {}, False)

    def load(self, at, loads, got, has_cells):
        if not loads and not has_cells:
            cells = [(cell, cell) for cell in range(got["commit"])]
            return self.load(at, [*cells, ("fill", "fill again"), ("commit", "commit again")], got, True)
        if not loads:
            return self.judge(got)
        (word, name), *rest = loads
        # Of the moments with one value the earliest leaves all that the others do.
        earliest = {}
        for moment in range(at, len(self.seen)):
            earliest.setdefault(self.seen[moment][word], moment)
        for value, moment in earliest.items():
            self.load(moment, rest, got | {name: value}, has_cells)
        return None

    def judge(self, got):
        self.readings += 1
        changed = got["fill again"] != got["fill"] or got["commit again"] < got["commit"]
        if not (changed and self.looks_again):
            self.wrong += any(got[cell] != got["fill"] for cell in range(got["commit"]))


def tried(first=("fill", "commit"), looks_again=True, **order):
    """How many readings there are, how many of them are wrong, and after how many kills what is left is wrong."""
    seen = memories(stores(**order))
    reader = Reader(seen, first, looks_again)
    return reader.readings, reader.wrong, sum(map(is_wrong_after_kill, seen))


# What is planted, and whether a reader, and a kill, have to find it.
PLANTED = (
    ("commit isn't zeroed", {"zeroes": False}, True, True),
    ("commit is stored early", {"early": True}, True, True),
    ("fill is stored last", {"fill_first": False}, True, True),
    ("fill is loaded late", {"first": ("commit", "fill")}, True, False),
    ("nothing is loaded again", {"looks_again": False}, True, False),
)


def main():
    readings, wrong, killed = tried()
    if wrong or killed or readings < 1000:
        sys.exit(f"slot_model: of {readings} readings {wrong} are wrong, and {killed} moments of a kill")
    for what, order, by_reader, by_kill in PLANTED:
        _, wrong, killed = tried(**order)
        if (wrong > 0, killed > 0) != (by_reader, by_kill):
            sys.exit(f"slot_model: {what}: {wrong} readings are wrong, and {killed} moments of a kill")
    print(f"slot_model: {readings} readings right, and each of {len(PLANTED)} other orders found wrong")


main()
