"""Exchanges with a ring, which are answered as by a plain ring."""

from made.rows import Source
from oracles.ring import compare

# How many lists of events there are.
LISTS = 1_500


def tried(program, seed=1, share=1):
    """Tries one of `share` lists."""
    lists = LISTS // int(share)
    compare(program, map(Source(seed).row, range(lists)), f"random: seed {seed}, rows")
    return f"{lists:,} random rows are answered as by the plain ring"
