"""Reads Trace Event Format, Chrome's JSON, by its rules: what breaks one is an error."""

import json
from collections import defaultdict
from decimal import Decimal

KEYS = {"i": {"ph", "s", "pid", "tid", "ts", "name", "args"}, "X": {"ph", "pid", "tid", "ts", "dur", "name", "args"},
        "M": {"ph", "pid", "tid", "name", "args"}}


class Broken(Exception):
    """Which rule isn't followed."""


def check(is_so, said):
    if not is_so:
        raise Broken(said)


def read(text):
    """What a text has beside its events, and these by their kind; times are whole nanoseconds."""
    trace = json.loads(text, parse_float=Decimal)
    check(trace["displayTimeUnit"] == "ns", "the unit")
    found = defaultdict(list)
    for event in trace["traceEvents"]:
        follows_rules(event)
        found[event["ph"]].append(event)
    nests(found["X"])
    tracks = {(event["pid"], event["tid"]) for kind in "iX" for event in found[kind]}
    named = {(event["pid"], event["tid"]) for event in found["M"] if event["name"] == "thread_name"}
    check(tracks <= named, f"tracks without a name: {tracks - named}")
    return trace["otherData"], found


def follows_rules(event):
    """Each event has the fields of its phase: identifiers are whole, times numbers of microseconds, a length isn't
    below 0, an instant has a scope, and a name of metadata is one of those that are known."""
    check(event.get("ph") in KEYS and set(event) == KEYS[event["ph"]], f"the fields of {event}")
    check(all(isinstance(event[key], int) and event[key] >= 0 for key in ("pid", "tid")), f"{event}")
    check(isinstance(event["name"], str) and isinstance(event["args"], dict), f"{event}")
    for key in ("ts", "dur"):
        if key in event:
            event[key] = Decimal(event[key]) * 1000
            check(event[key] == int(event[key]), f"a part of a nanosecond: {event}")
            event[key] = int(event[key])
    check(event.get("dur", 0) >= 0, f"a length below 0: {event}")
    check(event["ph"] != "i" or event["s"] == "t", f"an instant of no thread: {event}")
    check(event["ph"] != "M" or event["name"] in ("process_name", "thread_name"), f"{event}")


def nests(slices):
    """Slices of one track are one after the other, or one within the other."""
    tracks = defaultdict(list)
    for event in slices:
        tracks[event["pid"], event["tid"]].append((event["ts"], -event["dur"], event["name"]))
    for track, own in tracks.items():
        open_ends = []
        for begin, length, what in sorted(own):
            while open_ends and open_ends[-1] <= begin:
                open_ends.pop()
            check(not open_ends or begin - length <= open_ends[-1], f"{what} of {track} ends outside another")
            open_ends.append(begin - length)
