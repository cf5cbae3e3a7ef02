"""Page images: a plain reader of them, by docs/formats/pages.md."""

import struct

MOST, LIMIT = 65_536, 1 << 64


class Fault(Exception):
    """Why an image has no reading."""


def missed_before(image, commit, size):
    """What the image says of events that were missed before its page: a number, or a word."""
    if not commit >> 31 & 1:
        return "none"
    if not commit >> 30 & 1:
        return "unknown"
    if len(image) - 16 - size < 8:
        raise Fault("BadCount")
    return struct.unpack_from("<Q", image, 16 + size)[0]


def reading(image):
    """The time of a page image, its size, what was missed before it, and its records, by docs/formats/pages.md."""
    if len(image) < 16:
        raise Fault("TooShort")
    time, commit = struct.unpack_from("<QQ", image)
    size = commit & 0x3FFF_FFFF
    if size > len(image) - 16 or len(image) > MOST:
        raise Fault("BadSize")
    missed = missed_before(image, commit, size)
    return time, size, missed, [*records(time, image[16 : 16 + size])]


def records(time, data):
    """The records in the data of a page of that time: each one's moment and payload."""
    at, size = 0, len(data)
    while at < size:
        if size - at < 4:
            raise Fault(f"Cut at {at}")
        first = int.from_bytes(data[at : at + 4], "little")
        kind, delta = first & 31, first >> 5
        if kind == 29 and delta == 0:
            break
        start, length = at + 4, 4 * kind
        if not 1 <= kind <= 28:
            if size - at < 8:
                raise Fault(f"Cut at {at}")
            second = int.from_bytes(data[at + 4 : at + 8], "little")
            start, length = at + 8, 0
            if kind in (0, 29):
                if second < 4 or second % 4:
                    raise Fault(f"BadLength at {at}")
                length = second - 4
        if start + length > size:
            raise Fault(f"Cut at {at}")
        if kind == 31:
            time = delta + (second << 27)
        elif kind != 29:
            time += delta + (second << 27 if kind == 30 else 0)
        if time >= LIMIT:
            raise Fault(f"TimeOverflow at {at}")
        if kind <= 28:
            yield time, data[start : start + length]
        at = start + length


def dumped(image):
    """The exit status and the output of `tracering dump`."""
    try:
        time, size, missed, read = reading(image)
    except Fault as fault:
        return 1, f"image: {fault}\n".encode()
    lines = [f"{moment} {payload.hex() or '-'}\n" for moment, payload in read]
    return 0, f"page {time} size {size} missed {missed}\n{''.join(lines)}".encode()
