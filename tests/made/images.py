"""Page images made at random, whole and damaged."""

import struct

from oracles.image import LIMIT


def word(kind, delta):
    return struct.pack("<I", kind | delta << 5)


def made_word(rng):
    """The bytes of one word of any kind."""
    delta = rng.choice([0, 0, 1, 2, rng.randrange(1 << 27), (1 << 27) - 1])
    kind = rng.choice([0, 0, 1, 2, 7, 28, rng.randint(1, 28), 29, 30, 31])
    if 1 <= kind <= 28:
        return word(kind, delta) + rng.randbytes(4 * kind)
    if kind in (30, 31):
        return word(kind, delta) + struct.pack("<I", rng.choice([0, 1, rng.randrange(1 << 32), (1 << 32) - 1]))
    if kind == 29 and delta == 0:
        delta = 1
    length = 4 * rng.choice([1, 1, 2, 3, 29, rng.randint(1, 200)])
    return word(kind, delta) + struct.pack("<I", length) + rng.randbytes(length - 4)


def made_image(rng):
    """An image of up to a few hundred words; six of ten are cut, or have a few bytes changed."""
    data = b"".join(made_word(rng) for _ in range(rng.choice([0, 1, 2, 5, 20, 200])))
    if rng.random() < 0.1:
        data += word(29, 0) + rng.randbytes(rng.choice([0, 1, 4, 40]))
    flags = rng.choice([0, 0, 1 << 30, 1 << 31, 3 << 30]) | rng.choice([0, 0, rng.randrange(1 << 32) << 32])
    size = len(data) + rng.choice([0] * 12 + [1, 4, -1, -4, 100, 1 << 29])
    time = rng.choice([0, 7, 1 << 59, LIMIT - 1, LIMIT - 1_000, rng.randrange(LIMIT)])
    rest = rng.choice([b"", bytes(8), rng.randbytes(rng.choice([3, 7, 8, 9, 40]))])
    image = bytearray(struct.pack("<QQ", time, max(size, 0) % (1 << 30) | flags) + data + rest)
    damage = rng.random()
    if damage < 0.3:
        return bytes(image[: rng.randrange(len(image) + 1)])
    if damage < 0.6:
        for _ in range(rng.choice([1, 1, 2, 3])):
            image[rng.randrange(len(image))] = rng.choice([0, 1, 29, 30, 61, 255, rng.randrange(256)])
    return bytes(image)
