"""Streams that are written here, where a made one will not do."""

import struct

from harness.settings import record_size

SIDES = (0, 1)

# The linear congruential generator modulo 2^64 of Knuth's MMIX.
FACTOR, SUMMAND = 6364136223846793005, 1442695040888963407


def put(updates, depth):
    """What writes these updates, each a side, an item and a delta, to a path."""
    form = struct.Struct(">BIq" if record_size(depth) == 13 else ">BQq")

    def write(path):
        with open(path, "wb") as stream:
            stream.write(b"".join(form.pack(*update) for update in updates))

    return write


def scattered(count, depth, number=7):
    """So many items from everywhere."""
    for _ in range(count):
        number = (number * FACTOR + SUMMAND) % (1 << 64)
        yield (number >> 15) % (1 << depth)


def distinct(count, depth):
    """So many items, no two of them the same, in no order."""
    return [place * FACTOR % (1 << depth) for place in range(count)]
