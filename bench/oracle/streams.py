"""Streams in their three forms, the generator of made ones, and the vectors that they add up to."""

import re

from .field import WEIGHT

LINE = re.compile(rb"(0|[1-9][0-9]*) (0|[1-9][0-9]*) (0|-?[1-9][0-9]*)", re.ASCII)

# A line has at most so many bytes, its line feed included.
LONGEST = 40

# The bytes of an item in the two forms of records.
ITEM_BYTES = {"binary": 4, "wide": 8}


def signed(bytes_):
    return int.from_bytes(bytes_, "big", signed=True)


def record(update, form):
    """The one spelling of an update in this form."""
    side, item, delta = update
    if form == "text":
        return b"%d %d %d\n" % (side, item, delta)
    item = item.to_bytes(ITEM_BYTES[form], "big")
    return bytes([side]) + item + delta.to_bytes(8, "big", signed=True)


def next_record(data, at, form):
    """What the bytes from here on begin with, and where the next record begins: numbers, or why
    there are none."""
    if form == "text":
        return next_line(data, at)
    end = at + 9 + ITEM_BYTES[form]
    if len(data) < end:
        return "Truncated", end
    item = int.from_bytes(data[at + 1 : end - 8], "big")
    return (data[at], item, signed(data[end - 8 : end])), end


def next_line(data, at):
    feed = data.find(b"\n", at, at + LONGEST)
    if feed < 0:
        return ("BadLine" if len(data) - at > LONGEST else "Truncated"), len(data)
    shape = LINE.fullmatch(data, at, feed)
    if not shape:
        return "BadLine", feed + 1
    side, item, delta = map(int, shape.groups())
    if item >= 2**64 or not -(2**63) <= delta < 2**63:
        return "BadLine", feed + 1
    return (side, item, delta), feed + 1


def records(data, depth, form, known=0, kept=(0, 0)):
    """The legal updates that the bytes begin with, and the number of the first record that isn't
    legal with why, or None where they are legal to their end. Behind the first `known` of them,
    which are legal behind each other, records are legal behind a stream of the weights `kept`."""
    updates, weights, at = [], [0, 0], 0
    while at < len(data):
        if len(updates) == known:
            weights = list(kept)
        update, at = next_record(data, at, form)
        why = update if isinstance(update, str) else illegal(update, depth, weights)
        if why:
            return updates, (len(updates), why)
        updates.append(update)
    return updates, None


def illegal(update, depth, weights):
    """Why an update isn't legal behind those of these weights; else it is added to them."""
    side, item, delta = update
    if side > 1:
        return "BadSide"
    if item >= 2**depth:
        return "BadItem"
    if delta == 0:
        return "ZeroDelta"
    if weights[side] + abs(delta) > WEIGHT:
        return f"TooHeavy({side})"
    weights[side] += abs(delta)
    return None


def made(number, count, depth):
    """The updates of the generator."""
    x = number
    for _ in range(count):
        x = (x * 6364136223846793005 + 1442695040888963407) % 2**64
        high = x // 2**15
        yield x // 2**63, high % 2 if x // 2**8 % 4 == 0 else high % 2**depth, 1 + x // 2**12 % 8


def made_form(depth):
    return "binary" if depth <= 32 else "wide"


class Vector:
    """What one side's deltas add up to, entries that are not 0 alone, and what their sizes do."""

    def __init__(self, updates, side):
        entries, weights, self.weight = {}, {}, 0
        for of, item, delta in updates:
            if of == side:
                entries[item] = entries.get(item, 0) + delta
                weights[item] = weights.get(item, 0) + abs(delta)
                self.weight += abs(delta)
        self.weights = dict(sorted(weights.items()))
        self.entries = {item: value for item, value in sorted(entries.items()) if value != 0}
        self.total = sum(entries.values())
        self.is_strict = all(value > 0 for value in self.entries.values())


def vectors(updates):
    return Vector(updates, 0), Vector(updates, 1)
