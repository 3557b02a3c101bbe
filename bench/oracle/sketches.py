"""What a verifier keeps of a stream in a file, and what of it adds up."""

import hashlib
from functools import reduce
from typing import NamedTuple

from .chacha import challenges
from .field import P, WEIGHT
from .folds import extension, root, root_counted, root_weighed
from .streams import vectors

MAGIC = b"SIPK"
DEEPEST, MOST_SEATS, MOST_PARTS, TOP = 48, 64, 2**32 - 1, 2**64 - 1

# The kinds of seats, by the words that begin them.
KINDS = {1: "entries", 2: "sums:0", 3: "sums:1", 4: "products", 5: "heavy:0", 6: "heavy:1"}
KINDS |= {7: "above:0", 8: "above:1"}
ROOT, SUMS, PRODUCTS, COUNTED, WEIGHED = (1,), (2, 3), (4,), (5, 6), (7, 8)


class Bad(Exception):
    """The field that begins at this byte has none of its values, or the bytes end in it."""

    def __init__(self, at):
        super().__init__(at)
        self.at = at


class Seat(NamedTuple):
    kind: int
    used: bool
    block: tuple
    first: int
    second: int


class Sketch(NamedTuple):
    depth: int
    parts: int
    first_part: int
    last_part: int
    weights: tuple
    records: int
    negatives: int
    fingerprint: int
    seats: tuple

    def is_whole(self):
        return (self.first_part, self.last_part) == (1, self.parts)


def mixed(z):
    """The finaliser of splitmix64 (G. Steele, D. Lea, C. Flood, 2014)."""
    z = (z + 0x9E3779B97F4A7C15) & TOP
    z = (z ^ z >> 30) * 0xBF58476D1CE4E5B9 & TOP
    z = (z ^ z >> 27) * 0x94D049BB133111EB & TOP
    return z ^ z >> 31


def fingerprint(updates):
    return sum(delta * mixed(2**48 * side + item) for side, item, delta in updates) & TOP


def negatives(updates):
    return reduce(int.__or__, (1 << side for side, _, delta in updates if delta < 0), 0)


def numbers(kind, block, both):
    """The two numbers of a seat, of a stream with these vectors."""
    if kind in ROOT:
        return root(both[0], block), 0
    if kind in SUMS:
        return extension(both[kind - SUMS[0]], block), 0
    if kind in PRODUCTS:
        return extension(both[0], block), extension(both[1], block)
    if kind in WEIGHED:
        return root_weighed(both[kind - WEIGHED[0]], block)[0], 0
    hash_, total = root_counted(both[kind - COUNTED[0]], block)
    return hash_, total + WEIGHT


def begun(seed, depth, part, parts, kinds):
    """The sketch of the empty stream, with seats of these kinds."""
    blocks = challenges(seed, depth, len(kinds))
    both = vectors([])
    seats = (
        Seat(kind, False, tuple(block), *numbers(kind, block, both))
        for kind, block in zip(kinds, blocks)
    )
    return Sketch(depth, parts, part, part, (0, 0), 0, 0, 0, tuple(seats))


def joined(seat, more):
    """A seat's numbers behind those of more of the stream. A used seat keeps its own."""
    if seat.used:
        return seat
    first, second = seat.first + more[0], seat.second + more[1]
    second = second - WEIGHT if seat.kind in COUNTED else second % P
    return seat._replace(first=first % P, second=second)


def watched(sketch, updates):
    """The sketch behind these updates, which are legal behind its own."""
    both = vectors(updates)
    return sketch._replace(
        weights=tuple(w + v.weight for w, v in zip(sketch.weights, both)),
        records=sketch.records + len(updates),
        negatives=sketch.negatives | negatives(updates),
        fingerprint=(sketch.fingerprint + fingerprint(updates)) & TOP,
        seats=tuple(joined(s, numbers(s.kind, s.block, both)) for s in sketch.seats),
    )


def stands(sketch, updates):
    """Whether a sketch stands for a legal stream: what a used seat has is free."""
    both = vectors(updates)
    return (
        sketch.records == len(updates)
        and sketch.weights == tuple(side.weight for side in both)
        and sketch.negatives == negatives(updates)
        and sketch.fingerprint == fingerprint(updates)
        and all(
            seat.used or (seat.first, seat.second) == numbers(seat.kind, seat.block, both)
            for seat in sketch.seats
        )
    )


# ---- the file


def spelled(sketch):
    """The bytes of a sketch."""
    data = MAGIC + bytes([1, sketch.depth])
    for number in (sketch.parts, sketch.first_part, sketch.last_part):
        data += number.to_bytes(4, "big")
    for number in (*sketch.weights, sketch.records):
        data += number.to_bytes(8, "big")
    data += bytes([sketch.negatives]) + sketch.fingerprint.to_bytes(8, "big")
    data += bytes([len(sketch.seats)])
    for seat in sketch.seats:
        data += bytes([seat.kind, seat.used])
        for number in (*seat.block, seat.first, seat.second):
            data += number.to_bytes(8, "big")
    return data + hashlib.sha256(data).digest()


class Fields:
    """Bytes, taken field by field."""

    def __init__(self, data):
        self.data, self.at = data, 0

    def number(self, size, least, most):
        """The number that stands next, which is in this range."""
        end = self.at + size
        value = int.from_bytes(self.data[self.at : end], "big")
        if end > len(self.data) or not least <= value <= most:
            raise Bad(self.at)
        self.at = end
        return value

    def seat(self, depth, weights, negative):
        kind = self.number(1, 1, len(KINDS))
        used = bool(self.number(1, 0, 1))
        block = tuple(self.number(8, 0, P - 1) for _ in range(depth))
        first = self.number(8, 0, P - 1)
        least, most = 0, 0
        if kind in PRODUCTS:
            most = P - 1
        elif kind in COUNTED:
            side = kind - COUNTED[0]
            least, most = WEIGHT - weights[side], WEIGHT + weights[side]
            if not used and not negative >> side & 1:
                least = most
        return Seat(kind, used, block, first, self.number(8, least, most))


def read(data):
    """The sketch that these bytes are; `Bad` where they are none."""
    take = Fields(data)
    for byte in MAGIC:
        take.number(1, byte, byte)
    take.number(1, 1, 1)
    depth = take.number(1, 1, DEEPEST)
    parts = take.number(4, 1, MOST_PARTS)
    first_part = take.number(4, 1, parts)
    last_part = take.number(4, first_part, parts)
    weights = take.number(8, 0, WEIGHT), take.number(8, 0, WEIGHT)
    records = take.number(8, 0, sum(weights))
    negative = take.number(1, 0, 3)
    if any(negative >> side & 1 and not weights[side] for side in (0, 1)):
        raise Bad(take.at - 1)
    fingerprint_ = take.number(8, 0, TOP)
    count = take.number(1, 1, MOST_SEATS)
    seats = tuple(take.seat(depth, weights, negative) for _ in range(count))
    if data[take.at : take.at + 32] != hashlib.sha256(data[: take.at]).digest():
        raise Bad(take.at)
    if len(data) > take.at + 32:
        raise Bad(take.at + 32)
    return Sketch(
        depth, parts, first_part, last_part, weights, records, negative, fingerprint_, seats
    )


def listing(sketch):
    """What `seats` writes."""
    sides = "".join(f" {side}" for side in (0, 1) if sketch.negatives >> side & 1)
    lines = [
        f"depth {sketch.depth}",
        f"parts {sketch.first_part} to {sketch.last_part} of {sketch.parts}",
        f"records {sketch.records} weights {sketch.weights[0]} {sketch.weights[1]}"
        f" fingerprint {sketch.fingerprint:016x}",
        f"negatives{sides or ' none'}",
    ]
    for number, seat in enumerate(sketch.seats, 1):
        lines.append(f"seat {number} {KINDS[seat.kind]} {'used' if seat.used else 'unused'}")
    return "".join(line + "\n" for line in lines).encode()
