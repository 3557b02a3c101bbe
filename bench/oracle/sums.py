"""The sum of the sketches of several parts."""

from .field import P, WEIGHT
from .sketches import COUNTED, TOP


class Unlike(Exception):
    """The part with this number does not go into the sum, and why."""

    def __init__(self, part, why):
        super().__init__(part, why)
        self.part, self.why = part, why


def shape(sketch):
    return sketch.depth, sketch.parts, [(seat.kind, seat.block) for seat in sketch.seats]


def unlike(sketch, parts, is_last):
    """Why the last of these parts, behind those before it, does not go into the sum with `sketch`,
    which is None where it is missing. `is_last` says that no part comes behind it."""
    *before, part = parts
    if shape(part) != shape(sketch or parts[0]):
        return "Shape"
    if part.is_whole():
        return "Whole"
    if any(seat.used for seat in part.seats):
        return "UsedSeat"
    if before and part.first_part != before[-1].last_part + 1:
        return "NotNext"
    for side in (0, 1):
        if sum(it.weights[side] for it in parts) > WEIGHT:
            return f"Heavy({side})"
    if sketch is None or not is_last:
        return None
    if sketch.first_part < parts[0].first_part or part.last_part < sketch.last_part:
        return "Missing"
    kept = (sketch.records, *sketch.weights)
    if any(new < old for new, old in zip(totals(parts), kept)):
        return "Fewer"
    return None


def totals(parts):
    return [sum(column) for column in zip(*((it.records, *it.weights) for it in parts))]


def summed(sketch, parts):
    """The sum of the parts, with the used seats of `sketch` as they are in it."""
    for number in range(1, len(parts) + 1):
        why = unlike(sketch, parts[:number], number == len(parts))
        if why:
            raise Unlike(number, why)
    records, *weights = totals(parts)
    negative = 0
    for part in parts:
        negative |= part.negatives
    return parts[0]._replace(
        last_part=parts[-1].last_part,
        weights=tuple(weights),
        records=records,
        negatives=negative,
        fingerprint=sum(part.fingerprint for part in parts) & TOP,
        seats=tuple(
            seat_of(number, sketch, parts) for number in range(len(parts[0].seats))
        ),
    )


def seat_of(number, sketch, parts):
    seats = [part.seats[number] for part in parts]
    if sketch is not None and sketch.seats[number].used:
        return sketch.seats[number]
    first = sum(seat.first for seat in seats) % P
    if seats[0].kind in COUNTED:
        second = sum(seat.second - WEIGHT for seat in seats) + WEIGHT
    else:
        second = sum(seat.second for seat in seats) % P
    return seats[0]._replace(first=first, second=second)
