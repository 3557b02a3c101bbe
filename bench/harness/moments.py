"""Talks of both ends about one frequency moment each."""

from harness.streams import SIDES, put, scattered
from harness.tables import Table
from harness.talks import Talks

DEGREES = (3, 8)

# A moment is below this, if only the weight of its side tells.
MOST_MOMENT = 1 << 60

ENDS = ("helpmom", "moments")


class Moments(Talks):
    HELPING, ASKING = ENDS
    RECORD = ()


def measure(programs, settings, work):
    programs = programs.talks()
    records = settings.records[0]
    table = Table(f"moments of {records} records", "ms of CPU of an end, and the most memory that it has, in KiB", programs)
    for depth in settings.depths:
        for degree in DEGREES:
            updates = list(ones(records, depth, degree))
            talks = Moments(put(updates, depth), depth, work)
            answer = moment_of(updates, degree)
            word = f"moment:0:{degree}"
            for _ in range(settings.rounds):
                for name, program in programs.items():
                    for end, child in zip(ENDS, talks.answered(name, program, word, answer)):
                        table.saw(line_name(end, depth, degree), name, child.cpu * 1e3)
            for name, program in programs.items():
                for end, child in zip(ENDS, talks.answered(name, program, word, answer, traced=True)):
                    table.note(line_name(end, depth, degree), f"{name} KiB", child.peak)
    table.show()
    return table.above


def line_name(end, depth, degree):
    return f"{end:8} {depth} F{degree}"


def most_weight(degree):
    """The greatest weight of a side whose moment has room in a claim."""
    weight = int(MOST_MOMENT ** (1 / degree)) + 1
    while weight**degree >= MOST_MOMENT:
        weight -= 1
    return weight


def ones(records, depth, degree):
    """Updates of 1 at items from everywhere: as many of side 0 as leave room for its moment, evenly among those of side 1."""
    room = min(records, most_weight(degree))
    for number, item in enumerate(scattered(records, depth)):
        is_first = (number + 1) * room // records > number * room // records
        yield SIDES[0] if is_first else SIDES[1], item, 1


def moment_of(updates, degree):
    values = {}
    for side, item, delta in updates:
        if side == SIDES[0]:
            values[item] = values.get(item, 0) + delta
    return sum(value**degree for value in values.values())
