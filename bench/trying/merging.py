"""Cases of sums: the sketches of parts of a stream, in their order or not, of which some are lost,
come twice, are too heavy, were asked, or are no sketches of that stream; and what is replaced."""

from oracle.field import WEIGHT
from oracle.sketches import MOST_PARTS, begun, spelled, watched
from oracle.sums import Unlike, summed

from . import spoiled
from .case import Case
from .sketching import beside

HALF = (WEIGHT + 1) // 2


def case(chance):
    """Words of `merge`, and its files."""
    depth, seed, kinds = chance.depth(), chance.seed_bytes(), spoiled.kinds(chance)
    parts = pieces(chance, depth, seed, kinds, logs(chance, depth))
    names = [f"part{number}" for number in range(len(parts))]
    files = {name: spelled(it) for name, it in zip(names, parts)}
    asked = list(names)
    for _ in range(chance.choice((0, 0, 1, 1, 2))):
        asked, files = otherwise(chance, asked, files, parts)
    target = into(chance, depth, seed, kinds, parts)
    name = "sketch"
    if target is not None:
        files["sketch"] = target
    elif chance.one_in(6):
        name = chance.choice(names)
    words = [b"merge", *(word.encode() for word in [name, *asked])]
    if chance.one_in(300):
        words = words[:2] + [words[-1]] * chance.choice((1023, 1024, 1025))
    return beside(chance, Case(words, files))


def logs(chance, depth):
    """The streams of the parts, of which the weights often are at their greatest together."""
    count = chance.choices((1, 2, 3, chance.randint(4, 9)), (10, 45, 30, 15))[0]
    found = [chance.legal(depth) for _ in range(count)]
    if chance.one_in(5) and count > 1:
        side, last = chance.randrange(2), chance.choice((HALF - 1, HALF - 1, HALF, 1 - HALF))
        found[:2] = [(side, 0, HALF)], [(side, 0, last)]
    return found


def pieces(chance, depth, seed, kinds, streams):
    """The parts' sketches. One may be a sum of two, and there may be more parts than these."""
    count = len(streams)
    more = chance.choice((0, 0, 0, 1, 2, 2**32 - 1 - count))
    first = 1 + chance.choice((0, more))
    all_ = count + more
    found = [
        watched(begun(seed, depth, first + number, all_, kinds), stream)
        for number, stream in enumerate(streams)
    ]
    if len(found) > 2 and chance.one_in(3):
        at = chance.randrange(len(found) - 1)
        try:
            found[at : at + 2] = [summed(None, found[at : at + 2])]
        except Unlike:
            pass
    return found


def otherwise(chance, asked, files, parts):
    """The words or the files of the parts with one thing changed."""
    asked, at = list(asked), chance.randrange(len(asked)) if asked else 0
    way = chance.choice(("lost", "twice", "swap", "file", "file", "file", "none"))
    if not asked or way == "none":
        asked.insert(at, chance.choice(("none", "none/part", "part0")))
    elif way == "lost" and len(asked) > 1:
        del asked[at]
    elif way == "twice":
        asked.insert(chance.randint(0, len(asked)), asked[at])
    elif way == "swap":
        other = chance.randrange(len(asked))
        asked[at], asked[other] = asked[other], asked[at]
    else:
        at = chance.randrange(len(parts))
        files = {**files, f"part{at}": part_changed(chance, parts[at])}
    return asked, files


def part_changed(chance, it):
    """The bytes of a part with another shape, a seat that was used, or a fault."""
    way = chance.choice(("used", "used", "spoiled", "seat", "parts", "whole"))
    if way == "used":
        return spelled(spoiled.used(chance, it, 2))
    if way == "spoiled":
        return spoiled.spoiled(chance, it)
    if way == "seat":
        seats = list(it.seats)
        at = chance.randrange(len(seats))
        if chance.one_in(2) and len(seats) > 1:
            del seats[at]
        else:
            block = list(seats[at].block)
            block[chance.randrange(it.depth)] ^= 1
            seats[at] = seats[at]._replace(block=tuple(block))
        return spelled(it._replace(seats=tuple(seats)))
    if way == "parts":
        parts = max(it.last_part, it.parts + chance.choice((1, -1)))
        return spelled(it._replace(parts=min(parts, MOST_PARTS)))
    return spelled(it._replace(first_part=1, last_part=it.parts))


def into(chance, depth, seed, kinds, parts):
    """What stands in SKETCH before: nothing, an earlier sum of which seats were used, that of more
    or of other parts, another sketch, or no sketch."""
    ways = ("none", "front", "sum", "other", "bad", "empty")
    way = chance.choices(ways, (45, 15, 28, 5, 5, 2))[0]
    if way == "none":
        return None
    if way == "empty":
        return b""
    before = parts
    if way == "front":
        # The parts before they grew.
        before = [
            begun(seed, depth, it.first_part, it.parts, kinds)._replace(last_part=it.last_part)
            for it in parts
        ]
    if way == "other":
        return spelled(spoiled.sketch(chance, depth, chance.legal(depth)))
    try:
        it = summed(None, before)
    except Unlike:
        it = parts[0]
    if way == "sum" and chance.one_in(2):
        it = changed_sum(chance, it)
    it = spoiled.used(chance, it)
    return spoiled.spoiled(chance, it) if way == "bad" else spelled(it)


def changed_sum(chance, it):
    """A sum that has a record more or less, or a part more."""
    way = chance.choice(("records", "weight", "first", "last"))
    if way == "records":
        most = sum(it.weights)
        return it._replace(records=min(max(it.records + chance.choice((1, -1)), 0), most))
    if way == "weight":
        side = chance.randrange(2)
        if it.weights[side] == WEIGHT:
            return it
        # One record adds up to as much as two others.
        return watched(it, [(side, 0, 1)])._replace(records=it.records)
    if way == "first":
        return it._replace(first_part=max(it.first_part - 1, 1))
    return it._replace(last_part=min(it.last_part + 1, it.parts))
