"""Sketches, and bytes that are nearly one: fields at their edges, with the digest made good or not,
bytes changed, cut or added."""

from hashlib import sha256

from oracle.field import P, WEIGHT
from oracle.sketches import KINDS, MOST_PARTS, begun, spelled, watched

from . import changes

DIGEST = 32

def kinds(chance):
    """The kinds of the seats of a sketch."""
    count = chance.choices((1, 2, chance.randint(3, 6), 64), (30, 40, 29, 1))[0]
    if chance.one_in(2):
        return [chance.choice((1, 2, 3, 4, 5, 6))] * count
    return [chance.randint(1, 6) for _ in range(count)]


def words_of(kinds_):
    """The words that ask for these seats, neighbours of one kind in one word."""
    counts = []
    for kind in kinds_:
        if counts and counts[-1][0] == kind:
            counts[-1][1] += 1
        else:
            counts.append([kind, 1])
    return [f"{KINDS[kind]}:{count}" for kind, count in counts]


def sketch(chance, depth, updates, part=1, parts=1, of=None):
    """A sketch of a stream, with seats of these kinds."""
    empty = begun(chance.seed_bytes(), depth, part, parts, of or kinds(chance))
    return watched(empty, updates)


def used(chance, it, often=3):
    """The same with some seats used, as behind some asks."""
    seats = (seat._replace(used=seat.used or chance.one_in(often)) for seat in it.seats)
    return it._replace(seats=tuple(seats))


def mended(data):
    """The bytes with a digest that is right."""
    return data[:-DIGEST] + sha256(data[:-DIGEST]).digest()


def fields(it):
    """Each field: where it begins, how many bytes it has, and numbers at the edges of what it may
    have."""
    yield from ((at, 1, (0x53, 0x49, 0x50, 0x4B)) for at in range(4))
    heavy = WEIGHT, WEIGHT + 1, 1
    counts = (0, 1, it.records - 1, it.records + 1, sum(it.weights), sum(it.weights) + 1)
    yield from (
        (4, 1, (0, 1, 2)),
        (5, 1, (0, 1, 48, 49, it.depth - 1, it.depth + 1)),
        (6, 4, (0, 1, it.last_part - 1, it.last_part, MOST_PARTS)),
        (10, 4, (0, 1, it.last_part, it.last_part + 1, it.parts, MOST_PARTS)),
        (14, 4, (0, it.first_part, it.first_part - 1, it.parts, it.parts + 1, MOST_PARTS)),
        (18, 8, (0, it.weights[0] - 1, *heavy)),
        (26, 8, (0, it.weights[1] - 1, *heavy)),
        (34, 8, counts),
        (42, 1, (0, 1, 2, 3, 4)),
        (43, 8, (0, 2**64 - 1)),
        (51, 1, (0, 1, 64, 65, len(it.seats) - 1, len(it.seats) + 1)),
    )
    for number, seat in enumerate(it.seats):
        at = 52 + number * (2 + 8 * (it.depth + 2))
        yield from ((at, 1, (0, 1, *range(4, 10))), (at + 1, 1, (0, 1, 2)))
        block = range(at + 2, at + 2 + 8 * it.depth, 8)
        yield from ((at, 8, (0, P - 1, P)) for at in (*block, block.stop))
        yield block.stop + 8, 8, seconds(it, seat.kind)


def seconds(it, kind):
    """What may stand at the second number of a seat, or just may not."""
    if kind < 5:
        return 0, 1, P - 1, P
    weight = it.weights[1 - kind % 2]
    if kind > 6:
        return 0, 1, weight, WEIGHT, WEIGHT + weight
    ends = WEIGHT - weight, WEIGHT + weight
    return (*ends, ends[0] - 1, ends[0] + 1, ends[1] - 1, ends[1] + 1, WEIGHT)


def put(data, at, size, number):
    return data[:at] + (number % 256**size).to_bytes(size, "big") + data[at + size :]


def field_changed(chance, it):
    """The bytes with another number in one or two fields."""
    data, all_ = spelled(it), list(fields(it))
    for _ in range(chance.choice((1, 1, 1, 2))):
        at, size, edges = chance.choice(all_[:15] if chance.one_in(2) else all_)
        old = int.from_bytes(data[at : at + size], "big")
        other = (old + 1, old - 1, old ^ 1 << chance.randrange(8 * size), chance.getrandbits(64))
        data = put(data, at, size, chance.choice(other if chance.one_in(4) else edges))
    return data if chance.one_in(6) else mended(data)


def counted_changed(chance, it):
    """The bytes with another second number in a seat for heavy or large entries, used or not, on a side
    with numbers below 0 or not."""
    counted = [number for number, seat in enumerate(it.seats) if seat.kind >= 5]
    if not counted:
        return field_changed(chance, it)
    number, width = chance.choice(counted), 2 + 8 * (it.depth + 2)
    at, kind = 52 + number * width, it.seats[number].kind
    data = put(spelled(it), at + width - 8, 8, chance.choice(seconds(it, kind)))
    if chance.one_in(2):
        data = put(data, at + 1, 1, 1)
    if chance.one_in(2):
        data = put(data, 42, 1, chance.randrange(4))
    return mended(data)


def cut(chance, it):
    """The front of the bytes, often up to the edge of a field, or bytes behind their end."""
    data = spelled(it)
    ends = [at for at, *_ in fields(it)]
    end = chance.choice((chance.choice(ends), chance.randint(0, len(data)), len(data) - 1))
    longer = data + chance.randbytes(chance.choice((1, 2, 32, 30_000)))
    return chance.choice((data[:end], data[:end], mended(data[:end] + bytes(DIGEST)), longer))


def spoiled(chance, it):
    """The bytes of a sketch with something else in them."""
    ways = (field_changed, counted_changed, cut, bytes_changed)
    return chance.choices(ways, (45, 30, 12, 13))[0](chance, it)


def bytes_changed(chance, it):
    data = changes.bytes_changed(chance, spelled(it))
    return mended(data) if len(data) > DIGEST and chance.one_in(2) else data
