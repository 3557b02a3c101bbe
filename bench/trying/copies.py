"""Cases for what copies a stream: bytes in the three forms, mostly with something changed."""

from oracle.streams import record

from . import changes
from .case import Case
from .replies import word_of

# Parts of lines that are numbers, or nearly.
PIECES = (
    b"0", b"1", b"2", b"00", b"01", b"-0", b"-1", b"+1", b"", b" ", b"  ", b"\t", b"\r", b"\n",
    b"\0", b"x", b"1e3", b"0x1", b"18446744073709551615", b"18446744073709551616",
    b"9223372036854775807", b"9223372036854775808", b"-9223372036854775808",
    b"-9223372036854775809", b"4294967295", b"4294967296", b"281474976710655", b"281474976710656",
    b"1073741823", b"1073741824", b"-1073741823", b"99999999999999999999999999999999999999999999",
    b"\xff", b"\xd9\xa1",
)  # fmt: skip


def case(chance):
    """Words of `lines`, `widen` or `gen`, and the stream's file."""
    depth = chance.depth()
    if chance.one_in(30):
        return of_made(chance, depth)
    updates = chance.legal(depth)
    form = chance.form(depth)
    if chance.one_in(3):
        updates = illegal_somewhere(chance, updates, depth, form)
    data = b"".join(record(update, form) for update in updates)
    if form == "text" and chance.one_in(2):
        data = line_changed(chance, data)
    if chance.one_in(4):
        data = changes.bytes_changed(chance, data)
    # A depth of another stream, or a form of other bytes.
    if chance.one_in(8):
        depth = chance.depth()
    if chance.one_in(20):
        form = chance.choice(("binary", "text", "wide"))
    return Case(
        [chance.choice((b"lines", b"widen")), word_of(form), str(depth).encode()], {"stream": data}
    )


def of_made(chance, depth):
    number, count = chance.number(), chance.choice((0, 1, 2, 30, 700))
    if chance.one_in(2):
        return Case([b"gen", str(number).encode(), str(count).encode(), str(depth).encode()], {})
    word = f"made:{number}:{count}".encode()
    return Case([chance.choice((b"lines", b"widen")), word, str(depth).encode()], {})


def illegal_somewhere(chance, updates, depth, form):
    """One update that isn't legal, as far as the form can spell it."""
    most = 2**32 if form == "binary" else 2**64
    update = chance.choice(
        (
            (chance.randint(2, 255), 0, 1),
            (0, min(2**depth, most - 1), 1),
            (1, most - 1, 1),
            (chance.randrange(2), 0, 0),
            (chance.randrange(2), 0, chance.choice((2**30, -(2**30), 2**63 - 1, -(2**63)))),
            (0, 0, chance.choice((1, -1)) * (2**30 - 1)),
        )
    )
    updates = list(updates)
    for _ in range(chance.choice((1, 1, 2))):
        updates.insert(chance.randint(0, len(updates)), update)
    return updates


def line_changed(chance, data):
    """One field, space or line feed of a text is another piece."""
    lines = data.split(b"\n")
    at = chance.randrange(len(lines))
    fields = lines[at].split(b" ")
    field = chance.randrange(len(fields))
    way = chance.choice(("field", "field", "field", "more", "less", "pad", "end", "joint"))
    if way == "field":
        fields[field] = chance.choice(PIECES)
    elif way == "more":
        fields.insert(field, chance.choice(PIECES))
    elif way == "less":
        del fields[field]
    elif way == "pad":
        fields[field] = fields[field].rjust(
            chance.choice((2, 20, 30, 36, 37, 38, 39, 40, 41)), chance.choice((b"0", b" ", b"1"))
        )
    lines[at] = b" ".join(fields)
    if way == "joint":
        lines[at] += chance.choice((b"\r", b" ", b"\0"))
    data = b"\n".join(lines)
    return data[:-1] if way == "end" else data


