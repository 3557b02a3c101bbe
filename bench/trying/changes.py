"""Small changes: of bytes, of messages, and of lists of them."""

from oracle.field import HALF, P
from oracle.frames import CODES, ROWS, spelling


def bytes_changed(chance, data):
    """A few changes of bytes, wherever they fall."""
    data = bytearray(data)
    for _ in range(chance.choice((1, 1, 1, 2, 4))):
        at = chance.randint(0, len(data))
        end = min(len(data), at + chance.choice((1, 1, 2, 3, 8, 20, 100)))
        piece = data[at:end]
        way = chance.choice(("set", "flip", "cut", "insert", "double", "move", "front", "append"))
        if way == "set":
            data[at:end] = bytes(chance.choice((0, 1, 255, chance.randrange(256))) for _ in piece)
        elif way == "flip" and at < len(data):
            data[at] ^= 1 << chance.randrange(8)
        elif way == "cut":
            del data[at:end]
        elif way == "insert":
            data[at:at] = chance.randbytes(chance.choice((1, 1, 2, 3, 8, 30)))
        elif way == "double":
            data[at:at] = piece
        elif way == "move":
            del data[at:end]
            to = chance.randint(0, len(data))
            data[to:to] = piece
        elif way == "front":
            del data[at:]
        elif way == "append":
            data += chance.randbytes(chance.choice((1, 3, 20)))
    return bytes(data)


def frame_changed(chance, frames):
    """One frame of a list of spelled ones with another kind, length, count, code or flags, or
    cut."""
    frames = list(frames)
    if not frames:
        return frames
    at = chance.randrange(len(frames))
    frame = bytearray(frames[at])
    way = chance.choice(("kind", "length", "length", "mark", "mark", "body", "cut", "longer"))
    if way == "kind":
        frame[0] = chance.choice((*CODES.values(), 0, 7, 0x10, 0x19, 0xFF, chance.randrange(256)))
    elif way == "length":
        length = int.from_bytes(frame[1:3], "big")
        length = chance.choice(
            (
                length - 1, length + 1, length - 8, length + 8, length + 12, length + 20, 0, 1, 2,
                8, 9, 17, 0xFFFF,
            )
        ) % 65536  # fmt: skip
        frame[1:3] = length.to_bytes(2, "big")
    elif way == "mark" and len(frame) > 3:
        place = chance.randrange(3, min(len(frame), 5))
        frame[place] = chance.choice(
            (frame[place] ^ 1, frame[place] ^ 3, 0, 1, 2, 3, 4, 255, chance.randrange(256))
        )
    elif way == "body" and len(frame) > 3:
        frame[chance.randrange(3, len(frame))] = chance.choice((0, 1, 0x1F, 0x7F, 0x80, 0xFF))
    elif way == "cut":
        del frame[chance.randint(0, len(frame)) :]
    elif way == "longer":
        frame += chance.randbytes(chance.randint(1, 9))
    frames[at] = bytes(frame)
    return frames


def near(chance, x):
    """A number beside another one, or at an edge, or anywhere."""
    return chance.choice(
        (
            x + 1,
            x - 1,
            x ^ 1,
            -x,
            2 * x,
            x + P,
            x - P,
            0,
            chance.number(),
            P - 1,
            P,
            HALF,
            HALF + 1,
            -HALF,
        )
    )


def row_changed(chance, rows, fields):
    """Other rows: one more, one less, two in another order, or another number."""
    rows = list(rows)
    at = chance.randrange(len(rows) + 1)
    way = chance.choice(
        ("drop", "double", "swap", "number", "number", "number", "insert", "beside")
    )
    if way == "insert" or not rows:
        rows.insert(at, tuple(chance.number(62) for _ in range(fields)))
        return rows
    at = min(at, len(rows) - 1)
    row = list(rows[at])
    if way == "drop":
        del rows[at]
    elif way == "double":
        rows.insert(at, rows[at])
    elif way == "swap":
        other = chance.randrange(len(rows))
        rows[at], rows[other] = rows[other], rows[at]
    elif way == "beside":
        row[-2 if fields == 2 else 0] ^= 1
        rows.insert(at + chance.randrange(2), tuple(row))
    else:
        field = chance.randrange(fields)
        row[field] = near(chance, row[field])
        rows[at] = tuple(row)
    return rows


def message_changed(chance, message):
    """The same kind of message with something else in it."""
    name, *fields = message
    if name in ROWS:
        layout, most = ROWS[name]
        return name, row_changed(chance, fields[0], len(layout))[:most]
    if name == "Siblings":
        at = chance.randrange(2)
        fields[at] = chance.choice((None, chance.number(), near(chance, fields[at] or 0)))
        return name, *fields
    if name == "Refuse":
        return name, chance.randrange(7)
    if name == "Power" and chance.one_in(6):
        # Another degree.
        return name, *chance.choice((fields[:-1], [*fields, chance.number(61)]))
    if not fields or not all(isinstance(x, int) for x in fields):
        return message
    at = chance.randrange(len(fields))
    fields[at] = near(chance, fields[at])
    return name, *fields


def stray(chance, depth):
    """Any message of a helper."""
    index = chance.randint(0, 2**depth)
    return chance.choice(
        (
            ("Refuse", chance.randrange(6)),
            ("Refuse", chance.randint(1, 4)),
            ("LevelEnd",),
            ("Siblings", None, None),
            ("Siblings", chance.number(61), None),
            ("Claim", chance.number(60)),
            ("Poly", chance.number(61), chance.number(61), chance.number(61)),
            ("Entries", [(index, 1)]),
            ("Leaves", [(index, chance.randrange(9))]),
            ("Nodes", [(index, chance.number(61), chance.randrange(9))]),
            ("Found", chance.randrange(3), chance.choice((0, index))),
            ("Power", *(chance.number(61) for _ in range(chance.randint(4, 9)))),
            ("Bye",),
            ("Reveal", 5),
        )
    )


def listed_otherwise(chance, messages, depth):
    """A list of messages with one more, one less, in another order, or with a frame cut in two or
    joined with the next."""
    messages = list(messages)
    at = chance.randrange(len(messages)) if messages else 0
    way = chance.choice(("drop", "double", "swap", "stray", "instead", "split", "join"))
    if way == "stray" or not messages:
        messages.insert(chance.randint(0, len(messages)), stray(chance, depth))
    elif way == "drop":
        del messages[at]
    elif way == "double":
        messages.insert(at, messages[at])
    elif way == "swap":
        other = chance.randrange(len(messages))
        messages[at], messages[other] = messages[other], messages[at]
    elif way == "instead":
        messages[at] = stray(chance, depth)
    elif way == "split" and messages[at][0] in ROWS:
        name, rows = messages[at]
        cut = chance.randint(0, len(rows))
        messages[at : at + 1] = [(name, rows[:cut]), (name, rows[cut:])]
    elif way == "join" and messages[at][0] in ROWS:
        for other in range(at + 1, len(messages)):
            if messages[other][0] == messages[at][0]:
                name, rows = messages[at]
                messages[at] = name, (rows + messages[other][1])[: ROWS[name][1]]
                del messages[other]
                break
    return messages


def spelled(messages, version):
    return [spelling(message, version) for message in messages]
