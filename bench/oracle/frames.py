"""Messages, the frames that spell them, and the first fault of bytes that spell none.

A message is a tuple of its name and its fields; Updates, Entries, Leaves, Nodes and Marks have one
field, a list of rows."""

from .field import HALF, P
from .questions import Question

KINDS = {
    0x01: "Open", 0x02: "Updates", 0x03: "EndStream", 0x04: "Query", 0x05: "Reveal", 0x06: "Bye",
    0x11: "Claim", 0x12: "Poly", 0x13: "Entries", 0x14: "Siblings", 0x15: "Leaves", 0x16: "Nodes",
    0x17: "LevelEnd", 0x18: "Refuse",
    0x21: "AskLook", 0x22: "Found", 0x23: "End", 0x24: "AskMoment", 0x25: "Power",
    0x26: "Held", 0x27: "Recall", 0x28: "Marks",
}  # fmt: skip
CODES = {name: code for code, name in KINDS.items()}

PLACES = {
    "ToHelper": {"Open", "Updates", "EndStream", "Query", "Reveal", "Bye"},
    "ToVerifier": {
        "Claim", "Poly", "Entries", "Siblings", "Leaves", "Nodes", "LevelEnd", "Refuse"
    },
    "Entries": {"Entries", "Siblings", "Refuse"},
    "Siblings": {"Siblings", "Refuse"},
    "Claim": {"Claim", "Refuse"},
    "Poly": {"Poly", "Refuse"},
    "Leaves": {"Leaves", "LevelEnd", "Refuse"},
    "Nodes": {"Nodes", "LevelEnd", "Refuse"},
    "AskedLook": {"AskLook", "End"},
    "Found": {"Found", "Refuse"},
    "AskedMoment": {"AskMoment", "End"},
    "AskedQuestion": {
        "Open", "Updates", "EndStream", "Query", "Reveal", "Bye", "AskLook", "AskMoment", "Recall"
    },
    "Held": {"Held"},
    "Power": {"Power", "Refuse"},
    "Marks": {"Marks", "LevelEnd", "Refuse"},
}

# The kinds of query by their codes. The last one is asked of a store alone.
QUERIES = {1: "sub", 2: "range", 3: "f2", 4: "inner", 5: "heavy", 6: "share", 7: "above"}

# The bytes of an item, by the version.
ITEM = {1: 4, 2: 8}

# The fields of a row: "item", "side" (1 byte), "signed" or "whole" (8 bytes each); and the most
# rows of a frame.
ROWS = {
    "Updates": (("side", "item", "signed"), 512),
    "Entries": (("item", "signed"), 512),
    "Leaves": (("item", "whole"), 512),
    "Nodes": (("item", "whole", "whole"), 256),
    "Marks": (("item", "signed", "whole"), 256),
}

# The bytes of each number of a message that is a few numbers. A Power has one element more than its
# degree.
NUMBERS = {
    "Open": (1, 1), "EndStream": (), "Reveal": (8,), "Bye": (), "Claim": (8,), "Poly": (8, 8, 8),
    "LevelEnd": (), "Refuse": (1,), "AskLook": (1, 8), "Found": (1, 8), "End": (),
    "AskMoment": (1, 1), "Held": (8, 8, 8, 8), "Recall": (8,),
}  # fmt: skip


class Fault(Exception):
    """The first reason that bytes meet."""

    def __init__(self, reason):
        super().__init__(reason)
        self.reason = reason


def width(field, version):
    return {"side": 1, "item": ITEM[version], "signed": 8, "whole": 8}[field]


def low(x, bytes_):
    """A number in so many bytes; of one that has no room there, what is lowest of it."""
    return (x % 256**bytes_).to_bytes(bytes_, "big")


def query_body(question, version):
    item = ITEM[version]
    kind = question.kind
    code = next(code for code, name in QUERIES.items() if name == kind)
    body = bytes([code])
    if kind in ("range", "f2", "heavy", "share", "above"):
        body += low(question.side, 1)
    if kind in ("sub", "range"):
        body += low(question.lo, item) + low(question.hi, item)
    if kind in ("heavy", "above"):
        body += low(question.at_least, 8)
    if kind == "share":
        body += low(question.num, 4) + low(question.den, 4)
    return body


def body_of(message, version):
    name, *fields = message
    if name in ROWS:
        layout, _ = ROWS[name]
        rows = fields[0]
        sizes = [width(field, version) for field in layout]
        return low(len(rows), 2) + b"".join(
            low(x, size) for row in rows for x, size in zip(row, sizes)
        )
    if name == "Query":
        return query_body(fields[0], version)
    if name == "Siblings":
        left, right = fields
        flags = (left is not None) + 2 * (right is not None)
        return bytes([flags]) + b"".join(low(x, 8) for x in fields if x is not None)
    return b"".join(low(x, size) for x, size in zip(fields, numbers(name, len(fields) - 1)))


def numbers(name, degree):
    return (8,) * (degree + 1) if name == "Power" else NUMBERS[name]


def spelling(message, version):
    body = body_of(message, version)
    return bytes([CODES[message[0]]]) + low(len(body), 2) + body


def has_length(name, length, version, degree):
    """Whether a body of this kind may have this length."""
    if name in ROWS:
        layout, most = ROWS[name]
        row = sum(width(field, version) for field in layout)
        return length >= 2 and (length - 2) % row == 0 and 1 <= (length - 2) // row <= most
    if name == "Siblings":
        return length in (1, 9, 17)
    if name == "Query":
        return length in ((1, 2, 9, 10) if version == 1 else (1, 2, 10, 17, 18))
    return length == sum(numbers(name, degree))


def query_length(kind, version):
    item = ITEM[version]
    lengths = {"sub": 1 + 2 * item, "range": 2 + 2 * item, "f2": 2, "inner": 1, "heavy": 10}
    if version == 2:
        lengths["share"] = lengths["above"] = 10
    return lengths.get(kind)


def fits_count(name, body, version):
    """Whether the count, the code or the flags of a body go with its length."""
    if name in ROWS:
        layout, _ = ROWS[name]
        row = sum(width(field, version) for field in layout)
        return int.from_bytes(body[:2], "big") * row == len(body) - 2
    if name == "Query":
        return query_length(QUERIES.get(body[0]), version) == len(body)
    if name == "Siblings":
        return body[0] in {1: (0,), 9: (1, 2), 17: (3,)}[len(body)]
    return True


def whole(bytes_):
    return int.from_bytes(bytes_, "big")


def signed(bytes_):
    return int.from_bytes(bytes_, "big", signed=True)


def rows_of(name, body, version):
    layout, _ = ROWS[name]
    sizes = [width(field, version) for field in layout]
    rows, at = [], 2
    while at < len(body):
        row = []
        for field, size in zip(layout, sizes):
            row.append((signed if field == "signed" else whole)(body[at : at + size]))
            at += size
        rows.append(tuple(row))
    return rows


def question_of(body, version):
    kind, item = QUERIES[body[0]], ITEM[version]
    if kind == "sub":
        return Question(kind, 0, whole(body[1 : 1 + item]), whole(body[1 + item :]))
    if kind == "range":
        return Question(kind, body[1], whole(body[2 : 2 + item]), whole(body[2 + item :]))
    if kind == "f2":
        return Question(kind, body[1])
    if kind in ("heavy", "above"):
        return Question(kind, body[1], at_least=whole(body[2:]))
    if kind == "share":
        return Question(kind, body[1], num=whole(body[2:6]), den=whole(body[6:]))
    return Question(kind)


def message_of(name, body, version):
    """The message of a body whose length and count are right, whatever its numbers are."""
    if name in ROWS:
        return name, rows_of(name, body, version)
    if name == "Query":
        return name, question_of(body, version)
    if name == "Siblings":
        given = [whole(body[at : at + 8]) for at in range(1, len(body), 8)]
        return name, given[0] if body[0] & 1 else None, given[-1] if body[0] & 2 else None
    if name == "Claim":
        return name, signed(body)
    fields, at = [], 0
    for size in numbers(name, len(body) // 8 - 1):
        fields.append(whole(body[at : at + size]))
        at += size
    return name, *fields


def is_question(question):
    """Whether its numbers may stand in a frame, whatever the depth is."""
    if question.side > 1:
        return False
    if question.kind in ("sub", "range"):
        return question.lo <= question.hi
    if question.kind in ("heavy", "above"):
        return 1 <= question.at_least <= 2**63 - 1
    if question.kind == "share":
        return 1 <= question.num <= question.den <= 1_000_000
    return True


def has_numbers(message):
    """Whether each number of a message is in the range of its field."""
    name, *fields = message
    if name == "Open":
        version, depth = fields
        return version in (1, 2) and 1 <= depth <= (32 if version == 1 else 48)
    if name == "Updates":
        return all(side <= 1 and delta != 0 for side, _, delta in fields[0])
    if name == "Query":
        return is_question(fields[0])
    if name == "Claim":
        return abs(fields[0]) <= HALF
    if name == "Entries":
        return all(1 <= abs(value) <= HALF for _, value in fields[0])
    if name == "Leaves":
        return all(count < P for _, count in fields[0])
    if name == "Nodes":
        return all(hash_ < P and count < P for _, hash_, count in fields[0])
    if name == "Marks":
        return all(abs(value) <= min(weight, HALF) and weight < P for _, value, weight in fields[0])
    if name == "Refuse":
        return 1 <= fields[0] <= 4
    if name == "Found":
        flag, index = fields
        return flag == 1 or flag == index == 0
    if name in ("AskLook", "AskMoment", "Held", "Recall"):
        return True
    # Elements: those of Reveal, Poly, Power and Siblings.
    return all(x is None or x < P for x in fields)


def fault_end(data, at, reason):
    """Where the bytes end that show this fault of the frame that begins here."""
    if reason == "Closed":
        return len(data)
    if reason in ("BadKind", "BadLength"):
        return at + 3
    return at + 3 + whole(data[at + 1 : at + 3])


def read(data, at, place, version, degree=None):
    """The message that the bytes from here on begin with, and where the next one begins; else the
    first fault. A degree is that of the polynomials at the place Power."""
    if len(data) - at < 3:
        raise Fault("Closed")
    name = KINDS.get(data[at])
    if name not in PLACES[place]:
        raise Fault("BadKind")
    length = whole(data[at + 1 : at + 3])
    if not has_length(name, length, version, degree):
        raise Fault("BadLength")
    body = data[at + 3 : at + 3 + length]
    if len(body) < length:
        raise Fault("Closed")
    if not fits_count(name, body, version):
        raise Fault("BadCount")
    message = message_of(name, body, version)
    if not has_numbers(message):
        raise Fault("BadNumber")
    return message, at + 3 + length
