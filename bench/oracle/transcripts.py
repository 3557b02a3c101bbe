"""What a transcript tells, up to where its bytes stop being one: its listing, and its form in
version 2."""

from typing import NamedTuple, Optional

from .field import P
from .frames import Fault, body_of, read, spelling, whole

DEEPEST = {1: 32, 2: 48}
QUERIES = 16


class Bad(Exception):
    """The field that begins at this byte of the head has none of its values."""

    def __init__(self, at):
        super().__init__(at)
        self.at = at


class Told(NamedTuple):
    """`asks` are queries with their challenges, `begins` is the byte behind the head, and `bad` the
    one at which the bytes stop being a transcript behind it, if they do."""

    version: int
    depth: int
    asks: list
    begins: int
    replies: list
    bad: Optional[int]


def byte(data, at, holds):
    if at >= len(data) or not holds(data[at]):
        raise Bad(at)
    return data[at]


def asked(data, at, version, depth):
    """The query whose frame begins here, and where the next field begins."""
    try:
        (name, *fields), end = read(data, at, "ToHelper", version)
    except Fault:
        raise Bad(at) from None
    if name != "Query" or not fields[0].is_built():
        raise Bad(at)
    if fields[0].kind in ("sub", "range") and fields[0].hi >= 2**depth:
        raise Bad(at)
    return fields[0], end


def element(data, at):
    number = whole(data[at : at + 8])
    if at + 8 > len(data) or number >= P:
        raise Bad(at)
    return number


def told(data):
    """What these bytes tell; `Bad` where the head is not there."""
    if data[:4] != b"SIPT":
        raise Bad(0)
    version = byte(data, 4, lambda b: b in DEEPEST)
    depth = byte(data, 5, lambda b: 1 <= b <= DEEPEST[version])
    count = byte(data, 6, lambda b: 1 <= b <= QUERIES)
    at, asks = 7, []
    for _ in range(count):
        question, at = asked(data, at, version, depth)
        asks.append((question, [element(data, at + 8 * level) for level in range(depth)]))
        at += 8 * depth
    begins, replies = at, []
    while at < len(data):
        try:
            message, at = read(data, at, "ToVerifier", version)
        except Fault:
            return Told(version, depth, asks, begins, replies, at)
        replies.append(message)
    return Told(version, depth, asks, begins, replies, None)


def listing(it):
    lines = [f"depth {it.depth}"]
    for number, (question, block) in enumerate(it.asks, 1):
        challenges = "".join(f" {challenge:016x}" for challenge in block)
        lines.append(f"query {number} {question.word()} challenges{challenges}")
    for message in it.replies:
        lines.append(f"frame {message[0]} {body_of(message, it.version).hex() or '-'}")
    return "".join(line + "\n" for line in lines).encode()


def head(version, depth, asks):
    data = b"SIPT" + bytes([version, depth, len(asks)])
    for question, block in asks:
        data += spelling(("Query", question), version)
        data += b"".join(challenge.to_bytes(8, "big") for challenge in block)
    return data


def wide(it):
    """The same content in version 2."""
    return head(2, it.depth, it.asks) + b"".join(spelling(message, 2) for message in it.replies)
