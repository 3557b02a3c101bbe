"""The words of the commands, and the number of the first word that begins none."""

import re
from typing import NamedTuple

from .questions import LOOKUPS, Question
from .sketches import DEEPEST, KINDS, MOST_PARTS, MOST_SEATS

NUMBER = re.compile(r"0|[1-9][0-9]*", re.ASCII)
HELPERS = ("honest", "skewed", "mute")
QUERIES = 16

# The shapes of a command's words behind its verb.
COMMANDS = {
    "verify": ("stream", "seed", "from", "to", "record", "depth", "queries"),
    "help": ("from", "to"),
    "lookup": ("stream", "seed", "from", "to", "depth", "lookups"),
    "helplook": ("from", "to"),
    "moments": ("stream", "seed", "from", "to", "depth", "moments"),
    "helpmom": ("from", "to"),
    "audit": ("stored", "transcript"),
    "show": ("transcript",),
    "convert": ("transcript",),
    "gen": ("number", "count", "depth"),
    "lines": ("stream", "depth"),
    "widen": ("stream", "depth"),
    "play": ("stream", "seed", "helper", "record", "depth", "queries"),
}

# Those of a sketch and of a store, which the program need not have.
SKETCHES = {
    "begin": ("sketch", "seed", "depth", "part", "seats"),
    "watch": ("sketch", "stored", "at", "every"),
    "merge": ("sketch", "parts"),
    "seats": ("sketch",),
}
STORES = {"serve": ("stored", "from", "to")}
ASKS = {"ask": ("sketch", "from", "to", "questions")}

# Of how many words a last shape stands for at most, where it is more than one. Words of seats say
# how many each, and these many are in them all.
ASKED = ("queries", "lookups", "moments")
MOST = {
    **dict.fromkeys((*ASKED, "questions"), QUERIES), "seats": MOST_SEATS, "parts": 1024,
}  # fmt: skip


class Usage(Exception):
    """Words that are no command: the number of the first one such that the words up to it begin
    none."""

    def __init__(self, word):
        super().__init__(word)
        self.word = word


class Stream(NamedTuple):
    """Where a stream comes from: a file and its form, or a made one's number and count."""

    path: str = ""
    form: str = ""
    number: int = 0
    count: int = 0


def number(word, least, most):
    """A decimal number in this range; None where the word is none."""
    if not NUMBER.fullmatch(word) or len(word) > 20:
        return None
    return int(word) if least <= int(word) <= most else None


def stream(word):
    if word.startswith("made:"):
        parts = word.split(":")
        if len(parts) != 3:
            return None
        made = number(parts[1], 0, 2**64 - 1), number(parts[2], 0, 10_000_000)
        return None if None in made else Stream("", "made", *made)
    for form in ("text", "wide"):
        if word.startswith(form + ":"):
            return Stream(word[5:], form) if word[5:] else None
    return Stream(word, "binary") if word else None


def question(shape, word, depth):
    """A question of this shape that fits the depth; None where the word is none."""
    kind, *fields = word.split(":")
    last, most = 2**depth - 1, 2**63 - 1
    limits = {
        "queries": {
            "sub": ((0, last), (0, last)),
            "range": ((0, 1), (0, last), (0, last)),
            "f2": ((0, 1),),
            "inner": (),
            "heavy": ((0, 1), (1, most)),
            "share": ((0, 1), (1, 1_000_000), (1, 1_000_000)),
        },
        "lookups": {lookup: ((0, last),) for lookup in LOOKUPS},
        "moments": {"moment": ((0, 1), (3, 8))},
        "larges": {"above": ((0, 1), (1, most))},
    }[shape].get(kind)
    if limits is None or len(limits) != len(fields):
        return None
    numbers = [number(field, *limit) for field, limit in zip(fields, limits)]
    if None in numbers or kind in ("sub", "range", "share") and numbers[-2] > numbers[-1]:
        return None
    if kind == "sub":
        return Question(kind, 0, *numbers)
    if kind in ("heavy", "above"):
        return Question(kind, numbers[0], at_least=numbers[1])
    if kind == "share":
        return Question(kind, numbers[0], num=numbers[1], den=numbers[2])
    if kind in LOOKUPS:
        return Question(kind, item=numbers[0])
    if kind == "moment":
        return Question(kind, numbers[0], degree=numbers[1])
    return Question(kind, *numbers)


def any_question(word):
    """A question of every kind that fits the greatest depth; None where the word is none."""
    shapes = (*ASKED, "larges")
    return next(filter(None, (question(shape, word, DEEPEST) for shape in shapes)), None)


def seats(word, before):
    """The kind of seats that a word says, so many times as it says; None where it says none, or too
    many behind those before."""
    kind, _, count = word.rpartition(":")
    many = number(count, 1, MOST_SEATS - sum(map(len, before)))
    if many is None or kind not in KINDS.values():
        return None
    return [code for code, name in KINDS.items() if name == kind] * many


def part(word):
    """The number of a part and that of all parts."""
    one, slash, all_ = word.partition("/")
    parts = number(all_, 1, MOST_PARTS)
    one = None if parts is None or not slash else number(one, 1, parts)
    return None if one is None else (one, parts)


def value(shape, word, said):
    """What a word of this shape says behind others; None where it has another one."""
    if shape == "stream":
        return stream(word)
    if shape == "stored":
        held = stream(word)
        return None if held is None or held.form == "made" else held
    if shape in ASKED:
        return question(shape, word, said["depth"])
    if shape == "questions":
        return any_question(word)
    if shape == "helper":
        return word if word in HELPERS else None
    if shape == "seats":
        return seats(word, said.get("seats", []))
    if shape == "part":
        return part(word)
    if (shape, word) in (("at", "+"), ("every", "-")):
        return word
    limits = {
        "number": (0, 2**64 - 1), "count": (0, 10_000_000), "depth": (1, DEEPEST),
        "at": (0, 2**31), "every": (1, 2**31),
    }  # fmt: skip
    return number(word, *limits[shape]) if shape in limits else word or None


def read_words(words, commands=COMMANDS):
    """The verb and a dict of what its words say, by their shapes; lookups and moments are `queries`
    there too."""
    if not words or words[0] not in commands:
        raise Usage(0)
    shapes = commands[words[0]]
    said = {}
    for at, word in enumerate(words[1:], 1):
        shape = shapes[min(at, len(shapes)) - 1]
        if at >= len(shapes) + MOST.get(shape, 1):
            raise Usage(at)
        read = value(shape, word, said)
        if read is None:
            raise Usage(at)
        if shape in MOST:
            said.setdefault("queries" if shape in ASKED else shape, []).append(read)
        else:
            said[shape] = read
    if len(said) < len(shapes):
        raise Usage(len(words))
    return words[0], said
