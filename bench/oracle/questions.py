"""The six kinds of query, the three lookups, the moments and the large entries of any side, and what
is answered to them."""

from typing import NamedTuple

from .field import HALF, WIDEST

# The kinds of lookup; their codes are 1, 2 and 3.
LOOKUPS = ("index", "pred", "succ")

# The kinds that version 2 alone has.
NEW = ("share", "above")


class Question(NamedTuple):
    """A question. A kind leaves alone the numbers that it doesn't have."""

    kind: str
    side: int = 0
    lo: int = 0
    hi: int = 0
    at_least: int = 0
    num: int = 0
    den: int = 0
    item: int = 0
    degree: int = 0

    def word(self):
        """As it is written among the words of a command."""
        return {
            "sub": f"sub:{self.lo}:{self.hi}",
            "range": f"range:{self.side}:{self.lo}:{self.hi}",
            "f2": f"f2:{self.side}",
            "inner": "inner",
            "heavy": f"heavy:{self.side}:{self.at_least}",
            "share": f"share:{self.side}:{self.num}:{self.den}",
            "moment": f"moment:{self.side}:{self.degree}",
            "above": f"above:{self.side}:{self.at_least}",
        }.get(self.kind, f"{self.kind}:{self.item}")

    def is_built(self):
        """Whether every helper answers it: large entries of any side are asked of a store alone."""
        return self.kind != "above"

    def message(self):
        """What the verifier asks it by."""
        if self.kind in LOOKUPS:
            return "AskLook", LOOKUPS.index(self.kind) + 1, self.item
        if self.kind == "moment":
            return "AskMoment", self.side, self.degree
        return "Query", self

    def counts(self):
        """Whether it asks for the entries of at least a threshold."""
        return self.kind in ("heavy", "share")

    def measure(self, both):
        """What a threshold is of: the total of the side, or its weight."""
        side = both[self.side]
        return side.weight if self.kind == "above" else side.total

    def has_threshold(self):
        return self.counts() or self.kind == "above"

    def threshold(self, both):
        return self.threshold_of(self.measure(both))

    def threshold_of(self, total):
        if self.kind in ("heavy", "above"):
            return self.at_least
        return -(-self.num * total // self.den) if total >= 1 else 1

    def is_asked(self, both):
        return not self.has_threshold() or self.measure(both) >= self.threshold(both)

    def is_too_wide(self, both):
        if not self.has_threshold() or not self.is_asked(both):
            return False
        return self.measure(both) // self.threshold(both) > WIDEST

    def is_too_high(self, both):
        return self.kind == "moment" and both[self.side].weight**self.degree > HALF

    def unfit(self, both):
        """The status of a run that doesn't ask it, since a part of its answer has no room."""
        if self.is_too_wide(both):
            return "TooWide"
        return "TooHigh" if self.is_too_high(both) else None

    def place(self, both):
        """The item of the entry that a lookup is for, or None where there is none."""
        items = both[0].entries
        if self.kind == "pred":
            return max((item for item in items if item <= self.item), default=None)
        if self.kind == "succ":
            return min((item for item in items if item >= self.item), default=None)
        return self.item

    def may_be_at(self, place, depth):
        """Whether a helper may say that a lookup has this place, or none."""
        if place is None:
            return self.kind != "index"
        if self.kind == "index":
            return place == self.item
        return place <= self.item if self.kind == "pred" else self.item <= place < 2**depth

    def shown_by(self, place, depth):
        """The query for the entries among which the one at the place has to be alone."""
        lo = hi = self.item
        if self.kind == "pred":
            lo = 0 if place is None else place
        if self.kind == "succ":
            hi = 2**depth - 1 if place is None else place
        return Question("sub", 0, lo, hi)

    def answer(self, both):
        """A number, or the list of pairs."""
        mine, other = both[self.side].entries, both[1].entries
        if self.kind == "sub":
            pairs = both[0].entries.items()
            return [(item, value) for item, value in pairs if self.lo <= item <= self.hi]
        if self.kind == "range":
            return sum(value for item, value in mine.items() if self.lo <= item <= self.hi)
        if self.kind == "f2":
            return sum(value * value for value in mine.values())
        if self.kind == "inner":
            return sum(value * other.get(item, 0) for item, value in both[0].entries.items())
        if self.kind in ("heavy", "above"):
            return [(item, value) for item, value in mine.items() if value >= self.at_least]
        if self.kind == "index":
            return mine.get(self.item, 0)
        if self.kind in LOOKUPS:
            return [(item, value) for item, value in mine.items() if item == self.place(both)]
        if self.kind == "moment":
            return sum(value**self.degree for value in mine.values())
        total = both[self.side].total
        if total <= 0:
            return []
        return [
            (item, value) for item, value in mine.items() if value * self.den >= self.num * total
        ]

    def refusal(self, both):
        """The code that an honest helper with memory refuses it by, or None."""
        if self.counts() and not both[self.side].is_strict:
            return 3
        if self.has_threshold() and self.measure(both) // self.threshold(both) > WIDEST:
            return 2
        if self.kind == "sub" and len(self.answer(both)) > WIDEST:
            return 2
        return None

    def line(self, answer):
        """The line of the report."""
        if isinstance(answer, list):
            answer = " ".join(f"{item}:{value}" for item, value in answer) or "none"
        return f"{self.word()} {answer}\n"


def rejection(query, round_, reason):
    return f"rejected query {query} round {round_} {reason}\n"


def version_needed(depth, questions):
    return 2 if depth > 32 or any(question.kind in NEW for question in questions) else 1
