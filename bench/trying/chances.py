"""What every case is made of: depths, streams, queries and seeds, drawn so that the edges come
often."""

import random

from oracle.field import HALF, P, WEIGHT
from oracle.questions import LOOKUPS, Question
from oracle.streams import illegal, vectors

FORMS = ("binary", "text", "wide")

# The greatest weights of a side that have room for its moments of the degrees 3 to 8.
ROOMY = (1_048_575, 32_767, 4_095, 1_023, 380, 181)

# How many seeds there are in a run: their challenges are computed once.
SEEDS = 50


class Chances(random.Random):
    """The chances of one case, and its number. The same name gives the same case."""

    def __init__(self, name, seed, case=0):
        super().__init__(name)
        self.seeds_from, self.case = seed, case

    def one_in(self, many):
        return self.randrange(many) == 0

    def seed_bytes(self):
        return random.Random(f"seed {self.seeds_from} {self.randrange(SEEDS)}").randbytes(32)

    def depth(self):
        lo, hi = self.choices([(1, 4), (5, 10), (11, 32), (33, 48)], (50, 30, 12, 8))[0]
        return self.randint(lo, hi)

    def number(self, bits=64):
        """A number that is at an edge, or anywhere."""
        edges = (
            0, 1, 2, P - 1, P, P + 1, HALF, HALF + 1, 2**60, 2**61, 2**63 - 1, 2**63, 2**64 - 1
        )
        return self.choice(
            (self.choice(edges), self.getrandbits(bits), self.randrange(300))
        ) % 2**bits

    def items(self, depth):
        """A few items: the ends, neighbours, and others."""
        last = 2**depth - 1
        items = [self.choice((0, 1, last, last - 1, self.randint(0, last)))]
        for _ in range(self.choice((0, 1, 2, 3, 5, 8, 20))):
            near = self.choice(items) + self.choice((-2, -1, 1, 2, 3))
            items.append(min(max(self.choice((near, self.randint(0, last))), 0), last))
        return items

    def delta(self, style):
        if style == "mixed":
            return self.choice((-3, -2, -1, 1, 2, 3, 5, 8))
        if style == "great":
            return self.choice((1, -1)) * self.randint(1, WEIGHT // 8)
        if style == "whole":
            return self.choice((WEIGHT, WEIGHT - 1, WEIGHT // 2, 65_536, 65_537, 131_073, 1))
        return self.randint(1, 9)

    def legal(self, depth, styles=(60, 20, 8, 12)):
        """The updates of a legal stream."""
        size = self.choices(
            (0, self.randint(1, 8), self.randint(9, 40), self.randint(500, 1100)), (5, 50, 43, 2)
        )[0]
        items = self.items(depth)
        style = self.choices(("few", "mixed", "great", "whole"), styles)[0]
        updates, weights = [], [0, 0]
        for _ in range(size):
            update = self.choice((0, 0, 1)), self.choice(items), self.delta(style)
            if illegal(update, depth, weights) is None:
                updates.append(update)
        if style == "mixed" and updates and self.one_in(3):
            # Some entries go back to 0.
            for side, item, delta in list(updates)[: self.randint(1, len(updates))]:
                if illegal((side, item, -delta), depth, weights) is None:
                    updates.append((side, item, -delta))
        return updates

    def light(self, depth):
        """The updates of a legal stream that mostly has room for some moments: often a side has the
        greatest weight that has room for one, or 1 more."""
        updates = self.legal(depth, (66, 28, 1, 5))
        if self.one_in(3):
            side, most = self.randrange(2), self.choice(ROOMY) + self.choice((0, 0, 1))
            short = most - vectors(updates)[side].weight
            if short > 0:
                items = [item for _, item, _ in updates[:20]] + self.items(depth)
                updates.append((side, self.choice(items), self.choice((1, -1)) * short))
        return updates

    def ends(self, entries, depth):
        """Items at an edge, or about what is there."""
        last = 2**depth - 1
        ends = [0, last, self.randint(0, last)]
        for item in list(entries)[:20]:
            ends += [max(item - 1, 0), item, min(item + 1, last)]
        return ends

    def interval(self, entries, depth):
        ends = self.ends(entries, depth)
        return sorted((self.choice(ends), self.choice(ends)))

    def question(self, both, depth):
        """A query that fits the depth, often about what is there."""
        kind = self.choices(
            ("sub", "range", "f2", "inner", "heavy", "share"), (30, 12, 10, 10, 24, 14)
        )[0]
        side = 0 if kind in ("sub", "inner") else self.randrange(2)
        lo = hi = at_least = num = den = 0
        if kind in ("sub", "range"):
            lo, hi = self.interval(both[side].entries, depth)
        if kind == "heavy":
            at_least = self.threshold(both[side].total, both[side].entries)
        if kind == "share":
            den = self.choice((1, 2, 3, 7, 100, 1_000_000, self.randint(1, 1_000_000)))
            num = self.choice((1, den, self.randint(1, den), max(den // 3, 1)))
        return Question(kind, side, lo, hi, at_least, num, den)

    def threshold(self, total, counts):
        """One about the total, or about what is there."""
        near = [1, 2, total, total - 1, total + 1, total // 2, 2**63 - 1]
        at_least = self.choice([*near, *list(counts.values())[:9]]) + self.choice((0, 0, -1, 1))
        return min(max(at_least, 1), 2**63 - 1)

    def large(self, both, _):
        """Large entries of any side."""
        side = self.randrange(2)
        counts = self.choice((both[side].entries, both[side].weights))
        return Question("above", side, at_least=self.threshold(both[side].weight, counts))

    def lookup(self, both, depth):
        item = self.choice(self.ends(both[0].entries, depth))
        return Question(self.choice(LOOKUPS), item=item)

    def moment(self, both, _):
        side, degrees = self.randrange(2), range(3, 9)
        high = [degree for degree in degrees if both[side].weight**degree > HALF]
        fitting = [degree for degree in degrees if degree not in high]
        if not fitting or high and self.one_in(12):
            fitting = high[:1]
        return Question("moment", side, degree=self.choice(fitting))

    def other(self, question, both, depth):
        """Another one of its sort."""
        if question.kind in LOOKUPS:
            return self.lookup(both, depth)
        draw = {"moment": self.moment, "above": self.large}.get(question.kind, self.question)
        return draw(both, depth)

    def questions(self, both, depth, most=16, draw=None):
        count = min(
            self.choices(
                (1, 2, 3, self.randint(4, 8), self.randint(9, 16)), (40, 30, 15, 12, 3)
            )[0],
            most,
        )
        return [(draw or self.question)(both, depth) for _ in range(count)]

    def form(self, depth):
        return self.choice(FORMS if depth <= 32 else FORMS[1:])
