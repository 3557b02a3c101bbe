"""What replies are worth: accepted with what they state, or rejected with their first fault, by
whole lists."""

from typing import NamedTuple

from . import folds
from .field import P, WIDEST
from .frames import Fault, fault_end, read
from .honest import siblings_asked
from .questions import LOOKUPS


class Verdict(NamedTuple):
    """`said` is None where the replies are rejected. `asked` are the messages that the verifier
    sends, `ends` is where the reply to each of them ends, if it is whole and passes its tests, and
    `taken` where the bytes end that show the verdict."""

    said: object
    round: int
    reason: str
    asked: list
    ends: list
    taken: int


class Link:
    """The bytes of the helper. They end where they end."""

    def __init__(self, data, at, version):
        self.data, self.at, self.version = data, at, version

    def take(self, place, degree=None):
        try:
            message, self.at = read(self.data, self.at, place, self.version, degree)
        except Fault as fault:
            self.at = fault_end(self.data, self.at, fault.reason)
            raise
        if message[0] == "Refuse":
            raise Fault(f"Refused({message[1]})")
        return message


def need(holds, reason):
    if not holds:
        raise Fault(reason)


class OfVectors:
    """What a verifier keeps for a question, worked out of whole vectors."""

    def __init__(self, both, challenges):
        self.both, self.challenges = both, challenges

    def root(self):
        return folds.root(self.both[0], self.challenges)

    def extension(self, side):
        return folds.extension(self.both[side], self.challenges)

    def root_counted(self, side):
        return folds.root_counted(self.both[side], self.challenges)

    def root_weighed(self, side):
        return folds.root_weighed(self.both[side], self.challenges)


def verdict(question, both, depth, challenges, data, at, version):
    """By whole vectors."""
    return verdict_by(
        OfVectors(both, challenges), question, depth, challenges, data, at, version
    )


def verdict_by(kept, question, depth, challenges, data, at, version):
    """By what was kept for the question."""
    if question.kind in LOOKUPS:
        return looked(kept, question, depth, challenges, data, at, version)
    link = Link(data, at, version)
    kinds = {"sub": Entries, "heavy": Counted, "share": Counted}
    kinds |= {"above": Marked, "moment": Powers}
    check = kinds.get(question.kind, Sums)(question, kept, depth, challenges)
    asked, ends, said, reason = [], [], None, None
    try:
        for j in range(depth):
            # The challenge of the last level is never sent.
            asked.append(("Reveal", challenges[j - 1]) if j > 0 else question.message())
            check.reply(j, link)
            ends.append(link.at)
        check.end()
        said = check.said()
    except Fault as fault:
        reason = fault.reason
    return Verdict(said, len(ends), reason, asked, ends, link.at)


def looked(kept, lookup, depth, challenges, data, at, version):
    """The place, and then the entries among which the one at the place has to be alone."""
    link, asked = Link(data, at, version), [lookup.message()]
    try:
        _, flag, index = link.take("Found")
        place = index if flag else None
        need(lookup.may_be_at(place, depth), "BadFound")
    except Fault as fault:
        return Verdict(None, 0, fault.reason, asked, [], link.at)
    shown = verdict_by(
        kept, lookup.shown_by(place, depth), depth, challenges, data, link.at, version
    )
    shown = shown._replace(asked=asked + shown.asked, ends=[link.at, *shown.ends])
    if shown.reason:
        return shown
    if lookup.kind == "index":
        return shown._replace(said=dict(shown.said).get(place, 0))
    if [item for item, _ in shown.said] != ([] if place is None else [place]):
        return shown._replace(said=None, reason="NotAlone")
    return shown


class Entries:
    """A sub-vector."""

    def __init__(self, question, kept, depth, challenges):
        self.question, self.challenges = question, challenges
        self.root = kept.root()
        self.stated = []
        self.level = {}

    def reply(self, j, link):
        lo, hi = self.question.lo >> j, self.question.hi >> j
        message = link.take("Entries" if j == 0 else "Siblings")
        while message[0] == "Entries":
            for index, value in message[1]:
                need(
                    lo <= index <= hi and (not self.stated or self.stated[-1][0] < index),
                    "BadOrder",
                )
                need(len(self.stated) < WIDEST, "TooMany")
                self.stated.append((index, value))
            message = link.take("Entries")
        if j == 0:
            self.level = dict(self.stated)
        for wanted, given in zip(siblings_asked(lo, hi), message[1:]):
            need((wanted is None) == (given is None), "BadFlags")
            if wanted is not None:
                self.level[wanted] = given
        self.level = folds.up(self.level, self.challenges[j])

    def end(self):
        need(self.level.get(0, 0) % P == self.root, "Root")

    def said(self):
        return self.stated


class Sums:
    """A sum of products of two lists' entries."""

    place, degree = "Poly", 2

    def __init__(self, question, kept, depth, challenges):
        self.challenges = challenges
        first = kept.extension(0 if question.kind == "inner" else question.side)
        second = {
            "f2": lambda: first,
            "inner": lambda: kept.extension(1),
            "range": lambda: folds.interval(challenges, question.lo, question.hi),
        }[question.kind]()
        self.product = first * second % P

    def reply(self, j, link):
        if j == 0:
            _, self.claim = link.take("Claim")
            self.expected = self.claim % P
        _, *coefficients = link.take(self.place, self.degree)
        ends = folds.value(coefficients, 0) + folds.value(coefficients, 1)
        need(ends % P == self.expected, "Sum")
        self.expected = folds.value(coefficients, self.challenges[j])

    def end(self):
        need(self.expected == self.product, "Root")

    def said(self):
        return self.claim


class Powers(Sums):
    """A sum of powers of a list's entries."""

    place = "Power"

    def __init__(self, question, kept, depth, challenges):
        self.challenges, self.degree = challenges, question.degree
        self.product = pow(kept.extension(question.side), self.degree, P)


class Counted:
    """Entries of at least a threshold."""

    lowest = "Leaves"

    def __init__(self, question, kept, depth, challenges):
        self.depth, self.challenges = depth, challenges
        self.root = self.root_of(kept, question.side)
        self.total = self.root[1]
        self.threshold = question.threshold_of(self.total)
        self.most = 2 * (self.total // self.threshold)
        self.known = {}
        self.leaves = []

    def root_of(self, kept, side):
        return kept.root_counted(side)

    def leaf(self, index, count):
        """The node that a leaf is, and its entry."""
        return (count % P, count), count

    def reply(self, j, link):
        received, entries, last = {}, [], -1
        place = self.lowest if j == 0 else "Nodes"
        message = link.take(place)
        while message[0] != "LevelEnd":
            for index, *fields in message[1]:
                count = fields[-1]
                need(last < index < 2 ** (self.depth - j) and index not in self.known, "BadOrder")
                need(len(self.known) + len(received) + 1 <= self.most, "TooMany")
                need(j == 0 or count < self.threshold, "HeavySibling")
                received[index], entry = self.leaf(index, *fields) if j == 0 else (fields, None)
                entries.append((index, entry))
                last = index
            message = link.take(place)
        if j == 0:
            self.leaves = [(item, entry) for item, entry in entries if entry >= self.threshold]
        self.level_end(j, {**self.known, **received})

    def level_end(self, j, nodes):
        need(all(index ^ 1 in nodes for index in nodes) and (nodes or j < self.depth - 1), "Pairs")
        above = folds.up_counted(nodes, self.challenges[j])
        need(all(count >= self.threshold for _, count in above.values()), "LightParent")
        need(all(count <= self.total for _, count in above.values()), "Total")
        self.known = above

    def end(self):
        hash_, count = self.known[0]
        need(count == self.total, "Total")
        need(hash_ == self.root[0], "Root")

    def said(self):
        return self.leaves


class Marked(Counted):
    """Those of any side, by its weights."""

    lowest = "Marks"

    def root_of(self, kept, side):
        return kept.root_weighed(side)

    def leaf(self, index, entry, weight):
        return (entry % P, weight), entry
