"""The replies of an honest helper: of each, the list of its messages."""

from math import comb

from . import folds
from .field import P


def replies(question, both, depth, challenges):
    """The d replies, one after another. Reply j asks for the first j challenges alone, so the list
    of them may still grow."""
    code = question.refusal(both)
    if code:
        return iter([[("Refuse", code)]])
    kinds = {
        "sub": entries, "heavy": counted, "share": counted, "above": marked, "moment": powers,
        "index": looked, "pred": looked, "succ": looked,
    }  # fmt: skip
    return kinds.get(question.kind, sums)(question, both, depth, challenges)


def cut(rows, most):
    return [rows[at : at + most] for at in range(0, len(rows), most)]


def siblings_asked(lo, hi):
    """The indices of the left and of the right sibling of nodes lo to hi, where there is one."""
    return (lo - 1 if lo & 1 else None), (None if hi & 1 else hi + 1)


def entries(question, both, depth, challenges):
    level, lo, hi = both[0].entries, question.lo, question.hi
    reply = [("Entries", rows) for rows in cut(question.answer(both), 512)]
    for j in range(depth):
        if j > 0:
            level, reply = folds.up(level, challenges[j - 1]), []
        wanted = siblings_asked(lo >> j, hi >> j)
        shown = (None if at is None else level.get(at, 0) % P for at in wanted)
        yield [*reply, ("Siblings", *shown)]


def found(place):
    return ("Found", 0, 0) if place is None else ("Found", 1, place)


def looked(question, both, depth, challenges):
    """Those to a lookup: where its answer stands, and those to the query that shows it."""
    place, reply = question.place(both), []
    reply.append(found(place))
    for shown in entries(question.shown_by(place, depth), both, depth, challenges):
        yield [*reply, *shown]
        reply = []


def powers(question, both, depth, challenges):
    """Those to a moment."""
    level, reply = both[question.side].entries, [("Claim", question.answer(both))]
    for j in range(depth):
        if j > 0:
            level, reply = folds.line(level, challenges[j - 1]), []
        yield [*reply, ("Power", *power(level, question.degree))]


def power(level, degree):
    """The coefficients of the sum over all pairs of neighbours of the powers of the line through
    them."""
    coefficients = [0] * (degree + 1)
    for pair in {index >> 1 for index in level}:
        u, w = level.get(2 * pair, 0), level.get(2 * pair + 1, 0)
        for m in range(degree + 1):
            coefficients[m] += comb(degree, m) * u ** (degree - m) * (w - u) ** m
    return [c % P for c in coefficients]


def sums(question, both, depth, challenges):
    """Those to a sum of products of two lists' entries."""
    first = dict(both[0 if question.kind == "inner" else question.side].entries)
    second = dict(both[1].entries) if question.kind == "inner" else first
    reply = [("Claim", question.answer(both))]
    for j in range(depth):
        if j > 0:
            r, reply = challenges[j - 1], []
            first, second = folds.line(first, r), folds.line(second, r)
        other = second
        if question.kind == "range":
            other = ones_beside(first, question, challenges[:j])
        yield [*reply, ("Poly", *polynomial(first, other))]


def ones_beside(level, question, revealed):
    """The list that is 1 in the range, folded by what was revealed, at the pairs of a level's
    entries."""
    beside, size = {}, 2 ** len(revealed)
    for index in {index ^ bit for index in level for bit in (0, 1)}:
        lo = max(question.lo, index * size) - index * size
        hi = min(question.hi, index * size + size - 1) - index * size
        if lo <= hi:
            beside[index] = 1 if hi - lo == size - 1 else folds.interval(revealed, lo, hi)
    return beside


def polynomial(first, second):
    """The coefficients of the sum over all pairs of neighbours of the products of the lines through
    them."""
    c0 = c1 = c2 = 0
    for pair in {index >> 1 for index in first}:
        u, w = first.get(2 * pair, 0), first.get(2 * pair + 1, 0)
        v, x = second.get(2 * pair, 0), second.get(2 * pair + 1, 0)
        c0 += u * v
        c1 += u * (x - v) + v * (w - u)
        c2 += (w - u) * (x - v)
    return c0 % P, c1 % P, c2 % P


def counted(question, both, depth, challenges):
    """Those to a threshold: the children of each node of at least so much, and above the leaves the
    light ones alone."""
    side = both[question.side]
    leaves = "Leaves", 512, lambda item, count: (item, count)
    level = folds.leaves_counted(side)
    return shown(question.threshold(both), side.entries, level, depth, challenges, leaves)


def marked(question, both, depth, challenges):
    """The same by the weights of a side; a leaf has its entry beside its weight."""
    side = both[question.side]
    marks = "Marks", 256, lambda item, weight: (item, side.entries.get(item, 0), weight)
    level = folds.leaves_weighed(side)
    return shown(question.threshold(both), side.weights, level, depth, challenges, marks)


def shown(threshold, counts, level, depth, challenges, leaves):
    """Of each level what is shown, by the frames of the leaves, how many a frame has, and a row."""
    lowest, most, leaf = leaves
    for j in range(depth):
        if j > 0:
            level = folds.up_counted(level, challenges[j - 1])
        rows = []
        for parent in heavy_nodes(counts, j + 1, threshold):
            for child in (2 * parent, 2 * parent + 1):
                hash_, count = level.get(child, (0, 0))
                if j == 0:
                    rows.append(leaf(child, count))
                elif count < threshold:
                    rows.append((child, hash_, count))
        name, size = (lowest, most) if j == 0 else ("Nodes", 256)
        yield [(name, part) for part in cut(rows, size)] + [("LevelEnd",)]


def heavy_nodes(entries_, level, threshold):
    """The nodes of a level below which the entries add up to at least so much."""
    counts = {}
    for item, value in entries_.items():
        counts[item >> level] = counts.get(item >> level, 0) + value
    return sorted(index for index, count in counts.items() if count >= threshold)
