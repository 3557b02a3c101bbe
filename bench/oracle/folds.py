"""The three folds of a list by challenges: of a tree, of a tree with counts, and of the multilinear
extension.

A list of 2^d numbers is a dict of those that are not 0, by index."""

from .field import P


def up(level, r):
    """The tree's next level: a left child, and its sibling times r."""
    above = {}
    for index, value in level.items():
        above[index >> 1] = (above.get(index >> 1, 0) + (value * r if index & 1 else value)) % P
    return above


def up_counted(level, r):
    """The next level of a tree with counts, whose nodes are (hash, count)."""
    above = {}
    for parent in {index >> 1 for index in level}:
        left_hash, left_count = level.get(2 * parent, (0, 0))
        right_hash, right_count = level.get(2 * parent + 1, (0, 0))
        hash_ = left_hash + left_count * r + right_hash * r**2 + right_count * r**3
        above[parent] = (hash_ % P, left_count + right_count)
    return above


def line(level, r):
    """The next list of an extension: the value at r on the line through two neighbours."""
    above = {}
    for index, value in level.items():
        above[index >> 1] = (above.get(index >> 1, 0) + value * (r if index & 1 else 1 - r)) % P
    return above


def folded(level, fold, challenges):
    for r in challenges:
        level = fold(level, r)
    return level


def root(vector, challenges):
    return folded(vector.entries, up, challenges).get(0, 0) % P


def leaves_counted(vector):
    return {item: (value % P, value) for item, value in vector.entries.items()}


def root_counted(vector, challenges):
    return folded(leaves_counted(vector), up_counted, challenges).get(0, (0, 0))


def leaves_weighed(vector):
    """Those of a tree with weights, whose nodes are (hash, weight)."""
    weights = vector.weights.items()
    return {item: (vector.entries.get(item, 0) % P, weight) for item, weight in weights}


def root_weighed(vector, challenges):
    return folded(leaves_weighed(vector), up_counted, challenges).get(0, (0, 0))


def extension(vector, challenges):
    return folded(vector.entries, line, challenges).get(0, 0) % P


def value(coefficients, x):
    """That of a polynomial."""
    return sum(c * pow(x, m, P) for m, c in enumerate(coefficients)) % P


def interval(challenges, lo, hi):
    """The extension of the list that is 1 from lo to hi and 0 elsewhere: a sum over its greatest
    aligned blocks, of each the product of the factors of the bits above it, since the factors of a
    bit that may be 0 or 1 add up to 1."""
    total, size = 0, len(challenges)
    while lo <= hi:
        block = 0
        while block < size and lo % 2 ** (block + 1) == 0 and lo + 2 ** (block + 1) - 1 <= hi:
            block += 1
        factor = 1
        for bit in range(block, size):
            r = challenges[bit]
            factor = factor * (r if lo >> bit & 1 else 1 - r) % P
        total += factor
        lo += 2**block
    return total % P
