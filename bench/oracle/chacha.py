"""The challenges that a seed gives: ChaCha20 of D. J. Bernstein, with a counter of 64 bits and the
stream number 0."""

from functools import lru_cache

from .field import P

MASK = 2**32 - 1
CONSTANTS = tuple(
    int.from_bytes(b"expand 32-byte k"[at : at + 4], "little") for at in range(0, 16, 4)
)
COLUMNS = [(0, 4, 8, 12), (1, 5, 9, 13), (2, 6, 10, 14), (3, 7, 11, 15)]
DIAGONALS = [(0, 5, 10, 15), (1, 6, 11, 12), (2, 7, 8, 13), (3, 4, 9, 14)]

# How many words may be tried for one challenge.
TRIES = 8


class SeedSpent(Exception):
    pass


def turned(x, bits):
    return (x << bits | x >> (32 - bits)) & MASK


@lru_cache(maxsize=4096)
def block(seed, number):
    """64 bytes of the stream of a key."""
    key = tuple(int.from_bytes(seed[at : at + 4], "little") for at in range(0, 32, 4))
    start = (*CONSTANTS, *key, number & MASK, number >> 32, 0, 0)
    s = list(start)
    for _ in range(10):
        for a, b, c, d in COLUMNS + DIAGONALS:
            s[a] = (s[a] + s[b]) & MASK
            s[d] = turned(s[d] ^ s[a], 16)
            s[c] = (s[c] + s[d]) & MASK
            s[b] = turned(s[b] ^ s[c], 12)
            s[a] = (s[a] + s[b]) & MASK
            s[d] = turned(s[d] ^ s[a], 8)
            s[c] = (s[c] + s[d]) & MASK
            s[b] = turned(s[b] ^ s[c], 7)
    return b"".join(((x + y) & MASK).to_bytes(4, "little") for x, y in zip(s, start))


def words(seed):
    """The words of 64 bits, one after another."""
    number = 0
    while True:
        bytes_ = block(seed, number)
        for at in range(0, 64, 8):
            yield int.from_bytes(bytes_[at : at + 8], "little")
        number += 1


def draw(source, count):
    """So many challenges of a list of words: a word without its three lowest bits, where that is
    below p."""
    source = iter(source)
    challenges = []
    for _ in range(count):
        for _ in range(TRIES):
            challenge = next(source) >> 3
            if challenge != P:
                break
        else:
            raise SeedSpent
        challenges.append(challenge)
    return challenges


def challenges(seed, depth, queries):
    """The block of challenges of each query."""
    drawn = draw(words(seed), depth * queries)
    return [drawn[at : at + depth] for at in range(0, depth * queries, depth)]
