"""Talks of both ends about heavy hitters, beside a talk of which the helper keeps nothing but the vectors."""

from harness.nodes import Answer
from harness.sums import ENDS, measured
from harness.tables import Table
from harness.talks import Talks

# What a heavy entry is at least.
AT_LEAST = 1000

# So many heavy entries lie evenly, and there are no others.
MANY = 65_536


def measure(programs, settings, work):
    return measured("hitters", hitters_of, programs, settings, work) + measure_many(programs.talks(), settings, work)


def measure_many(programs, settings, work):
    """Talks whose answer has many entries, so that most of the work is in the nodes that are shown and heard."""
    table = Table(f"{MANY} heavy hitters", "ms of CPU of an end", programs)
    for depth in settings.depths:
        answer = Answer(MANY, depth)
        talks, pairs = Talks(answer.write, depth, work), answer.pairs()
        for _ in range(settings.rounds):
            for name, program in programs.items():
                for end, child in zip(ENDS, talks.answered(name, program, answer.asked(), pairs)):
                    table.saw(f"{end:6} {depth} {MANY}", name, child.cpu * 1e3)
    table.show()
    return table.above


def hitters_of(first, second, depth):
    heavy = sorted((item, value) for item, value in first.items() if value >= AT_LEAST)
    return {f"heavy:0:{AT_LEAST}": (" ".join(f"{item}:{value}" for item, value in heavy) or "none", len(first))}
