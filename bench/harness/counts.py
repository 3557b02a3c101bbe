"""Instructions and mispredicted branches, as callgrind counts them. They do not depend on what else the machine does."""

import os

from harness.children import Child, wait
from harness.programs import valgrind


class Counts:
    """What one program executed."""

    def __init__(self, instructions, mispredicted):
        self.instructions = instructions
        self.mispredicted = mispredicted

    def less(self, other):
        return Counts(self.instructions - other.instructions, self.mispredicted - other.mispredicted)

    def by(self, count):
        return Counts(self.instructions / count, self.mispredicted / count)

    def __str__(self):
        return f"{self.instructions:.1f}/{self.mispredicted:.2f}"


def counting(words, path):
    """The words that run a program under callgrind."""
    return [valgrind(), "-q", "--tool=callgrind", "--branch-sim=yes", f"--callgrind-out-file={path}", *words]


def counted(path):
    """What a run's file says."""
    events = totals = None
    for line in open(path):
        if line.startswith("events:"):
            events = line.split()[1:]
        if line.startswith(("totals:", "summary:")):
            totals = line.split()[1:]
    os.remove(path)
    numbers = dict(zip(events, map(int, totals)))
    return Counts(numbers["Ir"], numbers.get("Bcm", 0) + numbers.get("Bim", 0))


def count(words, work):
    path = os.path.join(work, "callgrind.out")
    wait([Child(counting(words, path))])
    return counted(path)
