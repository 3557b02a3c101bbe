"""The parts of crates/sip_bench, beside those of yardstick.rs."""

import os

from harness.children import Child, wait
from harness.counts import count
from harness.programs import valgrind
from harness.tables import Table

# What is in a part beside that which is measured, for the counts of instructions.
BESIDE = {
    "root": "updates",
    "point": "updates",
    "augroot": "updates",
    "records": "recordbytes",
    "text": "textbytes",
    "vector": None,
    "siblings": "vector",
}

# The same blocks for several numbers, each with challenges of its own. They are not counted.
MANY = tuple(f"{number}{count}" for number in ("root", "point", "augroot") for count in (16, 64))

# How many times the limit's time a running number may take that is fed alone, and each of 64.
LIMITS = {"root": 1.25, "point": 1.25, "augroot": 1.1, "root64": 1.3, "point64": 1.3, "augroot64": 1.3}

# The helper's end of a moment, of a million updates of 1 or as many as leave room for it. They are not counted.
MOMENTS = ("moment3", "moment8")

# How many updates or records a part has in all, where its line tells those of one block; and how many queries.
ALL = {"root": 512_000, "point": 512_000, "augroot": 512_000, "records": 102_400, "text": 102_400, "vector": 1_000_000}
QUERIES = 5


class Line:
    """What a part says of itself."""

    def __init__(self, program, part, depth, work):
        out = os.path.join(work, "line")
        child = Child([*program, f"{part}-{depth}"], out)
        wait([child])
        name, depth, count, time, self.checksum = open(out).read().split()
        self.count = int(count)
        self.nanoseconds = int(time)
        if name == "vector":
            # The least of many short turns can't be taken of one that is long. Its CPU time is that of the whole program.
            self.nanoseconds = child.cpu * 1e9


def measure(programs, settings, work):
    programs = programs.parts()
    records = Table("parts", "ns a record, and callgrind's instructions/mispredictions", programs)
    many = Table("several numbers", "ns a record and number", programs)
    queries = Table("siblings of one query, a million updates", "ms, and millions of instructions/mispredictions", programs)
    moments = Table("polynomials of one moment", "ms", programs)
    checksums = {}
    for _ in range(settings.rounds):
        for part in [*BESIDE, *MANY, *MOMENTS]:
            for depth in settings.depths:
                for program, words in programs.items():
                    line = Line(words, part, depth, work)
                    checksum = checksums.setdefault((part, depth), line.checksum)
                    if line.checksum != checksum:
                        raise SystemExit(f"{program} computes {line.checksum} in {part}-{depth}, and not {checksum}")
                    if part in MANY:
                        many.saw(f"{part} {depth}", program, line.nanoseconds / line.count)
                    elif part == "siblings":
                        queries.saw(f"depth {depth}", program, line.nanoseconds / 1e6)
                    elif part in MOMENTS:
                        moments.saw(f"{part} {depth}", program, line.nanoseconds / 1e6)
                    else:
                        records.saw(f"{part} {depth}", program, line.nanoseconds / line.count)
    if valgrind():
        for part in BESIDE:
            for depth in settings.depths:
                for program, words in programs.items():
                    counts = counts_of(words, part, depth, work)
                    if part == "siblings":
                        queries.note(f"depth {depth}", f"{program} count", counts.by(1e6))
                    else:
                        records.note(f"{part} {depth}", f"{program} count", counts)
    for part, most in LIMITS.items():
        for depth in settings.depths:
            (many if part in MANY else records).hold(f"{part} {depth}", most)
    records.show()
    many.show()
    queries.show()
    moments.show()
    return records.above + many.above + queries.above + moments.above


def counts_of(words, part, depth, work):
    """What a record of a part takes, or a query, without what is beside it."""
    whole = count([*words, f"{part}-{depth}"], work)
    beside = BESIDE[part]
    without = count([*words, f"{beside}-{depth}"] if beside else words, work)
    return whole.less(without).by(ALL.get(part, QUERIES))
