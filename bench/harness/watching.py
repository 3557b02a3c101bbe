"""Sketches of 64 seats that grow by a stream in a file, beside blocks of updates to as many running numbers."""

import os

from harness.children import run
from harness.counts import count
from harness.parts import ALL, Line
from harness.programs import valgrind
from harness.settings import record_size
from harness.streams import put, scattered

# The most seats of a sketch, by kind, and the part of sip_bench that has as many numbers of that kind.
SEATS = 64
KINDS = {"entries": f"root{SEATS}", "sums:0": f"point{SEATS}", "heavy:0": f"augroot{SEATS}"}

DEPTH = 32

# A turn of a watch, or of blocks, takes as many records as a part of several numbers does that is named once. A round has so many turns of each.
# They are short, so that other work on the machine leaves some of both alone.
RECORDS = 200 * 512
TURNS = 20

# What a record may take of a seat, beside a record of a block and one of its numbers; and what memory may grow by, in KiB.
MOST_TIME, MOST_GROWN = 1.2, 64

# A stream is written so many records at a time.
PIECE = 100_000


def measure(programs, settings, work):
    few, most = min(settings.records), max(settings.records)
    watched, blocks = Watched(programs.sip(), work), Blocks(programs.bench(), work)
    print(f"\nwatch, {SEATS} seats, depth {DEPTH}: ns of CPU and instructions a record and seat, then of {most} records, and the most KiB of memory")
    columns = ("watch", "blocks", "/blocks", "least block", "executed", "blocks", "/blocks", "whole", few, most)
    print(f"{'':26}" + "".join(f"{column:>12}" for column in columns), flush=True)
    above = []
    for kind, part in KINDS.items():
        time, other, least = timed(watched, blocks, settings.rounds, kind, part)
        cells, ratios = [f"{time:.3f}", f"{other:.3f}", f"{time / other:.2f}", f"{least:.3f}"], {"time": time / other}
        if valgrind():
            executed, others = watched.count(kind), blocks.count(part)
            cells += [f"{executed:.1f}", f"{others:.1f}", f"{executed / others:.2f}"]
            ratios["instructions"] = executed / others
        else:
            cells += ["-", "-", "-"]
        runs = [watched.run(kind, records, traced=True) for records in (few, most)]
        cells += [f"{1e9 * runs[1].cpu / most / SEATS:.3f}", *(each.peak for each in runs)]
        print(f"{kind:26}" + "".join(f"{cell:>12}" for cell in cells), flush=True)
        for what, ratio in ratios.items():
            if ratio > MOST_TIME:
                above.append(f"watch: a record and seat of {kind} take {ratio:.2f} times the {what} of blocks to as many numbers")
        if runs[1].peak > runs[0].peak + MOST_GROWN:
            above.append(f"watch: {kind} holds {runs[1].peak - runs[0].peak} KiB more for {most} records")
    return above


def timed(watched, blocks, rounds, kind, part):
    """What a record and seat take in nanoseconds, of a watch and of blocks, and what a record and number of the one block that took least do."""
    times = [(watched.time(kind), blocks.time(part), blocks.least(part)) for _ in range(rounds * TURNS)]
    return [min(each) for each in zip(*times)]


class Blocks:
    """Blocks of updates to as many numbers. They are timed as a watch is, by the CPU of the whole program."""

    def __init__(self, program, work):
        self.program, self.work = program, work

    def per_record(self, part, take):
        """What a record and number take, without the start of the program and the making of the updates."""
        none = take(self.program)
        whole, making = (take([*self.program, f"{name}-{DEPTH}"]) - none for name in (part, "updates"))
        return (whole / RECORDS - making / ALL["root"]) / SEATS

    def time(self, part):
        return self.per_record(part, lambda words: 1e9 * run(words).cpu)

    def count(self, part):
        return self.per_record(part, lambda words: count(words, self.work).instructions)

    def least(self, part):
        line = Line(self.program, part, DEPTH, self.work)
        return line.nanoseconds / line.count


class Watched:
    """Runs of `watch` over sketches that are begun anew for each."""

    def __init__(self, sip, work):
        self.sip, self.work = sip, work
        # Only its owner may read it: `begin` has a hint otherwise.
        with open(os.open(self.path("seed"), os.O_WRONLY | os.O_CREAT | os.O_TRUNC, 0o600), "wb") as seed:
            seed.write(os.urandom(32))

    def path(self, name):
        return os.path.join(self.work, name)

    def stream(self, records):
        """A stream of so many records of side 0, at items from everywhere, of 1 to 8 each."""
        path = self.path(f"records-{records}")
        if not os.path.exists(path):
            items, piece = scattered(records, DEPTH), self.path("piece")
            with open(path, "wb") as stream:
                for at in range(0, records, PIECE):
                    count = min(PIECE, records - at)
                    put([(0, next(items), 1 + number % 8) for number in range(count)], DEPTH)(piece)
                    with open(piece, "rb") as part:
                        stream.write(part.read())
            if os.path.getsize(path) != records * record_size(DEPTH):
                raise SystemExit("a stream is not as long as it is to be")
        return path

    def begun(self, kind, records):
        """The words of a watch of so many records by a new sketch."""
        sketch = self.path("sketch")
        for name in (sketch, sketch + ".lock"):
            if os.path.exists(name):
                os.unlink(name)
        run([*self.sip, "begin", sketch, self.path("seed"), DEPTH, "1/1", f"{kind}:{SEATS}"])
        return [*self.sip, "watch", sketch, self.stream(records), 0, "-"]

    def run(self, kind, records, **further):
        return run(self.begun(kind, records), **further)

    def time(self, kind):
        """The CPU time of a record and seat, without what a watch of no record takes."""
        return 1e9 * (self.run(kind, RECORDS).cpu - self.run(kind, 0).cpu) / RECORDS / SEATS

    def count(self, kind):
        """The instructions of a record and seat, likewise."""
        whole, none = (count(self.begun(kind, each), self.work).instructions for each in (RECORDS, 0))
        return (whole - none) / RECORDS / SEATS
