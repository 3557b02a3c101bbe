"""Talks of both ends about one sum each, beside a talk of which the helper keeps nothing but the vectors."""

import struct

from harness.settings import record_size
from harness.tables import Table
from harness.talks import Talks, made

# A query that wants next to no time of either end, and no memory.
LEAST = "sub:0:0"

# A range leaves out so many items at either end.
LEFT_OUT = 1000

# The most bytes that a helper may take for each entry that is not 0, beside the vectors.
MOST_BYTES = 64

ENDS = ("help", "verify")


def measure(programs, settings, work):
    return measured("sums", sums_of, programs, settings, work)


def measured(name, asked, programs, settings, work):
    """A table of talks about the queries that a function of the two sides and the depth gives, each with its answer and the number of
    entries that it is about."""
    programs = programs.talks()
    records = settings.records[0]
    table = Table(f"{name} of {records} records", "ms of CPU of an end, the most memory that it has, and what the query adds", programs)
    above = []
    for depth in settings.depths:
        talks = Talks(made(programs["sip"], records, depth), depth, work)
        queries = Queries(talks.stream, depth, asked)
        for _ in range(settings.rounds):
            for word in queries.words:
                for name, program in programs.items():
                    for end, child in zip(ENDS, queries.talk(talks, name, program, word)):
                        table.saw(line_name(end, depth, word), name, child.cpu * 1e3)
        above += note(table, queries, talks, programs.items())
    table.show()
    return table.above + above


def line_name(end, depth, word):
    # The ends of a range have no room.
    return f"{end:6} {depth} {word[:7]}"


def note(table, queries, talks, programs):
    """Notes the memory of each end, and what a sum adds to the time and memory of the helper."""
    above = []
    least = line_name("help", talks.depth, LEAST)
    without = {}
    for word in queries.words:
        line = line_name("help", talks.depth, word)
        for name, program in programs:
            ends = queries.talk(talks, name, program, word, traced=True)
            for end, child in zip(ENDS, ends):
                table.note(line_name(end, talks.depth, word), f"{name} KiB", child.peak)
            if word == LEAST:
                without[name] = ends[0].peak
                continue
            beside = (ends[0].peak - without[name]) * 1024 / queries.entries[word]
            table.note(line, f"{name} adds ms", f"{table.least[line][name] - table.least[least][name]:.2f}")
            table.note(line, f"{name} B/entry", f"{beside:.1f}")
            if name == "sip" and beside > MOST_BYTES:
                above.append(f"memory: {line} takes {beside:.1f} bytes for each entry, and {MOST_BYTES} are allowed")
    return above


def sums_of(first, second, depth):
    lo, hi = LEFT_OUT, (1 << depth) - LEFT_OUT - 1
    return {
        "f2:0": (sum(value * value for value in first.values()), len(first)),
        "inner": (sum(value * second.get(item, 0) for item, value in first.items()), len(first) + len(second)),
        f"range:0:{lo}:{hi}": (sum(value for item, value in first.items() if lo <= item <= hi), len(first)),
    }


class Queries:
    """The words that are asked about a stream, and by a calculation of their own the answers, and how many entries that are not 0
    there are of the sides that they are about."""

    def __init__(self, path, depth, asked):
        sides = ({}, {})
        with open(path, "rb") as stream:
            for side, item, delta in struct.iter_unpack(">BIq" if record_size(depth) == 13 else ">BQq", stream.read()):
                sides[side][item] = sides[side].get(item, 0) + delta
        first, second = ({item: value for item, value in side.items() if value} for side in sides)
        given = asked(first, second, depth)
        self.words = [LEAST, *given]
        self.entries = {word: entries for word, (_, entries) in given.items()}
        self.answers = {LEAST: f"0:{first[0]}" if 0 in first else "none"}
        self.answers.update({word: answer for word, (answer, _) in given.items()})

    def talk(self, talks, name, program, word, traced=False):
        """Runs both ends, and compares the report with the answer."""
        return talks.answered(name, program, word, self.answers[word], traced)
