"""Whole talks of both ends over two FIFOs."""

import filecmp
import os

from harness.children import Child, run, wait
from harness.counts import counted, counting
from harness.programs import valgrind
from harness.settings import stream_word
from harness.tables import Table

# Each query is for so many items; query K, from 0, for those from K * 65,536 on.
ITEMS = 1000
APART = 65_536


def parts(count):
    """The words of so many queries for sub-vectors."""
    return [f"sub:{k * APART}:{k * APART + ITEMS - 1}" for k in range(count)]


def made(sip, records, depth):
    """What writes a stream of so many records that are made."""
    return lambda path: run([*sip, "gen", 7, records, depth], path)


class Talks:
    """Talks about one stream, which a function writes to the path that it is given."""

    # The commands of the two ends, and the words of the second between those of its link and the depth.
    HELPING, ASKING, RECORD = "help", "verify", ("-",)

    def __init__(self, write, depth, work):
        self.depth = depth
        self.work = work
        self.stream, self.seed = self.path("stream"), self.path("seed")
        self.fifos = [self.path("to.helper"), self.path("from.helper")]
        write(self.stream)
        # The word that names the stream to a verifier.
        self.word = stream_word(self.stream, depth)
        with open(self.seed, "wb") as seed:
            seed.write(os.urandom(32))
        for fifo in self.fifos:
            if not os.path.exists(fifo):
                os.mkfifo(fifo)

    def path(self, name):
        return os.path.join(self.work, name)

    def ends(self, program, queries):
        """The words of the two ends, of the words of the queries."""
        to_helper, from_helper = self.fifos
        helper = [*program, self.HELPING, to_helper, from_helper]
        ports = [self.word, self.seed, from_helper, to_helper]
        return helper, [*program, self.ASKING, *ports, *self.RECORD, self.depth, *queries]

    def talk(self, name, program, queries, **further):
        """Runs both ends, and compares the report with that of sip, which is run first."""
        report = self.path(f"report.{name}")
        helper, verifier = self.ends(program, queries)
        ends = [Child(helper, **further), Child(verifier, report, **further)]
        wait(ends)
        if not filecmp.cmp(report, self.path("report.sip"), shallow=False):
            raise SystemExit(f"the report of {name} differs at depth {self.depth}: {' '.join(queries)}")
        return ends

    def answered(self, name, program, word, answer, traced=False):
        """Runs both ends of a talk of one query, and compares the report with its answer."""
        ends = self.talk(name, program, [word], traced=traced)
        report = open(self.path(f"report.{name}")).read()
        if report != f"{word} {answer}\n":
            raise SystemExit(f"{name} reports {report}, and the answer is {answer}")
        return ends

    def count(self, program, queries, which):
        """What one end executes, 0 the helper and 1 the verifier."""
        out = self.path("callgrind.out")
        ends = list(self.ends(program, queries))
        ends[which] = counting(ends[which], out)
        wait([Child(words) for words in ends])
        return counted(out)


def measure(programs, settings, work):
    programs = programs.talks()
    table = Table("talks", "ms of CPU of an end, and the most memory that it has, in KiB", programs)
    memory = {}
    for records in settings.records:
        for depth in settings.depths:
            talks = Talks(made(programs["sip"], records, depth), depth, work)
            for queries in settings.queries:
                if queries >= MANY:
                    table.hold(line_name("verify", depth, queries, records), MOST_OF_MANY)
                for _ in range(settings.rounds):
                    for name, program in programs.items():
                        see(table, talks.talk(name, program, parts(queries)), name, (depth, queries, records))
                for name, program in programs.items():
                    ends = talks.talk(name, program, parts(queries), traced=True)
                    for end, child in zip(("help", "verify"), ends):
                        memory[end, records, depth, queries, name] = child.peak
                        table.note(line_name(end, depth, queries, records), f"{name} KiB", child.peak)
    table.show()
    return table.above + grown(memory, settings)


def line_name(end, depth, queries, records):
    return f"{end:6} {depth} {queries:2} {records:9}"


def see(table, ends, name, line):
    for end, child in zip(("help", "verify"), ends):
        table.saw(line_name(end, *line), name, child.cpu * 1e3)


def grown(memory, settings):
    """A verifier's memory must not grow with its stream."""
    above = []
    few, most = min(settings.records), max(settings.records)
    for depth in settings.depths:
        for queries in settings.queries:
            small, large = (memory["verify", records, depth, queries, "sip"] for records in (few, most))
            if large > small + 64:
                above.append(f"memory: verify holds {large - small} KiB more for {most} records at depth {depth}")
    return above


# So many queries make a verifier's numbers most of its work, and it may take so many times the limit's time then.
MANY, MOST_OF_MANY = 16, 1.3

# How many records make the difference whose instructions are counted.
COUNTED = 100_000


def count_ends(programs, settings, work):
    """Counts what a record takes of each end: the difference of two talks about streams of different lengths."""
    if not valgrind():
        return []
    programs = programs.talks()
    print(f"\nends, by the difference of talks about {COUNTED} and {2 * COUNTED} records: instructions/mispredictions a record")
    print(f"{'':26}" + "".join(f"{name:>15}" for name in programs))
    for depth in settings.depths:
        for queries in settings.queries:
            cells = {}
            for records in (COUNTED, 2 * COUNTED):
                talks = Talks(made(programs["sip"], records, depth), depth, work)
                for name, program in programs.items():
                    for which in (0, 1):
                        cells.setdefault((name, which), []).append(talks.count(program, parts(queries), which))
            for which, end in enumerate(("help", "verify")):
                print(f"{end:6} {depth} {queries:2}".ljust(26), end="")
                for name in programs:
                    few, more = cells.get((name, which), (None, None))
                    print(f"{str(more.less(few).by(COUNTED)) if few else '-':>15}", end="")
                print(flush=True)
    return []
