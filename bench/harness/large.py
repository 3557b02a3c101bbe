"""Large entries of any stream beside heavy hitters of the same one: a question of each to a sketch, both ends, and the watch before it."""

import os
import shutil

from harness.children import Child, run, wait
from harness.settings import stream_word
from harness.talks import made

# What a run may take for large entries, beside the same run for heavy hitters.
MOST_TIME = 1.6

# The kinds of seats, the first of which is the measure, and the least entry that is asked for.
KINDS = ("heavy:0", "above:0")
LEAST = 1000

RUNS = ("watch", "ask", "serve")


class Large:
    """A stream without a delta below 0, and a sketch of it for each kind, with one seat."""

    def __init__(self, program, records, depth, work):
        self.program, self.depth = program, depth
        self.folder = os.path.join(work, f"large.{depth}")
        os.mkdir(self.folder)
        made(program, records, depth)(self.path("stream"))
        self.word = stream_word(self.path("stream"), depth)
        for fifo in ("to", "from"):
            os.mkfifo(self.path(fifo))

    def path(self, name):
        return os.path.join(self.folder, name)

    def begin(self, kind):
        """A sketch with one seat of this kind, which has seen nothing."""
        with open(self.path("seed"), "wb") as seed:
            seed.write(os.urandom(32))
        sketch = self.path("new")
        if os.path.exists(sketch):
            os.unlink(sketch)
        run([*self.program, "begin", sketch, self.path("seed"), self.depth, "1/1", f"{kind}:1"])
        return sketch

    def times(self, kind):
        """The seconds of CPU of a watch of the stream, of an ask of it, and of the helper that answers."""
        sketch = self.begin(kind)
        watched = run([*self.program, "watch", sketch, self.word, 0, "-"])
        report = self.path(f"report.{kind}")
        ends = [
            Child([*self.program, "ask", sketch, self.path("from"), self.path("to"), f"{kind}:{LEAST}"], report),
            Child([*self.program, "serve", self.word, self.path("to"), self.path("from")]),
        ]
        wait(ends)
        return [watched.cpu, *(end.cpu for end in ends)]

    def are_one(self):
        """Whether both kinds were answered alike: where nothing is taken away they ask for the same."""
        of_kind = []
        for kind in KINDS:
            with open(self.path(f"report.{kind}")) as file:
                of_kind.append(file.read().removeprefix(kind))
        return of_kind[0] == of_kind[1] and of_kind[0]


def measure(programs, settings, work):
    program, records = programs.sip(), settings.records[0]
    print(f"\nlarge entries, {records} records: ms of CPU, beside those of heavy hitters", flush=True)
    print(f"{'':26}" + "".join(f"{column:>11}" for column in ("heavy", "above", "/heavy")))
    above = []
    for depth in settings.depths:
        large = Large(program, records, depth, work)
        rounds = [[large.times(kind) for kind in KINDS] for _ in range(settings.rounds)]
        if not large.are_one():
            raise SystemExit(f"large entries and heavy hitters differ at depth {depth}")
        for place, name in enumerate(RUNS):
            heavy, other = (min(one[kind][place] for one in rounds) for kind in range(len(KINDS)))
            ratio = other / heavy
            print(f"{name} {depth}".ljust(26) + f"{heavy * 1e3:11.2f}{other * 1e3:11.2f}{ratio:11.2f}" + ("  above" if ratio > MOST_TIME else ""), flush=True)
            if ratio > MOST_TIME:
                above.append(f"large: {name} {depth} takes {ratio:.2f} times the CPU time for heavy hitters")
        shutil.rmtree(large.folder)
    return above
