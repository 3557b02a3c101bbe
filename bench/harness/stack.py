"""The stack that each command of the program uses at most."""

import os

from harness.children import Child, run, wait
from harness.hitters import AT_LEAST
from harness.lookups import Lookups
from harness.moments import DEGREES, Moments, ones
from harness.serving import QUESTIONS, Stores
from harness.settings import stream_word
from harness.streams import put
from harness.talks import Talks, made, parts

# What each command may touch, and what `audit` may, which has the readers of a stream and of a transcript.
MOST, MOST_OF_AUDIT = 64 * 1024, 72 * 1024
RECORDS = 100_000
MADE = f"made:7:{RECORDS}"

# Beside queries for sub-vectors: one of each kind for which an end keeps other numbers.
OTHERS = ("f2:0", "inner", f"heavy:0:{AT_LEAST}")

LOOKUPS = ("index:1", "pred:99", "succ:100")

# What is asked of a sketch: of each kind of seat, and by each kind of question but a moment, which this stream's weight may be too high for.
ASKED = ("sub:0:999", *LOOKUPS, "range:0:0:999", "f2:1", "inner", f"heavy:0:{AT_LEAST}")

# The codes of a run that is accepted, and of one that is rejected.
ACCEPTED, REJECTED = 0, 1


def measure(programs, settings, work):
    programs = programs.talks()
    table = Stacks(programs)
    # What the start of a program takes, the loader among it.
    table.line("gen of one record", {
        name: run([*program, "gen", 7, 1, 20], traced=True).stack for name, program in programs.items()
    })
    for depth in settings.depths:
        see_talks(table, programs, settings, depth, work)
        see_own_talks(table, programs["sip"], depth, work)
        made(programs["sip"], RECORDS, depth)(os.path.join(work, "stream"))
        for label, words, code in alone(depth, work):
            child = run([*programs["sip"], *words], traced=True, wanted=code, quiet=True)
            table.line(f"{label} {depth}", {"sip": child.stack}, MOST_OF_AUDIT if label == "audit" else MOST)
        for label, words in keeping(depth, work):
            child = run([*programs["sip"], *words], traced=True, quiet=True)
            table.line(f"{label} {depth}", {"sip": child.stack})
        for count, stack in asking(programs["sip"], depth, work):
            table.line(f"ask of {count} {depth}", {"sip": stack})
    for words in (["--version"], ["--help"], ["verify", "--help"]):
        table.line(" ".join(words), {"sip": run([*programs["sip"], *words], traced=True).stack})
    return table.above


class Stacks:
    """The lines so far, of which those of sip that are above what is allowed are told at the end."""

    def __init__(self, programs):
        self.programs = programs
        self.above = []
        print(f"\nstack, {RECORDS} records: bytes of the main thread's that were touched, by pages")
        print(f"{'':26}" + "".join(f"{name:>9}" for name in programs))

    def line(self, line, stacks, most=MOST):
        cells = [str(stacks.get(name, "-")) for name in self.programs]
        print(line.ljust(26) + "".join(f"{cell:>9}" for cell in cells), flush=True)
        if stacks["sip"] > most:
            self.above.append(f"stack: {line} uses {stacks['sip']} bytes, and {most} are allowed")

    def talk(self, talks, label, stacks):
        """The lines of both ends, of the stacks of each program's."""
        for which, end in enumerate((talks.HELPING, talks.ASKING)):
            self.line(f"{end:8} {talks.depth} {label}", {name: ends[which] for name, ends in stacks.items()})


def see_talks(table, programs, settings, depth, work):
    """Talks that all programs have."""
    talks = Talks(made(programs["sip"], RECORDS, depth), depth, work)
    asked = [(f"{queries:2}", parts(queries)) for queries in settings.queries]
    for label, words in asked + [(word, [word]) for word in OTHERS]:
        stacks = {}
        for name, program in programs.items():
            stacks[name] = [child.stack for child in talks.talk(name, program, words, traced=True)]
        table.talk(talks, label, stacks)


def see_own_talks(table, program, depth, work):
    """Talks of sip alone: of other words for the stream, with a record, with progress, and about lookups and moments."""
    talks = Talks(made(program, RECORDS, depth), depth, work)
    see_own(table, talks, program, "record", parts(16), RECORD=(talks.path("record"),))
    see_own(table, talks, program, "made:", parts(16), word=MADE)
    text = talks.path("text")
    run([*program, "lines", talks.word, depth], text)
    see_own(table, talks, program, "text:", parts(16), word=f"text:{text}")
    see_own(table, talks, [*program, "--progress"], "progress", parts(16))
    looks = Lookups(made(program, RECORDS, depth), depth, work)
    for words in [[word] for word in LOOKUPS] + [list(LOOKUPS) * 5 + ["index:2"]]:
        see_own(table, looks, program, words[0].partition(":")[0] if len(words) == 1 else len(words), words)
    for degree in DEGREES:
        talks = Moments(put(list(ones(RECORDS, depth, degree)), depth), depth, work)
        for count in (1, 16):
            see_own(table, talks, program, f"F{degree} {count}", [f"moment:0:{degree}"] * count)
    stores = Stores(program, RECORDS, depth, work)
    for word in QUESTIONS:
        stores.prepare(word)
        for form in stores.forms:
            stack = stores.served(form, traced=True).stack
            table.line(f"serve {form} {depth} {word.partition(':')[0]}", {"sip": stack})


def see_own(table, talks, program, label, words, **further):
    """A talk of sip, in which some of what the talks know is another."""
    usual = {name: getattr(talks, name) for name in further}
    for name, value in further.items():
        setattr(talks, name, value)
    ends = talks.talk("sip", program, words, traced=True, quiet=True)
    table.talk(talks, label, {"sip": [child.stack for child in ends]})
    for name, value in usual.items():
        setattr(talks, name, value)


def alone(depth, work):
    """The commands that need no other end, each with its name, its words and the code that it ends with. Some are about what one before them wrote."""
    stream, seed, record = (os.path.join(work, name) for name in ("stream", "seed", "record"))
    word = stream_word(stream, depth)
    queries = [*parts(16 - len(OTHERS)), *OTHERS]
    few = parts(5)
    yield "gen", ["gen", 7, RECORDS, depth], ACCEPTED
    yield "lines", ["lines", word, depth], ACCEPTED
    yield "widen", ["widen", word, depth], ACCEPTED
    yield "play skewed", ["play", MADE, seed, "skewed", "-", depth, *queries], REJECTED
    yield "play mute", ["play", MADE, seed, "mute", "-", depth, *queries], REJECTED
    yield "play honest", ["play", word, seed, "honest", record, depth, *queries], ACCEPTED
    yield "audit", ["audit", word, record], ACCEPTED
    yield "show", ["show", record], ACCEPTED
    yield "convert", ["convert", record], ACCEPTED
    yield "panel of 3", ["panel", word, seed, "mute,skewed,honest", depth, *few], ACCEPTED
    yield "panel of 16", ["panel", MADE, seed, ",".join(["honest"] * 16), depth, "sub:0:999"], ACCEPTED


def keeping(depth, work):
    """The commands that keep a sketch with 64 seats, each with its name and its words: of a stream whole, and of two parts."""
    seed = os.path.join(work, "seed")
    whole, one, two, both = (os.path.join(work, f"{name}{depth}") for name in ("whole", "one", "two", "both"))
    word = stream_word(os.path.join(work, "stream"), depth)
    seats = ["entries:16", "sums:0:8", "sums:1:8", "products:16", "heavy:0:8", "heavy:1:8"]
    yield "begin", ["begin", whole, seed, depth, "1/1", *seats]
    yield "watch", ["watch", whole, word, "+", RECORDS // 10]
    yield "watch from 0", ["watch", whole, word, 0, "-"]
    yield "seats", ["seats", whole]
    yield "begin 1/2", ["begin", one, seed, depth, "1/2", *seats]
    yield "begin 2/2", ["begin", two, seed, depth, "2/2", *seats]
    yield "watch a part", ["watch", one, word, "+", "-"]
    yield "merge", ["merge", both, one, two]


def asking(program, depth, work):
    """The stack of asks of one question and of several, of the sketch of the whole stream, whose store is that stream."""
    there, back = (os.path.join(work, f"{name}{depth}") for name in ("there", "back"))
    for fifo in (there, back):
        os.mkfifo(fifo)
    word, whole = stream_word(os.path.join(work, "stream"), depth), os.path.join(work, f"whole{depth}")
    for questions in (ASKED[:1], ASKED):
        store = Child([*program, "serve", word, there, back], quiet=True)
        asker = Child([*program, "ask", whole, back, there, *questions], traced=True, quiet=True)
        wait([store, asker])
        yield len(questions), asker.stack
