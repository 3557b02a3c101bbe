"""`gen`, `lines` and `convert`, as whole programs."""

import filecmp
import os

from harness.children import run
from harness.hitters import MANY
from harness.nodes import Answer
from harness.settings import stream_word
from harness.tables import Table


# A stream whose items are heavy at most levels, and queries whose replies are a transcript of some 25 MB.
HEAVY = ["heavy:0:35"] * 16
HEAVY_DEPTH = 20
HEAVY_RECORDS = 1_000_000

# The depth of a stream of many heavy entries that lie evenly, about which this many queries have replies of some 100 MB.
WIDE_DEPTH, WIDE_QUERIES = 48, 2


def measure(programs, settings, work):
    programs = programs.talks()
    return measure_streams(programs, settings, work) + measure_transcripts(programs, settings, work)


def measure_transcripts(programs, settings, work):
    wide = Answer(MANY, WIDE_DEPTH)
    stream = os.path.join(work, "stream")
    wide.write(stream)
    narrow = measure_transcript(programs, settings, work, f"made:7:{HEAVY_RECORDS}", HEAVY_DEPTH, HEAVY)
    return narrow + measure_transcript(programs, settings, work, stream_word(stream, WIDE_DEPTH), WIDE_DEPTH, [wide.asked()] * WIDE_QUERIES)


def measure_transcript(programs, settings, work, stream, depth, queries):
    """Converts the transcript of these queries about a stream."""
    seed, record, wanted = (os.path.join(work, name) for name in ("seed", "record", "converted"))
    with open(seed, "wb") as file:
        file.write(bytes(range(32)))
    run([*programs["sip"], "play", stream, seed, "honest", record, depth, *queries])
    run([*programs["sip"], "convert", record], wanted)
    size = os.path.getsize(record)
    table = Table(f"copies of a transcript of {size} bytes", "ns of CPU a byte", programs)
    for program, begins in programs.items():
        compare(program, [*begins, "convert", record], wanted, work)
    for _ in range(settings.rounds):
        for program, begins in programs.items():
            table.saw("convert", program, run([*begins, "convert", record]).cpu * 1e9 / size)
    table.show()
    return table.above


def measure_streams(programs, settings, work):
    records = settings.records[0]
    table = Table(f"copies of {records} records", "ns of CPU a record", programs)
    for depth in settings.depths:
        stream, text = os.path.join(work, "stream"), os.path.join(work, "text")
        run([*programs["sip"], "gen", 7, records, depth], stream)
        run([*programs["sip"], "lines", stream_word(stream, depth), depth], text)
        copies = {
            "gen": (["gen", 7, records, depth], stream),
            "lines": (["lines", stream_word(stream, depth), depth], text),
            "lines text:": (["lines", f"text:{text}", depth], text),
        }
        for name, (words, wanted) in copies.items():
            for program, begins in programs.items():
                compare(program, [*begins, *words], wanted, work)
            for _ in range(settings.rounds):
                for program, begins in programs.items():
                    table.saw(f"{name} {depth}", program, run([*begins, *words]).cpu * 1e9 / records)
    table.show()
    return table.above


def compare(program, words, wanted, work):
    """Whether a program writes the bytes that it has to."""
    out = os.path.join(work, "copy")
    run(words, out)
    if not filecmp.cmp(out, wanted, shallow=False):
        raise SystemExit(f"{program} writes other bytes: {' '.join(map(str, words))}")
