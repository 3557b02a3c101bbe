"""Cases of whole runs of both ends: `play` with a helper of its own, and `verify` against a helper
that lies."""

from oracle.chacha import challenges
from oracle.questions import version_needed
from oracle.runs import read_words, source
from oracle.streams import record, vectors

from . import changes
from .case import Case
from .lies import Asked, by_a_change, by_another_run, by_refusal, frames
from .program import FROM, TO
from .replies import word_of

# One case in so many has about as many entries as a sub-vector may have.
WIDE_CASES = 2500


def case(chance):
    """Words of `play` and its files."""
    if chance.one_in(WIDE_CASES):
        return wide(chance)
    depth = depth_of(chance)
    updates = chance.legal(depth)
    form = chance.form(depth)
    data = b"".join(record(update, form) for update in updates)
    if chance.one_in(50):
        data = changes.bytes_changed(chance, data)
    helper = chance.choices(("honest", "skewed", "mute"), (60, 36, 4))[0]
    return played(chance, depth, form, data, helper, chance.questions(vectors(updates), depth))


def depth_of(chance):
    return chance.randint(1, 48) if chance.one_in(2) else chance.randint(1, 8)


def played(chance, depth, form, data, helper, questions):
    words = [b"play", word_of(form), b"seed", helper.encode(), b"-", str(depth).encode()]
    words += [question.word().encode() for question in questions]
    return Case(words, {"stream": data, "seed": chance.seed_bytes()})


def wide(chance):
    """As many entries as a sub-vector may have, one less or one more, and a query for all of
    them."""
    depth = chance.choice((17, 20, 33))
    form = chance.form(depth)
    items = range(65_536 + chance.choice((-1, 0, 1)))
    data = b"".join(record((0, item, 1), form) for item in items)
    asked = chance.question(vectors([]), depth)._replace(kind="sub", side=0, lo=0, hi=2**depth - 1)
    return played(
        chance, depth, form, data, "honest", [asked, asked._replace(hi=chance.randint(0, 70_000))]
    )


def lying(chance):
    """Words of `verify` and what a helper replies that knows what was revealed alone: mostly a lie
    to the last query."""
    depth = depth_of(chance)
    updates = chance.legal(depth)
    both = vectors(updates)
    form = chance.form(depth)
    seed = chance.seed_bytes()
    questions = chance.questions(both, depth, most=4)
    version = version_needed(depth, questions)
    words = [
        b"verify", word_of(form), b"seed", FROM.encode(), TO.encode(), b"-", str(depth).encode()
    ]
    words += [question.word().encode() for question in questions]
    data = b""
    if not any(question.is_too_wide(both) for question in questions):
        blocks = challenges(seed, depth, len(questions))
        pairs = [pair for pair in zip(questions, blocks) if pair[0].is_asked(both)]
        asked = [Asked(question, both, depth, block) for question, block in pairs]
        spelled = []
        for at, one in enumerate(asked):
            way = chance.choice((by_a_change, by_a_change, by_another_run, by_refusal))
            spelled += frames(
                way(chance, one, updates) if at == len(asked) - 1 else one.honest(), version
            )
        data = b"".join(spelled)
    return Case(
        words, {"stream": b"".join(record(update, form) for update in updates), "seed": seed}, data
    )


def wrong_lines(case, report):
    """The lines of accepted queries with another answer than the stream's own. A query for heavy
    entries or for a share says nothing of a side on which an entry is negative."""
    _, said = read_words([word.decode() for word in case.words])
    updates, _ = source(said["stream"], said["depth"], case.files)
    both = vectors(updates)
    for line, question in zip(report.decode().splitlines(keepends=True), said["queries"]):
        right = question.line(question.answer(both))
        if question.counts() and not both[question.side].is_strict or line.startswith("rejected "):
            continue
        if line != right:
            yield f"a line is {line!r}, not {right!r}"
