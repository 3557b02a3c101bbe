"""Cases for a verifier: streams, queries, lookups or moments, and what a lying helper replies."""

from oracle import honest
from oracle.chacha import challenges
from oracle.frames import spelling
from oracle.questions import Question, version_needed
from oracle.streams import record, vectors

from . import changes
from .case import Case
from .lies import Asked, frames, lied
from .program import FROM, TO

# One case in so many has about as many entries as a sub-vector may have.
WIDE_CASES = 1500


def case(chance):
    """Words of `verify`, its files, and the bytes of the helper."""
    if chance.one_in(WIDE_CASES):
        return wide(chance)
    depth = chance.depth()
    updates = chance.legal(depth)
    return asking(
        chance, b"verify", depth, updates, chance.questions(vectors(updates), depth)
    )


def look_case(chance):
    """The same for `lookup`."""
    if chance.one_in(WIDE_CASES):
        return wide_look(chance)
    depth = chance.depth()
    updates = chance.legal(depth)
    lookups = chance.questions(vectors(updates), depth, draw=chance.lookup)
    return asking(chance, b"lookup", depth, updates, lookups)


def moment_case(chance):
    """The same for `moments`."""
    depth = chance.depth()
    updates = chance.light(depth)
    moments = chance.questions(vectors(updates), depth, draw=chance.moment)
    return asking(chance, b"moments", depth, updates, moments)


def asking(chance, verb, depth, updates, questions):
    form = chance.form(depth)
    seed = chance.seed_bytes()
    stream = b"".join(record(update, form) for update in updates)
    if chance.one_in(60):
        stream = changes.bytes_changed(chance, stream)
    if chance.one_in(500):
        seed = seed[: chance.randrange(32)]
    data = b""
    if len(seed) == 32:
        data = helper_bytes(
            chance,
            depth,
            updates,
            vectors(updates),
            questions,
            challenges(seed, depth, len(questions)),
            version_needed(depth, questions),
        )
    words = words_of(verb, form, depth, questions)
    return Case(words, {"stream": stream, "seed": seed}, data)


def words_of(verb, form, depth, questions):
    words = [verb, word_of(form), b"seed", FROM.encode(), TO.encode()]
    words += [b"-"] * (verb == b"verify")
    return [*words, str(depth).encode(), *(question.word().encode() for question in questions)]


def word_of(form):
    return b"stream" if form == "binary" else form.encode() + b":stream"


def helper_bytes(chance, depth, updates, both, questions, blocks, version):
    """The replies to all that is asked. At most two queries have other replies than honest ones, so
    that lines come too."""
    asked = [
        Asked(question, both, depth, block) for question, block in zip(
            questions, blocks
        ) if question.is_asked(both)
    ]
    if any(question.unfit(both) for question in questions):
        return b""
    lies = set(chance.sample(range(len(asked)), min(len(asked), chance.choice((0, 1, 1, 1, 1, 2)))))
    spelled = []
    for at, one in enumerate(asked):
        spelled += frames(lied(chance, one, updates) if at in lies else one.honest(), version)
    if chance.one_in(6):
        spelled = changes.frame_changed(chance, spelled)
    data = b"".join(spelled)
    if chance.one_in(8):
        data = changes.bytes_changed(chance, data)
    if chance.one_in(20):
        data += chance.randbytes(chance.choice((1, 2, 3, 50)))
    return data


def wide(chance):
    """As many entries as a sub-vector may have, or one or two more, in frames of any lengths."""
    depth = chance.choice((17, 32, 33, 48))
    lo = chance.randint(0, 2**depth - 70_000)
    question = Question("sub", 0, lo, chance.choice((lo + 65_535, lo + 65_536, lo + 69_999)))
    return stuffed(chance, b"verify", depth, lo, question, [])


def wide_look(chance):
    """The same behind a Found, which leads to as wide an interval."""
    depth = chance.choice((17, 32, 33, 48))
    lo = chance.randint(0, 2**depth - 70_000)
    place = lo + chance.choice((65_535, 65_536, 69_999))
    return stuffed(
        chance, b"lookup", depth, lo, Question("succ", item=lo), [("Found", 1, place)]
    )


def stuffed(chance, verb, depth, lo, question, messages):
    """These messages, and then all entries from there on."""
    rows = [(lo + at, 1) for at in range(65_536 + chance.choice((0, 1, 2)))]
    parts = honest.cut(rows, chance.choice((512, 511, 256)))
    version = version_needed(depth, [question])
    data = b"".join(
        spelling(message, version)
        for message in [*messages, *(("Entries", part) for part in parts)]
    )
    words = words_of(verb, "text", depth, [question])
    return Case(words, {"stream": record((0, lo, 1), "text"), "seed": chance.seed_bytes()}, data)
