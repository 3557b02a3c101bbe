"""Cases of a helper that has the stream in a store: talks of questions of every kind, mostly with
something changed, over files that are longer or shorter than what is asked for, or bad."""

from itertools import product

from oracle.questions import LOOKUPS, Question, version_needed
from oracle.streams import record, vectors
from oracle.words import STORES

from . import changes, sketching, talks
from .case import Case
from .copies import illegal_somewhere
from .program import FROM, TO
from .replies import word_of

KINDS = ("sub", "range", "f2", "inner", "heavy", "share", *LOOKUPS, "moment", "above")

# The kinds of one, two and three questions: each comes once in so many cases.
TUPLES = [kinds for length in (1, 2, 3) for kinds in product(KINDS, repeat=length)]

WORDS = (*sketching.WORDS, "serve", "help", FROM, TO, "made:7:3", ".", "..")


def case(chance):
    """Words of `serve`, the store, and the bytes of the one who asks."""
    depth = chance.depth()
    updates, form = chance.light(depth), chance.form(depth)
    count = count_of(chance, len(updates))
    heard = updates[:count]
    questions = asked(chance, heard, depth)
    version = 2 if chance.one_in(4) else version_needed(depth, questions)
    messages = [("Open", version, depth), ("Recall", count)]
    messages += talks.asking(chance, depth, heard, questions) + [("Bye",)]
    data = talks.said(chance, messages, depth, version, stray)
    files = {"store": stored(chance, updates, depth, form)}
    if chance.one_in(40):
        del files["store"]
    if chance.one_in(25):
        form = chance.choice(("binary", "text", "wide"))
    store = word_of(form).replace(b"stream", b"store")
    return linked(chance, Case([b"serve", store, FROM.encode(), TO.encode()], files, data))


def count_of(chance, size):
    """How many records are asked for: mostly all, or a front of them."""
    count = chance.choice((size, size, chance.randint(0, size), size + 1, 2**64 - 1))
    return count or 1 - chance.randrange(2)


def asked(chance, updates, depth):
    """Two or three questions, of each pair and triple of kinds in turn; or as many of one sort as a
    talk may have, and more."""
    both = vectors(updates)
    if chance.one_in(10):
        draw = chance.choice((chance.question, chance.lookup, chance.moment, chance.large))
        return [draw(both, depth) for _ in range(chance.choice((15, 16, 17, 18)))]
    if chance.one_in(20):
        draws = (chance.question, chance.lookup, chance.moment, chance.large)
        return [chance.choice(draws)(both, depth) for _ in range(16)]
    return [of_kind(chance, kind, both, depth) for kind in TUPLES[chance.case % len(TUPLES)]]


def of_kind(chance, kind, both, depth):
    """A question of this kind."""
    if kind in ("moment", "above"):
        return (chance.moment if kind == "moment" else chance.large)(both, depth)
    draw = chance.lookup if kind in LOOKUPS else chance.question
    while True:
        question = draw(both, depth)
        if question.kind == kind:
            return question


def stray(chance, depth):
    """Any message of one who asks, or of a helper."""
    return chance.choice(
        (
            ("Recall", chance.choice((0, 1, 3, 2**64 - 1))),
            ("Held", *(chance.number() for _ in range(4))),
            ("AskLook", chance.randint(1, 3), chance.randint(0, 2**depth - 1)),
            ("AskMoment", chance.randrange(2), chance.randint(3, 8)),
            ("Query", Question("f2", 0)),
            ("EndStream",),
            *(talks.stray(chance, depth) for _ in range(4)),
        )
    )


def stored(chance, updates, depth, form):
    """The bytes of the store, of which a record may be bad, or half."""
    if chance.one_in(12):
        updates = illegal_somewhere(chance, updates, depth, form)
    data = b"".join(record(update, form) for update in updates)
    way = chance.choices(("whole", "half", "more", "changed"), (80, 7, 7, 6))[0]
    if way == "half":
        return data[: -chance.randint(1, 12)]
    if way == "more":
        return data + chance.choice((b"0 1", b"\0", b"0 0 1\n", b"\xff" * 20))
    return changes.bytes_changed(chance, data) if way == "changed" else data


def linked(chance, it):
    """The same, at times over standard input or output, or with other words."""
    if chance.one_in(10):
        ends = chance.choice(((b"-", b"-"), (FROM.encode(), b"-"), (b"-", TO.encode())))
        it = it._replace(words=[*it.words[:2], *ends])
        if ends[0] == b"-":
            it = it._replace(given=it.data, data=None)
    if chance.one_in(15):
        it = it._replace(words=sketching.words_changed(chance, it, WORDS, tuple(STORES)))
    return it
