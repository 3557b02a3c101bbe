"""Cases for a helper: what a verifier says, and what it should not."""

from oracle.field import P, WEIGHT
from oracle.frames import spelling
from oracle.questions import LOOKUPS, Question, version_needed
from oracle.streams import vectors

from . import changes
from .case import Case
from .program import FROM, TO


def case(chance):
    """Words of `help`, and the bytes of a verifier: a talk, mostly with something changed."""
    depth = chance.depth()
    return saying(chance, b"help", depth, chance.legal(depth), chance.question)


def look_case(chance):
    """The same for `helplook`."""
    depth = chance.depth()
    return saying(chance, b"helplook", depth, chance.legal(depth), chance.lookup)


def moment_case(chance):
    """The same for `helpmom`."""
    depth = chance.depth()
    return saying(chance, b"helpmom", depth, chance.light(depth), chance.moment)


def saying(chance, verb, depth, updates, draw):
    both = vectors(updates)
    questions = chance.questions(both, depth, draw=draw)
    if chance.one_in(15):
        questions = [draw(both, depth) for _ in range(chance.choice((16, 17, 18)))]
    version = version_needed(depth, questions)
    if chance.one_in(4):
        version = 2
    messages = talk(chance, depth, updates, questions, version)
    messages.append(("Bye",) if verb == b"help" else ("End",))
    data = said(chance, messages, depth, version, stray)
    return Case([verb, FROM.encode(), TO.encode()], {}, data)


def said(chance, messages, depth, version, strays):
    """The bytes of a talk, mostly with something changed. `strays` makes a message that may stand
    between those of it."""
    for _ in range(chance.choice((0, 0, 1, 1, 1, 2))):
        messages = changed(chance, messages, depth, strays)
    frames = [spelling(message, other_version(chance, version)) for message in messages]
    if chance.one_in(6):
        frames = changes.frame_changed(chance, frames)
    data = b"".join(frames)
    return changes.bytes_changed(chance, data) if chance.one_in(6) else data


def other_version(chance, version):
    return 3 - version if chance.one_in(3000) else version


def talk(chance, depth, updates, questions, version):
    """A verifier's talk up to its last message, its updates in frames of any lengths."""
    messages, at = [("Open", version, depth)], 0
    while at < len(updates):
        end = at + chance.choice((1, 2, 7, 512, 512))
        messages.append(("Updates", updates[at:end]))
        at = end
    messages.append(("EndStream",))
    return messages + asking(chance, depth, updates, questions)


def asking(chance, depth, updates, questions):
    """What is said behind the stream, up to the last message."""
    messages, both = [], vectors(updates)
    for question in questions:
        messages.append(question.message())
        if question.kind in LOOKUPS:
            # The query that shows the place, or any other.
            shown = question.shown_by(question.place(both), depth)
            question = chance.question(both, depth) if chance.one_in(10) else shown
            messages.append(question.message())
        if not refused_or_short(chance, question, updates):
            messages += [("Reveal", chance.number(61) % P) for _ in range(depth - 1)]
    return messages


def refused_or_short(chance, question, updates):
    """Whether no challenges follow: mostly, where the query is refused."""
    refused = question.refusal(vectors(updates)) is not None
    return refused and not chance.one_in(5)


def changed(chance, messages, depth, strays):
    """A talk with one thing changed."""
    messages = list(messages)
    at = chance.randrange(len(messages))
    if chance.one_in(3):
        # Challenges are the most of a talk.
        others = [at for at, message in enumerate(messages) if message[0] != "Reveal"]
        at = chance.choice(others or [at])
    way = chance.choice(
        ("drop", "double", "swap", "number", "number", "insert", "insert", "ahead", "end")
    )
    if way == "drop":
        del messages[at]
    elif way == "double":
        messages.insert(at, messages[at])
    elif way == "swap":
        other = chance.randrange(len(messages))
        messages[at], messages[other] = messages[other], messages[at]
    elif way == "insert":
        messages.insert(at, strays(chance, depth))
    elif way == "ahead":
        messages.insert(chance.randrange(at + 1), messages.pop(at))
    elif way == "end":
        del messages[at:]
    elif messages[at][0] == "Query":
        messages[at] = "Query", question_changed(chance, messages[at][1])
    elif messages[at][0] in ("AskLook", "AskMoment") and chance.one_in(2):
        messages[at] = ask_changed(chance, messages[at], depth)
    else:
        messages[at] = changes.message_changed(chance, messages[at])
    return messages or [("Bye",)]


def question_changed(chance, question):
    """A query with another number, which may fit no depth, or may have no spelling."""
    field = chance.choice(("side", "lo", "hi", "at_least", "num", "den"))
    return question._replace(**{field: changes.near(chance, getattr(question, field))})


def ask_changed(chance, message, depth):
    """An Ask with another number, at the edge of what is allowed."""
    name, first, second = message
    if name == "AskLook":
        edges = (0, 4, 255), (2**depth - 1, 2**depth, 2**64 - 1)
    else:
        edges = (1 - first, 2, 255), (2, 3, 8, 9, 255)
    if chance.one_in(2):
        return name, chance.choice(edges[0]), second
    return name, first, chance.choice(edges[1])


def stray(chance, depth):
    """Any message of a verifier, or one of a helper."""
    last = 2**depth - 1
    return chance.choice(
        (
            ("Open", chance.randrange(4), chance.randrange(50)),
            ("Updates", [(0, last, 1)]),
            ("Updates", [(0, last + 1, 1)]),
            (
                "Updates",
                [(0, 0, 1), (1, 0, chance.choice((WEIGHT, -WEIGHT, WEIGHT + 1, 0, -(2**63))))],
            ),
            ("Updates", [(chance.randrange(3), chance.randint(0, last), chance.randint(-2, 2))]),
            ("Updates", []),
            ("EndStream",),
            ("Query", Question("f2", chance.randrange(3))),
            ("Query", Question("inner")),
            ("Query", Question("sub", 0, 0, chance.choice((last, last + 1)))),
            ("Query", Question("range", chance.randrange(2), last, last + chance.randrange(2))),
            (
                "Query",
                Question(
                    "heavy", chance.randrange(2), at_least=chance.choice((0, 1, 2**63 - 1, 2**63))
                ),
            ),
            (
                "Query",
                Question(
                    "share", chance.randrange(2), num=1, den=chance.choice((1, 10**6, 10**6 + 1))
                ),
            ),
            ("Query", Question("above", chance.randrange(2), at_least=chance.choice((0, 1)))),
            ("AskLook", chance.randrange(5), chance.choice((0, last, last + 1))),
            ("AskMoment", chance.randrange(3), chance.randint(2, 9)),
            ("Reveal", chance.number()),
            ("Reveal", 1),
            ("Bye",),
            ("End",),
            changes.stray(chance, depth),
        )
    )
