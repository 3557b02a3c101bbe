"""Cases of one who asks a sketch: its file, which is spoiled at times or has no seat that is left,
and what the helper says, who holds another stream at times or lies."""

from oracle import asks, stores as helpers
from oracle.asks import kind_of
from oracle.frames import spelling
from oracle.questions import version_needed
from oracle.sketch_runs import Ends
from oracle.sketches import MOST_SEATS, fingerprint, read, spelled
from oracle.streams import record, records, vectors
from oracle.words import ASKS, DEEPEST, STORES, any_question, read_words

from . import changes, sketching, spoiled, stores
from .case import Case
from .lies import Asked, by_a_change, by_another_run, by_refusal, changed_updates, frames
from .program import FROM, TO
from .replies import helper_bytes

WORDS = (
    *sketching.WORDS, "ask", FROM, TO, "sketch.lock", "sketch.new", "sub:0:0", "sub:0:1", "sub:1:0",
    "sub:0:281474976710655", "sub:0:281474976710656", "range:0:0:1", "range:2:0:1", "f2:0", "f2:2",
    "inner", "heavy:0:1", "heavy:1:9223372036854775807", "share:0:1:2", "share:0:2:1", "index:0",
    "pred:1", "succ:1", "succ:281474976710655", "moment:0:3", "moment:1:8", "moment:0:9",
    "above:0:1", "above:1:9223372036854775807", "above:2:1", "above:0:0",
)  # fmt: skip


def case(chance):
    """Words of `ask`, a sketch, and the bytes of its helper."""
    depth = chance.depth()
    updates = (chance.legal if chance.one_in(4) else chance.light)(depth)
    questions = asked(chance, updates, depth)
    it = seated(chance, depth, updates, questions)
    files = {"sketch": sketching.bytes_of(chance, it) if chance.one_in(10) else spelled(it)}
    if chance.one_in(50):
        del files["sketch"]
    data = said(chance, it, updates, questions)
    return linked(chance, Case(words_of(questions), files, data))


def words_of(questions, sketch=b"sketch"):
    words = [b"ask", sketch, FROM.encode(), TO.encode()]
    return words + [question.word().encode() for question in questions]


def asked(chance, updates, depth):
    """Questions of each pair and triple of kinds in turn, at times one for a greater depth."""
    questions = stores.asked(chance, updates, depth)
    if chance.one_in(20) and depth < 48:
        deeper = stores.asked(chance, updates, chance.randint(depth + 1, 48))
        questions[chance.randrange(len(questions))] = chance.choice(deeper)
    return questions


def seated(chance, depth, updates, questions, lost=15):
    """The sketch of these updates, mostly with a seat for each question. Seats of any kind stand
    between them, which were used or not."""
    kinds = [(kind_of(question), False) for question in questions]
    if chance.one_in(lost):
        del kinds[chance.randrange(len(kinds))]
    if chance.one_in(2) or not kinds:
        more = [(kind, chance.one_in(2)) for kind in spoiled.kinds(chance)]
        kinds = (kinds + more)[:MOST_SEATS]
    chance.shuffle(kinds)
    it = spoiled.sketch(chance, depth, updates, of=[kind for kind, _ in kinds])
    seats = (seat._replace(used=used) for seat, (_, used) in zip(it.seats, kinds))
    it = it._replace(seats=tuple(seats))
    if chance.one_in(lost):
        it = spoiled.used(chance, it)
    if chance.one_in(30):
        it = it._replace(parts=3, last_part=chance.randint(1, 3))
    return it


def said(chance, it, updates, questions):
    """What the helper holds, and its replies, of which at most two questions have a lie."""
    version = version_needed(it.depth, questions)
    data = spelled_held(chance, it, updates, version)
    places = taken(it, questions)
    if places is None:
        return data
    blocks = [None if place is None else it.seats[place].block for place in places]
    both = vectors(updates)
    return data + helper_bytes(chance, it.depth, updates, both, questions, blocks, version)


def taken(it, questions):
    """The places of the seats that they take, or None where nothing is asked."""
    going = asks.Ask(questions, None, None)
    going.sketch = it
    try:
        return going.places()
    except Ends:
        return None


def held(updates):
    """What one holds who has these updates."""
    weights = (side.weight for side in vectors(updates))
    return len(updates), *weights, fingerprint(updates)


def spelled_held(chance, it, updates, version):
    """What the sketch has; or what one has whose store lags behind, or is of another stream; or
    other numbers; or bytes that are nothing of the kind."""
    numbers = it.records, *it.weights, it.fingerprint
    way = chance.choices(("kept", "behind", "other", "number", "stray", "bytes"), (84, 4, 4, 4, 2, 2))[0]
    if way == "behind":
        numbers = held(updates[: chance.randint(0, len(updates))])
    elif way == "other":
        numbers = held(changed_updates(chance, updates, it.depth))
    elif way == "number":
        at = chance.randrange(4)
        other = chance.choice((changes.near(chance, numbers[at]), chance.number())) % 2**64
        numbers = *numbers[:at], other, *numbers[at + 1 :]
    elif way == "stray":
        return spelling(changes.stray(chance, it.depth), 2)
    data = spelling(("Held", *numbers), version)
    return changes.bytes_changed(chance, data) if way == "bytes" else data


def linked(chance, it):
    """The same, at times over standard input, with other words, or with files that are taken."""
    if chance.one_in(12):
        words = [*it.words[:2], b"-", *it.words[3:]]
        it = it._replace(words=words, given=it.data, data=None)
    if chance.one_in(40):
        end = chance.choice((b"sketch", b"sketch.lock", b"sketch.new", b"none/to"))
        it = it._replace(words=[*it.words[:3], end, *it.words[4:]])
    return sketching.beside(chance, it, WORDS, tuple(ASKS))


# ---- whole runs


def lying(chance):
    """A helper that says that it holds what the sketch does, and lies to the last question at
    random: it knows what was revealed alone. The file `log` has the stream."""
    depth = chance.randint(1, 48) if chance.one_in(2) else chance.randint(1, 8)
    updates = chance.light(depth)
    questions = asked(chance, updates, depth)[:4]
    it = seated(chance, depth, updates, questions, lost=60)
    version = version_needed(depth, questions)
    replies = [spelling(("Held", *held(updates)), version)]
    for one, is_last in posed(it, questions, vectors(updates)):
        way = chance.choice((by_a_change, by_a_change, by_another_run, by_refusal))
        replies += frames(way(chance, one, updates) if is_last else one.honest(), version)
    files = {"sketch": spelled(it), "log": log(updates)}
    return Case(words_of(questions), files, b"".join(replies))


def posed(it, questions, both):
    """Those that are asked, and whether it is the last."""
    taking = [pair for pair in zip(questions, taken(it, questions) or ()) if pair[1] is not None]
    for number, (question, place) in enumerate(taking, 1):
        yield Asked(question, both, it.depth, it.seats[place].block), number == len(taking)


def served(chance):
    """Both ends: a helper with a store, which has the log of the sketch, or more, or less, in any
    order, or has another record."""
    depth = chance.depth()
    updates, form = chance.light(depth), chance.form(depth)
    questions = asked(chance, updates, depth)
    it = seated(chance, depth, updates, questions, lost=60)
    files = {"sketch": spelled(it), "log": log(updates), "store": stored(chance, updates, depth, form)}
    helper = [b"serve", stores.word_of(form).replace(b"stream", b"store"), TO.encode(), FROM.encode()]
    return Case(words_of(questions), files, helper=tuple(helper))


def log(updates):
    return b"".join(record(update, "text") for update in updates)


def stored(chance, updates, depth, form):
    """The bytes of the store."""
    updates = list(updates)
    way = chance.choices(("log", "more", "order", "less", "other"), (40, 20, 20, 10, 10))[0]
    if way == "more":
        updates += chance.light(depth)
    elif way == "order":
        chance.shuffle(updates)
    elif way == "less":
        del updates[chance.randint(0, len(updates)) :]
    elif way == "other":
        updates = changed_updates(chance, updates, depth)
    data = b"".join(record(update, form) for update in updates)
    return data + chance.choice((b"", b"", b"0 1", b"\1"))


def wrong_lines(case, report):
    """The lines of accepted questions with another answer than the stream's own."""
    both = vectors(records(case.files["log"], DEEPEST, "text")[0])
    for line, word in zip(report.decode().splitlines(keepends=True), case.words[4:]):
        question = any_question(word.decode())
        right = question.line(question.answer(both))
        if not line.startswith("rejected ") and line != right:
            yield f"a line is {line!r}, not {right!r}"


def run_both(case, files, may_be_made, verbs):
    """What a case of both ends comes to, of a helper that is honest about its store."""

    def hearing(replies):
        return asks.run(case.words, {**case.files, FROM: replies}, may_be_made, case.busy)

    def said_to(heard):
        words = [*case.helper[:2], b"heard", b"said"]
        return helpers.run(words, {"store": case.files["store"], "heard": heard}).to

    held_ = said_to(hearing(b"").to or b"")
    outcome = hearing(held_)
    if (outcome.status, outcome.reason) != ("Rejected", "Closed"):
        return outcome
    replies = held_ + honest_replies(case)
    outcome = hearing(replies)
    if not replies.startswith(said_to(outcome.to)):
        raise AssertionError("the definitions of both ends differ")
    return outcome


def honest_replies(case):
    """Those of who has the store to all that is asked."""
    it, questions = read(case.files["sketch"]), [any_question(word.decode()) for word in case.words[4:]]
    _, words = read_words([word.decode() for word in case.helper], STORES)
    updates, _ = records(case.files["store"], it.depth, words["stored"].form)
    version, both = version_needed(it.depth, questions), vectors(updates[: it.records])
    asked_ = (one for one, _ in posed(it, questions, both))
    return b"".join(frame for one in asked_ for frame in frames(one.honest(), version))
