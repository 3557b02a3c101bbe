"""Two asks of one sketch, of which the second may use what the first revealed, over all challenges
of two seats for entries; and the lie of the second, told to the program."""

import itertools
import os
import subprocess

from oracle import asks
from oracle.field import P, inverse
from oracle.frames import spelling
from oracle.honest import replies as honest
from oracle.questions import Question
from oracle.sketches import begun, fingerprint, read, spelled, watched
from oracle.streams import record, vectors

ENTRIES = 1
FIRST = Question("sub", 0, 0, 0)


def stream(vector):
    return [(0, item, value) for item, value in enumerate(vector) if value]


def sketch(depth, updates, blocks):
    """One whose seats have these challenges."""
    it = begun(bytes(32), depth, 1, 1, [ENTRIES] * len(blocks))
    seats = (seat._replace(block=tuple(block)) for seat, block in zip(it.seats, blocks))
    return watched(it._replace(seats=tuple(seats)), updates)


def says(updates, claim, siblings):
    """That the first entry is this one, with these right siblings, and what the sketch holds."""
    weights = (side.weight for side in vectors(updates))
    messages = [("Held", len(updates), *weights, fingerprint(updates))]
    value = (claim + P // 2) % P - P // 2
    messages += [("Entries", [(0, value)])] if value else []
    messages += [("Siblings", None, sibling % P) for sibling in siblings]
    return b"".join(spelling(message, 1) for message in messages)


def asked(file, data):
    """One ask of the first entry: the file behind it, and its line."""
    outcome = asks.run(b"ask k f t sub:0:0".split(), {"k": file, "f": data})
    return outcome.left["k"], outcome.report


def is_fooled(updates, line):
    return not line.startswith(b"rejected ") and line != right(updates)


def right(updates):
    return FIRST.line(FIRST.answer(vectors(updates))).encode()


def fooled(depth, updates, lie):
    """At how many joint challenges one of two asks gives a wrong answer. A lie is told of which ask
    it is, and of the challenges of both seats."""
    count = 0
    for both in itertools.product(range(P), repeat=2 * depth):
        blocks = both[:depth], both[depth:]
        file, wrong = spelled(sketch(depth, updates, blocks)), False
        for number in (0, 1):
            file, line = asked(file, lie(number, blocks))
            wrong = wrong or is_fooled(updates, line)
        count += wrong
    return count


# ---- depth 1, over 31: the claim 3 + a with the sibling 4 is accepted where the challenge is a

OF_PAIR = stream((3, 5))


def one(_):
    return 1


def other(challenge):
    return challenge or 1


def behind(challenge):
    return other((challenge + 1) % P)


def by_the_other(ways):
    """Each claim is by the challenge of the other seat."""
    return lambda number, blocks: says(OF_PAIR, 3 + ways[number](blocks[1 - number][0]), [4])


# ---- depth 2: a claim that is 1 too great, with a sibling that makes good for it at some challenge

OF_FOUR = stream((2, 1, 3, 1))


def by_what_was_revealed(number, blocks):
    """The second ask uses the first challenge of the seat before, and each its own, which is
    revealed before the last reply. It wins where the claim is made good for at the first sibling or
    at the last: 2·p - 1 of the p^2 challenges of a seat, whatever it knows of the others."""
    first, _ = blocks[number]
    guess = other(blocks[0][0]) if number else 1
    short = 1 - guess * first
    above = 3 + first
    return says(OF_FOUR, 3, [1 - guess, above - (1 if short % P else 0)])


# ---- depth 2: a lie by the first challenge of the seat that was asked before, of four zeros


def by_the_seat_before(block):
    return says([], 1, [-inverse(block[0]), 0])


def put_back(is_put_back):
    """At how many pairs of the first challenges of two seats the lie is accepted in the second ask,
    where the file of before the first was put back or not; the last challenges are any."""
    count = 0
    for first, second in itertools.product(range(P), repeat=2):
        before = spelled(sketch(2, [], [(first, 1), (second, 2)]))
        file, _ = asked(before, says([], 0, [0, 0]))
        _, line = asked(before if is_put_back else file, by_the_seat_before((first, 1)))
        count += is_fooled([], line)
    return count


# What is counted, over which field, and what was worked out by hand. The bound for two asks at depth
# d is 2·d·p^(2·d - 1): 62 at depth 1, and 1372 at depth 2 over 7.
COUNTS = {
    31: [
        ("an ask by what the one before had", lambda: fooled(1, OF_PAIR, by_the_other((one, other))), 61),
        ("the same, the other way round", lambda: fooled(1, OF_PAIR, by_the_other((other, one))), 61),
        ("each ask by the other's challenge", lambda: fooled(1, OF_PAIR, by_the_other((other, behind))), 62),
        ("the seat before, which was put back", lambda: put_back(True), 930),
        ("the same lie at the next seat", lambda: put_back(False), 30),
    ],
    7: [("what was revealed before", lambda: fooled(2, OF_FOUR, by_what_was_revealed), 7**4 - 36**2)],
}  # fmt: skip


def differs(modulus):
    """1 where some count does."""
    wrong = 0
    for name, count, wanted in COUNTS[modulus]:
        found = count()
        print(f"over {modulus}, {name}: {found}")
        if found != wanted:
            wrong = 1
            print(f"    and not {wanted}")
    return wrong


# ---- the program, over 2^61 - 1

DEPTH = 20
OF_MANY = stream((3, 5, 0, 1))


def told(sip, work):
    """Two asks of the program, of which the second is a lie by what the first revealed. How many
    facts differ."""

    def put(name, data):
        with open(os.path.join(work, name), "wb") as file:
            file.write(data)

    def bytes_of(name):
        with open(os.path.join(work, name), "rb") as file:
            return file.read()

    def run(*words):
        done = subprocess.run([sip, *words], cwd=work, capture_output=True, timeout=60)
        return done.returncode, done.stdout

    put("seed", os.urandom(32))
    put("log", b"".join(record(update, "text") for update in OF_MANY))
    run("begin", "k", "seed", str(DEPTH), "1/1", "entries:2")
    run("watch", "k", "text:log", "0", "-")
    before = bytes_of("k")
    first, _ = read(before).seats

    put("from", siblings_by(first.block, 0))
    facts = [(run("ask", "k", "from", "to", FIRST.word()), (0, right(OF_MANY)))]
    put("from", siblings_by(first.block, 1))
    rejected = f"rejected query 1 round {DEPTH} Root\n".encode()
    facts.append((run("ask", "k", "from", "to", FIRST.word()), (1, rejected)))
    put("k", before)
    facts.append((run("ask", "k", "from", "to", FIRST.word()), (0, b"sub:0:0 0:4\n")))
    wrong = [fact for fact in facts if fact[0] != fact[1]]
    for is_, wanted in wrong:
        print(f"{is_}, not {wanted}")
    print(f"{len(facts)} asks of the program, {len(wrong)} differ")
    return len(wrong)


def siblings_by(block, more):
    """The first entry with so much more, a sibling that makes good for it where the first challenge
    is this one, and else honest replies at these challenges."""
    first, *later = honest(FIRST, vectors(OF_MANY), DEPTH, block)
    _, _, sibling = first[-1]
    shown = [sibling - more * inverse(block[0]), *(reply[-1][2] for reply in later)]
    return says(OF_MANY, 3 + more, shown)
