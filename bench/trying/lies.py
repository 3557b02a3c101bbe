"""Replies of a helper that lies, from the honest ones: by small changes, by other vectors, and by
knowing the challenges.

Replies are lists of messages, one list for each reply."""

from oracle import folds, honest
from oracle.field import HALF, P, inverse
from oracle.frames import spelling
from oracle.judging import siblings_asked
from oracle.streams import vectors

from . import changes


class Asked:
    """A query that is asked, and the honest replies to it."""

    def __init__(self, question, both, depth, block):
        self.question, self.both, self.depth, self.block = question, both, depth, block

    def honest(self, both=None, block=None, question=None):
        return list(
            honest.replies(
                question or self.question, both or self.both, self.depth, block or self.block
            )
        )


def lied(chance, asked, updates):
    """The replies to a query: mostly a lie, sometimes honest ones."""
    way = chance.choices(
        (honestly, by_a_change, by_another_run, by_knowledge, by_refusal), (12, 48, 12, 22, 6)
    )[0]
    return way(chance, asked, updates)


def honestly(_, asked, __):
    return asked.honest()


def by_a_change(chance, asked, _):
    replies = [list(reply) for reply in asked.honest()]
    for _ in range(chance.choice((1, 1, 1, 2, 3))):
        j = chance.randrange(len(replies))
        if chance.one_in(3):
            replies[j] = changes.listed_otherwise(chance, replies[j], asked.depth)
        elif replies[j]:
            at = chance.randrange(len(replies[j]))
            replies[j][at] = changes.message_changed(chance, replies[j][at])
    return replies


def by_another_run(chance, asked, updates):
    """Honest replies to something else: other updates, other challenges, another query, or another
    order of replies."""
    way = chance.choice(("stream", "stream", "challenges", "query", "order", "sides"))
    if way == "stream":
        return asked.honest(both=vectors(changed_updates(chance, updates, asked.depth)))
    if way == "challenges":
        block = list(asked.block)
        block[chance.randrange(asked.depth)] = chance.number(61) % P
        return asked.honest(block=block)
    if way == "query":
        return asked.honest(question=chance.other(asked.question, asked.both, asked.depth))
    if way == "sides":
        return asked.honest(both=(asked.both[1], asked.both[0]))
    replies = asked.honest()
    chance.shuffle(replies)
    return replies


def changed_updates(chance, updates, depth):
    updates = list(updates)
    if updates and chance.one_in(2):
        del updates[chance.randrange(len(updates))]
    else:
        items = [item for _, item, _ in updates] + [0, 2**depth - 1]
        updates.append((chance.randrange(2), chance.choice(items), chance.choice((1, -1, 1000))))
    return updates


def by_refusal(chance, asked, _):
    """A refusal, or the end, somewhere within the replies."""
    messages = [message for reply in asked.honest() for message in reply]
    del messages[chance.randint(0, len(messages)) :]
    if chance.one_in(2):
        messages.append(("Refuse", chance.randint(1, 4)))
    return [messages]


def by_knowledge(chance, asked, _):
    """What a helper could say that knows every challenge, also the last: mostly a wrong answer that
    has to be accepted."""
    if asked.question.refusal(asked.both):
        return asked.honest()
    kinds = {
        "sub": entries, "heavy": counted, "share": counted, "above": marked,
        "index": placed, "pred": placed, "succ": placed,
    }  # fmt: skip
    return kinds.get(asked.question.kind, sums)(chance, asked)


def entries(chance, asked):
    """Another entry, and another sibling that makes good for it."""
    lo, hi, block = asked.question.lo, asked.question.hi, asked.block
    replies = asked.honest()
    stated = dict(asked.question.answer(asked.both))
    item = chance.choice([*stated, lo, hi, chance.randint(lo, hi)][:40])
    value = chance.choice(
        (stated.get(item, 0) + chance.choice((1, -1)), chance.randint(-HALF, HALF))
    )
    surplus = (value - stated.get(item, 0)) * weight(block, 0, item) % P
    stated[item] = value
    shown = [
        (j, side)
        for j in range(asked.depth)
        for side, index in enumerate(siblings_asked(lo >> j, hi >> j))
        if index is not None
    ]
    if shown:
        j, side = chance.choice(shown)
        name, *given = replies[j][-1]
        index = siblings_asked(lo >> j, hi >> j)[side]
        given[side] = (given[side] - surplus * inverse(weight(block, j, index))) % P
        replies[j][-1] = name, *given
    rows = sorted(
        (item, value) for item, value in stated.items() if value != 0 and abs(value) <= HALF
    )
    replies[0] = [
        ("Entries", part) for part in honest.cut(rows, chance.choice((512, 1, 2, 100)))
    ] + [replies[0][-1]]
    return replies


def placed(chance, asked):
    """A place, mostly another one than the true one, and what a helper could reply to the query
    that it leads to."""
    lookup, both, depth = asked.question, asked.both, asked.depth
    places = [None, *chance.ends(both[0].entries, depth), changes.near(chance, lookup.item)]
    place = chance.choice((lookup.place(both), chance.choice(places)))
    found = honest.found(place)
    if not lookup.may_be_at(place, depth):
        return [[found], *asked.honest()[1:]]
    shown = Asked(lookup.shown_by(place, depth), both, depth, asked.block)
    first, *later = entries(chance, shown) if chance.one_in(2) else shown.honest()
    return [[found, *first], *later]


def weight(block, level, index):
    """The factor of a node in the root."""
    product = 1
    for bit, r in enumerate(block[level:]):
        if index >> bit & 1:
            product = product * r % P
    return product


def sums(chance, asked):
    """Another claim, and polynomials that agree with it: true but for what is expected of them, up
    to one of the last that leads to where it has to."""
    depth, block = asked.depth, asked.block
    replies = asked.honest()
    claim = replies[0][0][1]
    wrong = chance.choice((claim + 1, claim - 1, -claim, chance.randint(-HALF, HALF)))
    if abs(wrong) > HALF:
        wrong = 0
    replies[0][0] = ("Claim", wrong)
    made_good = chance.randrange(depth)
    expected = wrong % P
    for j in range(depth):
        name, c0, c1, *rest = replies[j][-1]
        # The difference from the true polynomial has to add up to the difference from the true sum.
        short = (expected - 2 * c0 - c1 - sum(rest)) % P
        if short == 0:
            break
        r = block[j]
        if j == made_good and chance.randrange(20):
            # An a + b·x that is 0 at r: 2·a + b is what is short.
            b = short * inverse((1 - 2 * r) % P) % P
            c0, c1 = (c0 - b * r) % P, (c1 + b) % P
        else:
            a = chance.choice((0, 1, chance.number(61)))
            c0, c1 = (c0 + a) % P, (c1 + short - 2 * a) % P
        replies[j][-1] = name, c0, c1, *rest
        expected = folds.value((c0, c1, *rest), r)
    return replies


def counted(chance, asked):
    """Other counts of two leaves, with the same sum, or a heavy node hidden; and a hash that makes
    good for it."""
    replies = asked.honest()
    threshold = asked.question.threshold(asked.both)
    if not replies[0] or replies[0][0][0] != "Leaves":
        return replies
    way = chance.choice(("moved", "hidden", "any"))
    if way == "hidden":
        return hidden(chance, asked, threshold)
    if way == "any":
        return any_counts(chance, asked, replies, threshold)
    name, rows = replies[0][0]
    at = chance.randrange(0, len(rows) - 1, 2) if len(rows) > 1 else 0
    rows = list(rows)
    if len(rows) > 1:
        (left, a), (right, b) = rows[at], rows[at + 1]
        moved = chance.choice((1, -1, b, -a, chance.randint(-a, b)))
        rows[at], rows[at + 1] = (left, (a + moved) % P), (right, (b - moved) % P)
    replies[0][0] = name, rows
    return made_good(chance, asked, replies)


def marked(chance, asked):
    """Another entry within its weight, or other weights at an edge; and a hash that makes good for
    it."""
    replies = asked.honest()
    if not replies[0] or replies[0][0][0] != "Marks":
        return replies
    if chance.one_in(3):
        return any_counts(chance, asked, replies, asked.question.threshold(asked.both))
    name, rows = replies[0][0]
    rows, at = list(rows), chance.randrange(len(rows))
    item, value, size = rows[at]
    rows[at] = item, chance.choice((-value, size, -size, chance.randint(-size, size))), size
    replies[0][0] = name, rows
    return made_good(chance, asked, replies)


def any_counts(chance, asked, replies, threshold):
    """Other counts in one reply, many of them at an edge: so one level may have more than one
    fault."""
    total = asked.question.measure(asked.both)
    j = chance.randrange(len(replies))
    for at, message in enumerate(replies[j][:-1]):
        edges = (0, 1, threshold - 1, threshold, total, total + 1, P - 1)
        rows = [(*row[:-1], chance.choice((row[-1], chance.choice(edges)))) for row in message[1]]
        replies[j][at] = message[0], rows
    return replies


def hidden(chance, asked, threshold):
    """The honest replies to another threshold: to a greater one light nodes stand where heavy ones
    are, and to a lesser one there are light pairs, or too many nodes."""
    total = asked.both[asked.question.side].total
    other = chance.choice(
        (chance.randint(threshold, total), chance.randint(1, total), threshold - 1, threshold + 1)
    )
    question = asked.question._replace(kind="heavy", at_least=max(other, 1))
    if question.refusal(asked.both):
        return asked.honest()
    return made_good(chance, asked, asked.honest(question=question))


def made_good(chance, asked, replies):
    """Changes the hash of one received node, such that the root's is right: it has a factor there
    of its own."""
    nodes = [
        (j, frame, row)
        for j, reply in enumerate(replies)
        for frame, message in enumerate(reply)
        if message[0] == "Nodes"
        for row in range(len(message[1]))
    ]
    if not nodes or chance.one_in(10):
        return replies
    j, frame, row = chance.choice(nodes)
    top = folded(asked, replies)
    if top is None:
        return replies
    root = folds.root_weighed if asked.question.kind == "above" else folds.root_counted
    wanted = root(asked.both[asked.question.side], asked.block)[0]
    name, rows = replies[j][frame]
    index, hash_, count = rows[row]
    factor = 1
    for bit, r in enumerate(asked.block[j:]):
        if index >> bit & 1:
            factor = factor * r * r % P
    rows = list(rows)
    rows[row] = index, (hash_ + (wanted - top) * inverse(factor)) % P, count
    replies[j][frame] = name, rows
    return replies


def folded(asked, replies):
    """The hash at the top that these replies lead to, where they lead there."""
    known = {}
    for reply, r in zip(replies, asked.block):
        for name, *fields in reply:
            rows = fields[0] if name in ("Leaves", "Nodes", "Marks") else ()
            for index, *hash_, count in rows:
                known[index] = (hash_[0] if hash_ else count, count)
        known = folds.up_counted(known, r)
    return known[0][0] if list(known) == [0] else None


def frames(replies, version):
    return [spelling(message, version) for reply in replies for message in reply]
