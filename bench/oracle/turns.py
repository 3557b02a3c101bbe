"""The helpers' ends: what each may hear at which moment, what it writes, and how its talk ends."""

from typing import NamedTuple

from . import honest
from .field import WEIGHT
from .frames import Fault, read, spelling
from .questions import LOOKUPS, Question
from .streams import vectors

# The most queries, lookups or moments of a talk.
QUERIES = 16


class Served(NamedTuple):
    """`turns` are how much was written before each reply that was owed, and what had come by then;
    the last one is the end. `said` is the line on standard error."""

    status: str
    said: str
    written: bytes
    turns: list
    reason: str


class Stops(Exception):
    """The talk ends here, and no message is to blame."""

    def __init__(self, status, said, reason=""):
        super().__init__(status, said, reason)
        self.why = status, said, reason


class Talk:
    """What was heard so far, all of it allowed. To hear a message is to answer the reply that is
    owed to it, which is no message to most, or None where it is not allowed."""

    def __init__(self):
        self.version = 1
        self.depth = None
        self.updates = []
        self.weights = [0, 0]
        self.both = None  # the vectors, from the end of the stream on
        self.queries = 0
        self.open = None  # the query or the moment that is open
        self.revealed = []
        self.done = False

    def place(self):
        return "ToHelper"

    def hear(self, message):
        name, *fields = message
        return getattr(self, f"hear_{name.lower()}")(*fields)

    def hear_open(self, version, depth):
        if self.depth is not None:
            return None
        self.version, self.depth = version, depth
        return []

    def hear_updates(self, updates):
        if self.depth is None or self.both:
            return None
        weights = list(self.weights)
        for side, item, delta in updates:
            weights[side] += abs(delta)
            if item >= 2**self.depth or weights[side] > WEIGHT:
                return None
        self.updates += updates
        self.weights = weights
        return []

    def hear_endstream(self):
        if self.depth is None or self.both:
            return None
        self.both = vectors(self.updates)
        return []

    def hear_query(self, question):
        if not self.both or self.open or self.queries == QUERIES or not self.answers(question):
            return None
        if question.kind in ("sub", "range") and question.hi >= 2**self.depth:
            return None
        self.queries += 1
        return self.begin(question)

    def answers(self, question):
        return question.is_built()

    def hear_reveal(self, challenge):
        if not self.open or len(self.revealed) == self.depth - 1:
            return None
        self.revealed.append(challenge)
        return self.owed()

    def hear_bye(self):
        self.done = True
        return []

    def begin(self, question):
        self.open, self.revealed = question, []
        self.replies = honest.replies(question, self.both, self.depth, self.revealed)
        return self.owed()

    def owed(self):
        """The reply to what was asked or revealed. A query is closed behind its last reply, or
        behind a refusal."""
        reply = next(self.replies)
        if reply[0][0] == "Refuse" or len(self.revealed) == self.depth - 1:
            self.open = None
        return reply


class AskedTalk(Talk):
    """A talk in which an Ask or an End is due behind the stream, and behind each answer."""

    def is_due(self):
        return self.both and not self.open

    def place(self):
        return self.asked if self.is_due() else "ToHelper"

    def hear_bye(self):
        return None

    def hear_end(self):
        self.done = True
        return []


class LookTalk(AskedTalk):
    asked = "AskedLook"

    def __init__(self):
        super().__init__()
        self.lookups = 0
        self.found = False  # whether a query is due behind a Found

    def is_due(self):
        return super().is_due() and not self.found

    def hear_asklook(self, code, item):
        if self.lookups == QUERIES or not 1 <= code <= len(LOOKUPS) or item >= 2**self.depth:
            return None
        self.lookups += 1
        self.found = True
        return [honest.found(Question(LOOKUPS[code - 1], item=item).place(self.both))]

    def hear_query(self, question):
        reply = super().hear_query(question)
        self.found = self.found and reply is None
        return reply


class MomentTalk(AskedTalk):
    asked = "AskedMoment"

    def hear_askmoment(self, side, degree):
        moment = Question("moment", side, degree=degree)
        if self.queries == QUERIES or side > 1 or not 3 <= degree <= 8:
            return None
        if moment.is_too_high(self.both):
            return None
        self.queries += 1
        return self.begin(moment)


class QuestionTalk(Talk):
    """A talk in which questions of every kind may come behind the stream, where none is open. A
    Found opens nothing."""

    def __init__(self):
        super().__init__()
        self.lookups = self.moments = 0

    def place(self):
        return "AskedQuestion"

    def hear_asklook(self, code, item):
        if not self.both or self.open or self.lookups == QUERIES:
            return None
        if not 1 <= code <= len(LOOKUPS) or item >= 2**self.depth:
            return None
        self.lookups += 1
        return [honest.found(Question(LOOKUPS[code - 1], item=item).place(self.both))]

    def hear_askmoment(self, side, degree):
        moment = Question("moment", side, degree=degree)
        if not self.both or self.open or self.moments == QUERIES or side > 1:
            return None
        if not 3 <= degree <= 8 or moment.is_too_high(self.both):
            return None
        self.moments += 1
        return self.begin(moment)

    def hear_recall(self, count):
        return None


TALKS = {"help": Talk, "helplook": LookTalk, "helpmom": MomentTalk}


def serve(data, verb):
    return served(data, TALKS[verb]())


def served(data, talk):
    """How a talk goes that hears these bytes."""
    at, written, turns = 0, b"", []

    def ends(status, said, upto, reason="", last=b""):
        return Served(status, said, written + last, [*turns, (len(written), upto)], reason)

    bad_frame = "sip: bad frame at offset {}"
    while not talk.done:
        try:
            message, end = read(data, at, talk.place(), talk.version)
            reply = talk.hear(message)
        except Fault as fault:
            if fault.reason == "Closed":
                return ends("PeerClosed", "sip: peer closed", len(data), fault.reason)
            return ends("BadFrame", bad_frame.format(at), len(data), fault.reason)
        except Stops as stops:
            status, said, reason = stops.why
            return ends(status, said, end, reason)
        if reply is None:
            refused = spelling(("Refuse", 4), talk.version)
            return ends("BadFrame", bad_frame.format(at), end, "OutOfTurn", refused)
        if reply:
            turns.append((len(written), end))
            written += b"".join(spelling(part, talk.version) for part in reply)
        at = end
    return ends("Served", "", at)
