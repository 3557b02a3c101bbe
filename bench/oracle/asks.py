"""Runs of `ask`: questions on a sketch, of one who holds its stream. What is told of the sketch
decides what is asked, and what its seats keep decides what is accepted: the stream is not looked
at."""

from typing import NamedTuple

from . import runs
from .field import WEIGHT
from .frames import Fault, read, spelling
from .judging import verdict_by
from .questions import LOOKUPS, rejection, version_needed
from .sketch_runs import Desk, Ends, Stored, sketch_of
from .stores import Link
from .words import ASKS

# The kinds of seat that serve a question, by its kind and its side.
ENTRIES, SUMS, PRODUCTS, HEAVY, ABOVE = 1, 2, 4, 5, 7


class Told(NamedTuple):
    """What is told of a side: its total is its weight, where no delta was below 0."""

    weight: int

    @property
    def total(self):
        return self.weight


class OfSeat:
    """What a seat keeps, for the question that it serves."""

    def __init__(self, seat, weights):
        self.seat, self.weights = seat, weights

    def root(self):
        return self.seat.first

    def extension(self, side):
        return self.seat.second if self.seat.kind == PRODUCTS and side else self.seat.first

    def root_counted(self, side):
        return self.seat.first, self.seat.second - WEIGHT

    def root_weighed(self, side):
        return self.seat.first, self.weights[side]


def kind_of(question):
    if question.kind == "sub" or question.kind in LOOKUPS:
        return ENTRIES
    if question.kind == "inner":
        return PRODUCTS
    if question.kind == "above":
        return ABOVE + question.side
    return (HEAVY if question.counts() else SUMS) + question.side


def fits(question, depth):
    """Whether its items are those of this depth."""
    return max(question.lo, question.hi, question.item) < 2**depth


def run(words, files, may_be_made=lambda name: True, busy=(), given=b""):
    """The run of these words where these files stand, and `given` is standard input. Another
    process has the locks of the names in `busy`."""
    said, refused = runs.read_or_refused(words, ASKS)
    if refused:
        return refused._replace(left=files)
    desk = Desk(said["sketch"], files, may_be_made, busy)
    port = AskLink(said, {**files, "-": given}, may_be_made)
    going = Ask(said["questions"], desk, port)
    try:
        going.ask_all()
        status, line, reason = "Accepted", "", ""
    except Ends as ends:
        status, line, reason = ends.why
    # TO is opened when something is first sent.
    left = {**desk.files, said["to"]: going.sent} if going.sent else desk.files
    return runs.Outcome(
        status, line, going.report.encode(), going.sent or None, reason, tuple(going.turns), left,
        tuple(desk.stored),
    )  # fmt: skip


class AskLink(Link):
    """The ends of the link. What is sent goes to no file of the sketch."""

    def __init__(self, said, files, may_be_made):
        super().__init__(said, files, may_be_made)
        self.from_ = said["from"]
        if said["to"] in [said["sketch"] + end for end in ("", ".lock", ".new")]:
            self.to = None


class Ask:
    """A run: what is sent, and its report."""

    def __init__(self, questions, desk, port):
        self.questions, self.desk, self.port = questions, desk, port
        self.sent, self.report, self.turns, self.at = b"", "", [], 0
        self.replies = None

    def ask_all(self):
        self.sketch = sketch_of(self.desk.load(), "sketch")
        self.version = version_needed(self.sketch.depth, self.questions)
        places = self.places()
        self.hear_held()
        for number, (question, place) in enumerate(zip(self.questions, places), 1):
            if place is None:
                self.report += question.line([])
            else:
                self.ask(number, question, place)
        self.send("Bye")

    # ---- what is tested before anything is said

    def places(self):
        """The place of the seat that each question takes, or None where it is not asked."""
        sketch = self.sketch
        if not sketch.is_whole():
            raise Ends("NotWhole", "sip: sketch is not whole")
        for number, question in enumerate(self.questions, 1):
            if not fits(question, sketch.depth):
                raise Ends("Unfit", f"sip: query {number} does not fit")
        both, places = [Told(weight) for weight in sketch.weights], []
        for number, question in enumerate(self.questions, 1):
            if question.counts() and sketch.negatives >> question.side & 1:
                raise Ends("Signed", f"sip: query {number} on a side with negatives")
            asked = question.is_asked(both)
            places.append(self.place(number, question, places) if asked else None)
        for number, question in enumerate(self.questions, 1):
            status = question.unfit(both)
            if status:
                how = {"TooWide": "wide", "TooHigh": "high"}[status]
                raise Ends(status, f"sip: query {number} too {how}")
        return places

    def place(self, number, question, taken):
        for place, seat in enumerate(self.sketch.seats):
            if seat.kind == kind_of(question) and not seat.used and place not in taken:
                return place
        raise Ends("NoSeat", f"sip: no seat for query {number}")

    # ---- the talk

    def send(self, *message):
        if self.port.to is None:
            raise Ends("PeerFault", "sip: peer fault")
        self.sent += spelling(message, self.version)

    def heard(self):
        """The bytes of the other end. Those that the file has are all, and then it ends."""
        if self.replies is None:
            # FROM is opened when something is first to be heard, and the lock is there then.
            given = self.port.from_
            self.replies = self.port.replies if given == "-" else self.desk.files.get(given)
        if self.replies is None:
            raise Ends("PeerFault", "sip: peer fault")
        return self.replies

    def hear_held(self):
        sketch = self.sketch
        self.send("Open", self.version, sketch.depth)
        self.send("Recall", sketch.records)
        try:
            message, self.at = read(self.heard(), 0, "Held", self.version)
        except Fault as fault:
            if fault.reason == "Closed":
                raise Ends("PeerClosed", "sip: peer closed", "Closed") from None
            raise Ends("BadFrame", "sip: bad frame at offset 0", fault.reason) from None
        self.turns.append((len(self.sent), self.at))
        held, kept = message[1:], (sketch.records, *sketch.weights, sketch.fingerprint)
        if held != kept:
            raise Ends("OutOfStep", f"sip: helper holds {shown(held)}, sketch {shown(kept)}")

    def mark(self, place):
        """Stores the sketch with its seat used."""
        seats = list(self.sketch.seats)
        seats[place] = seats[place]._replace(used=True)
        self.sketch = self.sketch._replace(seats=tuple(seats))
        self.desk.keep(Stored(0, self.sketch, []))

    def ask(self, number, question, place):
        seat = self.sketch.seats[place]
        self.mark(place)
        data = self.heard()
        judged = verdict_by(
            OfSeat(seat, self.sketch.weights),
            question, self.sketch.depth, seat.block, data, self.at, self.version,
        )
        # A message leaves before the reply to it is taken, and behind the reply before.
        for message, end in zip(judged.asked, [*judged.ends, len(data)]):
            self.send(*message)
            self.turns.append((len(self.sent), end))
        if judged.reason:
            self.report += rejection(number, judged.round, judged.reason)
            raise Ends("Rejected", "", judged.reason)
        self.report += question.line(judged.said)
        self.at = judged.ends[-1]


def shown(four):
    *numbers, fingerprint = four
    return f"{' '.join(map(str, numbers))} {fingerprint:016x}"
