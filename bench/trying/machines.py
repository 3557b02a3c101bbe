"""The same cases by the machines of the library that wait in no call, which are handed bytes and
records in pieces: what sip_pieces has to say of a case, by the same definitions."""

import os

from harness.programs import proved
from oracle.frames import spelling
from oracle.turns import QuestionTalk, served

from .program import FROM, TO, Program

# The commands that sip_pieces does, and how they end where it is compared. What cannot be opened is
# told by another port there.
VERIFIERS = (b"verify", b"lookup", b"moments")
HELPERS = (b"help", b"helplook", b"helpmom")
COMPARED = {
    "Accepted", "Rejected", "BadSeed", "BadStream", "SeedSpent", "TooWide", "TooHigh", "Served",
    "BadFrame", "PeerClosed", "BadSketch", "Busy", "NotWhole", "Unfit", "Signed", "NoSeat",
    "OutOfStep",
}  # fmt: skip
BYE, END = (spelling((name,), 1) for name in ("Bye", "End"))


def machines_path():
    """A path to sip_pieces, which is built where none is given; None where only `sip` is given."""
    if os.environ.get("SIP") and not os.environ.get("SIP_PIECES"):
        print("the machines are left out: no SIP_PIECES is given beside SIP", flush=True)
        return None
    return os.path.abspath(proved("sip_pieces", ["0"]))


def machines_in(path, folder):
    """sip_pieces in a folder of its own."""
    own = os.path.join(folder, "machines")
    os.mkdir(own)
    return Program(path, own)


def by_machines(chance, case, outcome):
    """The case for sip_pieces, and what it comes to, if it is one that is compared. Its first word
    is the number that the sizes of pieces are made from."""
    verb = case.words[0] if case.words else b""
    if case.helper or verb not in (*VERIFIERS, *HELPERS, b"ask"):
        return None
    if verb != b"ask" and outcome.to is None:
        return None
    if verb in HELPERS[1:]:
        if case.words[1:] != [FROM.encode(), TO.encode()]:
            return None
        case, outcome = of_questions(case, outcome)
    elif verb in VERIFIERS[1:] and outcome.status == "Accepted":
        # Behind questions a Bye is said.
        outcome = outcome._replace(to=outcome.to.removesuffix(END) + BYE)
    if outcome.status not in COMPARED:
        return None
    number = str(chance.randrange(2**32)).encode()
    return case._replace(words=[number, *case.words]), outcome


def of_questions(case, outcome):
    """The same talk with the helper of questions, whose farewell is a Bye."""
    data = case.data
    if data.endswith(END):
        data = data.removesuffix(END) + BYE
    talk = served(data, QuestionTalk())
    outcome = outcome._replace(
        status=talk.status, said=talk.said, to=talk.written, reason=talk.reason,
        turns=tuple(talk.turns),
    )  # fmt: skip
    return case._replace(data=data), outcome
