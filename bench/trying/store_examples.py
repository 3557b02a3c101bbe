"""Worked talks of a helper that has the stream 0 0 3, 0 2 5, 0 3 1 in a store, at the challenges
(2, 10), and runs of `serve`."""

from oracle import stores, whole
from oracle.judging import verdict
from oracle.frames import spelling
from oracle.questions import LOOKUPS
from oracle.streams import vectors
from oracle.turns import served
from oracle.words import ASKED, question

from .examples import same

V = [(0, 0, 3), (0, 2, 5), (0, 3, 1)]
GROWN = [*V, (0, 1, 2)]
LINES = b"0 0 3\n0 2 5\n0 3 1\n"

OPEN = bytes.fromhex("010002 0102")
RECALL = bytes.fromhex("270008 0000000000000003")
HELD = bytes.fromhex("260020 0000000000000003 0000000000000009 0000000000000000 b8261ae7db4fab00")
ASK = bytes.fromhex("210009 03 0000000000000001")
FOUND = bytes.fromhex("220009 01 0000000000000002")
QUERY = bytes.fromhex("040009 01 00000001 00000002")
REVEAL = bytes.fromhex("050008 0000000000000002")
CUBES = bytes.fromhex("240002 0003")
BYE, END, END_STREAM = b"\x06\0\0", b"\x23\0\0", b"\x03\0\0"
OUT_OF_TURN = bytes.fromhex("180001 04")
# What a helper with a store of the stream, and of one record more, hears; what it says first, and
# how the talk ends.
TALKS = [
    (OPEN + RECALL + BYE, HELD, ("Served", "")),
    (OPEN + RECALL + ASK + QUERY + REVEAL + CUBES + REVEAL + BYE, HELD + FOUND, ("Served", "")),
    (OPEN + RECALL + ASK * 16 + CUBES + BYE, HELD + FOUND * 16, ("Served", "")),
    (OPEN + RECALL + ASK * 17, HELD + FOUND * 16 + OUT_OF_TURN, ("BadFrame", "OutOfTurn")),
    (OPEN + RECALL + CUBES + QUERY, HELD, ("BadFrame", "OutOfTurn")),
    (OPEN + RECALL + CUBES + ASK, HELD, ("BadFrame", "OutOfTurn")),
    (OPEN + RECALL + QUERY + ASK, HELD, ("BadFrame", "OutOfTurn")),
    (OPEN + RECALL + RECALL, HELD + OUT_OF_TURN, ("BadFrame", "OutOfTurn")),
    (OPEN + END_STREAM, OUT_OF_TURN, ("BadFrame", "OutOfTurn")),
    (OPEN + ASK, OUT_OF_TURN, ("BadFrame", "OutOfTurn")),
    (RECALL, OUT_OF_TURN, ("BadFrame", "OutOfTurn")),
    (OPEN + END, b"", ("BadFrame", "BadKind")),
    (OPEN + RECALL, HELD, ("PeerClosed", "Closed")),
]

# The words of one talk, and the answers, as sums over (3, 0, 5, 1).
VECTOR = (3, 0, 5, 1)
ANSWERS = {
    "sub:1:2": [(i, VECTOR[i]) for i in (1, 2) if VECTOR[i]],
    "succ:1": [min((i, a) for i, a in enumerate(VECTOR) if i >= 1 and a)],
    "moment:0:3": sum(a**3 for a in VECTOR),
    "f2:0": sum(a**2 for a in VECTOR),
    "index:1": VECTOR[1],
    "heavy:0:4": [(i, a) for i, a in enumerate(VECTOR) if a >= 4],
    "pred:1": [max((i, a) for i, a in enumerate(VECTOR) if i <= 1 and a)],
    "range:0:1:3": sum(VECTOR[1:]),
}
LINES_OF_ANSWERS = (
    "sub:1:2 2:5\nsucc:1 2:5\nmoment:0:3 153\nf2:0 35\nindex:1 0\nheavy:0:4 2:5\npred:1 0:3\n"
    "range:0:1:3 6\n"
)

# Words, what stands in the file, what is heard, and what a run comes to: its line, what it writes,
# and what of that is on standard output.
ONE, TWO = bytes.fromhex("270008 0000000000000001"), bytes.fromhex("270008 0000000000000002")
HELD_TWO = bytes.fromhex(
    "260020 0000000000000002 0000000000000008 0000000000000000 9b1b0603004e1b13"
)
NOTHING = bytes.fromhex("270008 0000000000000000")
HELD_NONE = bytes.fromhex("260020") + bytes(32)
RUNS = [
    ("serve text:S f t", LINES, OPEN + RECALL + BYE, "", HELD),
    ("serve text:S f t", LINES + b"0 1 x\n", OPEN + RECALL + BYE, "", HELD),
    ("serve text:S f t", LINES[:-1], OPEN + RECALL, "sip: bad stream at record 2: Truncated", b""),
    ("serve text:S f t", LINES[:-1], OPEN + TWO + BYE, "", HELD_TWO),
    ("serve text:S f t", LINES, OPEN + TWO + BYE, "", HELD_TWO),
    ("serve text:S f t", LINES[:12], OPEN + RECALL + BYE, "", HELD_TWO),
    ("serve text:S f t", b"", OPEN + RECALL + BYE, "", HELD_NONE),
    ("serve text:S f t", b"x", OPEN + NOTHING + BYE, "", HELD_NONE),
    ("serve S f t", LINES, OPEN + ONE, "sip: bad stream at record 0: BadSide", b""),
    ("serve none f t", LINES, OPEN + ONE, "sip: read fault on first", b""),
    ("serve none f t", LINES, OPEN, "sip: peer closed", b""),
    ("serve text:S none t", LINES, b"", "sip: peer fault", b""),
    ("serve text:S f f", LINES, OPEN + RECALL, "sip: peer fault", OPEN + RECALL),
    ("serve text:S f S", LINES, OPEN + RECALL, "sip: peer fault", LINES),
    ("serve text:S f d/t", LINES, OPEN + BYE, "", None),
    ("serve made:7:3 f t", LINES, b"", "sip: usage at word 1", None),
    ("serve text:S f", LINES, b"", "sip: usage at word 3", b""),
    ("serve text:S f t -", LINES, b"", "sip: usage at word 4", None),
    # To read the file that FROM is would take the other end's bytes.
    ("serve text:f f t", LINES, OPEN + RECALL + BYE, "sip: read fault on first", b""),
    ("serve f f t", LINES, OPEN + ONE, "sip: read fault on first", b""),
    ("serve f f t", LINES, OPEN + NOTHING + BYE, "", HELD_NONE),
    ("serve text:f f f", LINES, OPEN + RECALL, "sip: read fault on first", OPEN + RECALL),
    ("serve text:none none t", LINES, b"", "sip: peer fault", b""),
    # Each command refuses the words behind it.
    ("help S - -", LINES, b"", "sip: usage at word 3", None),
    ("help f t", LINES, OPEN + END_STREAM + BYE, "", b""),
    ("seats text:S f", LINES, b"", "sip: usage at word 2", b""),
    ("seats S", LINES, b"", "sip: bad sketch at offset 0", LINES),
    ("watch text:S f + t", LINES, b"", "sip: usage at word 4", None),
    ("begin k f 2 1/1", LINES, b"", "sip: usage at word 5", None),
    ("merge S", LINES, b"", "sip: usage at word 2", LINES),
    ("ask k f t f2:0", LINES, b"", "sip: usage at word 0", None),
]


def hold():
    for heard, said, (status, reason) in TALKS:
        talk = served(heard, stores.StoreTalk(lambda _: (GROWN, None)))
        same(
            f"the talk of a store that hears {heard.hex()}",
            (talk.written.startswith(said), talk.status, talk.reason),
            (True, status, reason),
        )
    check_answers()
    check_runs()


def asked(word):
    return next(filter(None, (question(shape, word, 2) for shape in ASKED)))


def spelled(it, both):
    """What a verifier says that asks it, at depth 2."""
    messages = [it.message()]
    if it.kind in LOOKUPS:
        messages.append(it.shown_by(it.place(both), 2).message())
    return b"".join(spelling(message, 1) for message in messages) + REVEAL


def check_answers():
    """One talk of eight kinds: the replies are accepted, one behind another, and say these."""
    questions, both, heard = [asked(word) for word in ANSWERS], vectors(V), OPEN + RECALL
    for it in questions:
        heard += spelled(it, both)
    data = served(heard + BYE, stores.StoreTalk(lambda _: (GROWN, None))).written
    for it, (word, answer) in zip(questions, ANSWERS.items()):
        same(f"the answer to {word}", it.answer(both), answer)
    same("what is replied", accepted(data), True)


def accepted(data):
    """Whether a helper that says this says what it holds, and all its replies are accepted."""
    both, at, lines = vectors(V), len(HELD), ""
    if data[:at] != HELD:
        return False
    for word, answer in ANSWERS.items():
        it = asked(word)
        judged = verdict(it, both, 2, [2, 10], data, at, 1)
        if (judged.said, judged.reason) != (answer, None):
            return False
        at, lines = judged.ends[-1], lines + it.line(judged.said)
    return at == len(data) and lines == LINES_OF_ANSWERS


def check_runs():
    for words, data, heard, said, written in RUNS:
        files = {"S": data, "f": heard}
        made = lambda name: "/" not in name  # noqa: E731
        outcome = whole.run(words.encode().split(), files, made, verbs=())
        same(words, (outcome.said, outcome.left.get(words.split()[-1])), (said, written))
    for stored, files in (("text:S", {"S": LINES}), ("text:-", {"-": LINES})):
        words = f"serve {stored} - -".encode().split()
        through = whole.run(words, files, given=OPEN + RECALL + BYE)
        same("standard input and output", (through.said, through.report), ("", HELD))
