"""Worked examples of docs/PROTOCOL.md and others by hand, by which the definitions are tried before
the program is: at the challenges (2, 10) over the vector (3, 0, 5, 1)."""

from oracle import chacha, folds, honest
from oracle.field import P
from oracle.frames import spelling
from oracle.judging import verdict
from oracle.questions import Question
from oracle.runs import run
from oracle.streams import made, record, vectors
from oracle.turns import serve

BLOCK = [2, 10]
BOTH = vectors([(0, 0, 3), (0, 2, 5), (0, 3, 1), (1, 0, 2), (1, 1, 7), (1, 2, 1)])

SUB, SQUARES, RANGE, INNER = Question("sub", 0, 1, 2), Question("f2", 0), Question(
    "range", 0, 1, 3
), Question("inner")
HEAVY, NINTH = Question("heavy", 0, at_least=4), Question("heavy", 0, at_least=9)
ALL = Question("sub", 0, 0, 3)
INDEX, PRED, SUCC = (Question(kind, item=1) for kind in ("index", "pred", "succ"))
CUBES = Question("moment", 0, degree=3)

# A query, its honest replies, and the answer.
HONEST = [
    (SUB, [[("Entries", [(2, 5)]), ("Siblings", 3, 1)], [("Siblings", None, None)]], [(2, 5)]),
    (SQUARES, [[("Claim", 35), ("Poly", 34, P - 58, 25)], [("Poly", 9, 0, 0)]], 35),
    (RANGE, [[("Claim", 6), ("Poly", 5, P - 1, P - 3)], [("Poly", P - 6, 3, 0)]], 6),
    (INNER, [[("Claim", 11), ("Poly", 11, 0, P - 11)], [("Poly", P - 36, 39, 0)]], 11),
    (
        HEAVY,
        [[("Leaves", [(2, 5), (3, 1)]), ("LevelEnd",)], [("Nodes", [(0, 9, 3)]), ("LevelEnd",)]],
        [(2, 5)],
    ),
    (INDEX, [[("Found", 1, 1), ("Siblings", 3, None)], [("Siblings", None, 7)]], 0),
    (
        PRED,
        [
            [("Found", 1, 0), ("Entries", [(0, 3)]), ("Siblings", None, None)],
            [("Siblings", None, 7)],
        ],
        [(0, 3)],
    ),
    (
        SUCC,
        [
            [("Found", 1, 2), ("Entries", [(2, 5)]), ("Siblings", 3, 1)],
            [("Siblings", None, None)],
        ],
        [(2, 5)],
    ),
    (
        CUBES,
        [[("Claim", 153), ("Power", 152, P - 381, 321, P - 91)], [("Power", P - 27, 0, 0, 0)]],
        153,
    ),
]

END = ("LevelEnd",)
LEAVES = ("Leaves", [(2, 5), (3, 1)])

# A query, what is replied, and the round and reason of the rejection.
FAULTS = [
    (SUB, [], 0, "Closed"),
    (SUB, bytes.fromhex("110008"), 0, "BadKind"),
    (SUB, bytes.fromhex("0700"), 0, "Closed"),
    (SUB, bytes.fromhex("13000d"), 0, "BadLength"),
    (SUB, bytes.fromhex("13000e0002") + bytes(12), 0, "BadCount"),
    (SUB, bytes.fromhex("14000903") + bytes(8), 0, "BadCount"),
    (SUB, [("Refuse", 5)], 0, "BadNumber"),
    (SUB, [("Refuse", 1)], 0, "Refused(1)"),
    (SUB, [("Entries", [(3, 1)])], 0, "BadOrder"),
    (SUB, [("Entries", [(3, 1), (1, 0)])], 0, "BadNumber"),
    (SUB, [("Entries", [(2, 5)]), ("Entries", [(2, 5)])], 0, "BadOrder"),
    (SUB, [("Entries", [(2, 5)]), ("Siblings", 3, 1)], 1, "Closed"),
    (SUB, [("Entries", [(2, 5)]), ("Siblings", 3, 1), ("Siblings", None, 1)], 1, "BadFlags"),
    (
        SUB,
        [
            ("Entries", [(1, 7)]),
            ("Entries", [(2, 5)]),
            ("Siblings", 3, 1),
            ("Siblings", None, None),
        ],
        2,
        "Root",
    ),
    (SUB, [("Entries", [(2, 5)]), ("Siblings", 4, 1), ("Siblings", None, None)], 2, "Root"),
    (ALL, [("Siblings", 4, None)], 0, "BadFlags"),
    (SQUARES, [("Claim", 35), ("Poly", P, 0, 0)], 0, "BadNumber"),
    (SQUARES, [("Claim", 2**60)], 0, "BadNumber"),
    (SQUARES, [("Claim", 2**60 - 1), ("Poly", 34, P - 58, 25)], 0, "Sum"),
    (SQUARES, [("Claim", 35), ("Poly", 34, P - 58, 25), ("Poly", 9, 0, 1)], 1, "Sum"),
    (SQUARES, [("Claim", 35), ("Poly", 34, P - 58, 25), ("Poly", 8, 2, 0)], 2, "Root"),
    (HEAVY, bytes.fromhex("160002"), 0, "BadKind"),
    (HEAVY, bytes.fromhex("150002"), 0, "BadLength"),
    (HEAVY, [("Leaves", [(2, P)])], 0, "BadNumber"),
    (HEAVY, [("Leaves", [(3, 1), (2, 5)])], 0, "BadOrder"),
    (HEAVY, [("Leaves", [(2, 5)]), END], 0, "Pairs"),
    (HEAVY, [END, END], 1, "Pairs"),
    (HEAVY, [("Leaves", [(0, 3), (1, 0)]), END], 0, "LightParent"),
    (HEAVY, [("Leaves", [(2, 9), (3, 1)]), END], 0, "Total"),
    (HEAVY, [("Leaves", [(0, 9), (1, 1), (2, 3), (3, 0)]), END], 0, "LightParent"),
    (HEAVY, [LEAVES, END, ("Nodes", [(1, 27, 3)])], 1, "BadOrder"),
    (HEAVY, [LEAVES, END, ("Nodes", [(2, 0, 3)])], 1, "BadOrder"),
    (HEAVY, [LEAVES, END, ("Nodes", [(0, 9, 4)])], 1, "HeavySibling"),
    (HEAVY, [LEAVES, END, ("Nodes", [(0, 9, 2)]), END], 2, "Total"),
    (HEAVY, [LEAVES, END, ("Nodes", [(0, 8, 3)]), END], 2, "Root"),
    (HEAVY, [END, ("Nodes", [(0, 9, 3), (1, 0, 3)]), END], 2, "Total"),
    (NINTH, [("Leaves", [(0, 3), (1, 0), (2, 5)])], 0, "TooMany"),
    (SUCC, bytes.fromhex("130002"), 0, "BadKind"),
    (SUCC, bytes.fromhex("220008"), 0, "BadLength"),
    (SUCC, bytes.fromhex("220009010000"), 0, "Closed"),
    (SUCC, [("Found", 2, 2)], 0, "BadNumber"),
    (SUCC, [("Found", 0, 1)], 0, "BadNumber"),
    (SUCC, [("Refuse", 1)], 0, "Refused(1)"),
    (SUCC, [("Found", 1, 0)], 0, "BadFound"),
    (SUCC, [("Found", 1, 4)], 0, "BadFound"),
    (PRED, [("Found", 1, 2)], 0, "BadFound"),
    (INDEX, [("Found", 1, 0)], 0, "BadFound"),
    (INDEX, [("Found", 0, 0)], 0, "BadFound"),
    (SUCC, [("Found", 1, 2), ("Found", 1, 2)], 0, "BadKind"),
    (SUCC, [("Found", 1, 2), ("Entries", [(3, 1)])], 0, "BadOrder"),
    (SUCC, [("Found", 1, 2), ("Siblings", 3, 1), ("Siblings", None, None)], 2, "Root"),
    # 1 to 3 has two entries, 0 to 1 none at 1, and 0 to 1 one where none was found.
    (
        SUCC,
        [
            ("Found", 1, 3),
            ("Entries", [(2, 5), (3, 1)]),
            ("Siblings", 3, None),
            ("Siblings", None, None),
        ],
        2,
        "NotAlone",
    ),
    (PRED, [("Found", 1, 1), ("Siblings", 3, None), ("Siblings", None, 7)], 2, "NotAlone"),
    (
        PRED,
        [
            ("Found", 0, 0),
            ("Entries", [(0, 3)]),
            ("Siblings", None, None),
            ("Siblings", None, 7),
        ],
        2,
        "NotAlone",
    ),
    (CUBES, [("Claim", 2**60)], 0, "BadNumber"),
    (CUBES, [("Claim", 153), ("Poly", 34, P - 58, 25)], 0, "BadKind"),
    (CUBES, [("Claim", 153), ("Power", 153, 0, 0)], 0, "BadLength"),
    (CUBES, [("Claim", 153), ("Power", 153, 0, 0, 0, 0)], 0, "BadLength"),
    (CUBES, [("Claim", 153), ("Power", 0, 0, 0, P)], 0, "BadNumber"),
    (CUBES, [("Claim", 152), ("Power", 152, P - 381, 321, P - 91)], 0, "Sum"),
    (CUBES, [("Claim", 153), ("Power", 152, P - 381, 321, P - 91), ("Claim", 0)], 1, "BadKind"),
    (
        CUBES,
        [("Claim", 153), ("Power", 152, P - 381, 321, P - 91), ("Power", P - 26, 0, 0, 0)],
        1,
        "Sum",
    ),
    (
        CUBES,
        [("Claim", 153), ("Power", 152, P - 381, 321, P - 91), ("Power", P - 28, 2, 0, 0)],
        2,
        "Root",
    ),
]

# Bytes of talks about the stream of that vector, at the challenge 2.
STREAM = [(0, 0, 3), (0, 2, 5), (0, 3, 1)]
OPEN, ENDS = bytes.fromhex("0100020102"), bytes.fromhex("030000")
BEGUN = OPEN + bytes.fromhex("020029 0003") + b"".join(record(x, "binary") for x in STREAM) + ENDS
REVEAL, REFUSE = bytes.fromhex("0500080000000000000002"), bytes.fromhex("18000104")
BYE, OVER = bytes.fromhex("060000"), bytes.fromhex("230000")

ASK_NEXT = bytes.fromhex("210009 03 0000000000000001")
ASK_SUB = bytes.fromhex("040009 01 00000001 00000002")
FOUND = bytes.fromhex("220009 01 0000000000000002")
SHOWN = [
    bytes.fromhex(
        "13000e0001000000020000000000000005 140011030000000000000003 0000000000000001"
    ),
    bytes.fromhex("14000100"),
]
ASK_CUBES = bytes.fromhex("240002 00 03")
POWERS = [
    bytes.fromhex(
        "110008 0000000000000099"
        "250020 0000000000000098 1ffffffffffffe82 0000000000000141 1fffffffffffffa4"
    ),
    bytes.fromhex("250020 1fffffffffffffe4 0000000000000000 0000000000000000 0000000000000000"),
]
BEFORE, NONE = bytes.fromhex("210009 02 0000000000000003"), bytes.fromhex("220009 00") + bytes(8)

# A helper, what it hears, what it writes, and how its talk ends: with the place of a bad frame.
TALKS = [
    (
        "helplook",
        BEGUN + ASK_NEXT + ASK_SUB + REVEAL + OVER,
        FOUND + SHOWN[0] + SHOWN[1],
        ("Served", ""),
    ),
    ("helplook", BEGUN + ASK_NEXT + ASK_SUB, FOUND + SHOWN[0], ("PeerClosed", "Closed")),
    ("helplook", OPEN + ENDS + BEFORE, NONE, ("PeerClosed", "Closed")),
    ("helplook", BEGUN + BYE, b"", ("BadFrame", "BadKind")),
    ("helplook", BEGUN + ASK_SUB, b"", ("BadFrame", "BadKind")),
    ("helplook", BEGUN + ASK_CUBES, b"", ("BadFrame", "BadKind")),
    ("helplook", OVER, b"", ("BadFrame", "BadKind")),
    ("helplook", BYE, REFUSE, ("BadFrame", "OutOfTurn")),
    ("helplook", BEGUN + ASK_NEXT + BYE, FOUND + REFUSE, ("BadFrame", "OutOfTurn")),
    ("helplook", BEGUN + ASK_NEXT + REVEAL, FOUND + REFUSE, ("BadFrame", "OutOfTurn")),
    ("helplook", BEGUN + ASK_NEXT + ASK_NEXT, FOUND, ("BadFrame", "BadKind")),
    ("helplook", BEGUN + ASK_NEXT[:-1] + b"\4", REFUSE, ("BadFrame", "OutOfTurn")),
    ("helplook", BEGUN + bytes.fromhex("210009 04") + bytes(8), REFUSE, ("BadFrame", "OutOfTurn")),
    (
        "helplook",
        BEGUN + 17 * (ASK_NEXT + ASK_SUB + REVEAL),
        16 * (FOUND + SHOWN[0] + SHOWN[1]) + REFUSE,
        ("BadFrame", "OutOfTurn"),
    ),
    ("helpmom", BEGUN + ASK_CUBES + REVEAL + OVER, POWERS[0] + POWERS[1], ("Served", "")),
    ("helpmom", BEGUN + ASK_CUBES + ASK_SUB, POWERS[0] + REFUSE, ("BadFrame", "OutOfTurn")),
    ("helpmom", BEGUN + ASK_CUBES + BYE, POWERS[0] + REFUSE, ("BadFrame", "OutOfTurn")),
    ("helpmom", BEGUN + ASK_CUBES + OVER, POWERS[0], ("BadFrame", "BadKind")),
    ("helpmom", BEGUN + REVEAL, b"", ("BadFrame", "BadKind")),
    ("helpmom", BEGUN + ASK_CUBES[:-1] + b"\2", REFUSE, ("BadFrame", "OutOfTurn")),
    ("helpmom", BEGUN + ASK_CUBES[:-1] + b"\x09", REFUSE, ("BadFrame", "OutOfTurn")),
    ("helpmom", BEGUN + bytes.fromhex("240002 02 03"), REFUSE, ("BadFrame", "OutOfTurn")),
    (
        "helpmom",
        BEGUN + 17 * (ASK_CUBES + REVEAL),
        16 * (POWERS[0] + POWERS[1]) + REFUSE,
        ("BadFrame", "OutOfTurn"),
    ),
]

# Words of lookups and moments behind those of a stream, its lines, what a helper replies, and what
# the run comes to: its status and line, its report, and all that is sent.
FIRST = bytes.fromhex("050008 1207be3415bc170e")  # the first challenge of the seed of zeros


def heavy_one(delta):
    """What is sent at depth 1 of one record, up to the end of the stream."""
    return bytes.fromhex("0100020101 02000f 0001 00 00000000" + delta) + ENDS


RUNS = [
    (
        [b"lookup", b"2", b"succ:1"],
        b"0 0 3\n0 2 5\n0 3 1\n",
        FOUND + SHOWN[0] + SHOWN[1],
        ("Accepted", "", b"succ:1 2:5\n", BEGUN + ASK_NEXT + ASK_SUB + FIRST + OVER),
    ),
    (
        [b"lookup", b"2", b"succ:1", b"index:1"],
        b"0 0 3\n0 2 5\n0 3 1\n",
        bytes.fromhex("220009 01 0000000000000000"),
        ("Rejected", "", b"rejected query 1 round 0 BadFound\n", BEGUN + ASK_NEXT),
    ),
    (
        [b"lookup", b"2", b"pred:3"],
        b"",
        NONE + 2 * bytes.fromhex("14000100"),
        (
            "Accepted",
            "",
            b"pred:3 none\n",
            OPEN + ENDS + BEFORE + bytes.fromhex("040009 01 00000000 00000003") + FIRST + OVER,
        ),
    ),
    # Of one leaf u beside 0 the polynomial is (u - u x)^8.
    (
        [b"moments", b"1", b"moment:0:8"],
        b"0 0 181\n",
        bytes.fromhex("110008")
        + (181**8).to_bytes(8, "big")
        + bytes.fromhex("250048")
        + b"".join(
            (c * 181**8 % P).to_bytes(8, "big") for c in (1, -8, 28, -56, 70, -56, 28, -8, 1)
        ),
        (
            "Accepted",
            "",
            b"moment:0:8 1151936657823500641\n",
            heavy_one("00000000000000b5") + bytes.fromhex("240002 00 08") + OVER,
        ),
    ),
    (
        [b"moments", b"1", b"moment:0:8"],
        b"0 0 182\n",
        b"",
        ("TooHigh", "sip: query 1 too high", b"", heavy_one("00000000000000b6")),
    ),
    (
        [b"moments", b"1", b"moment:1:8", b"moment:0:8"],
        b"0 0 -182\n",
        b"",
        ("TooHigh", "sip: query 2 too high", b"", heavy_one("ffffffffffffff4a")),
    ),
]

# Words that are no command, and the number of the first that begins none.
USAGES = [
    ("lookup", 1),
    ("lookup s seed f t 2", 6),
    ("lookup s seed f t - 2 index:0", 5),
    ("lookup s seed f t 2 index:3 index:4", 7),
    ("lookup s seed f t 2 sub:0:1", 6),
    ("lookup s seed f t 2" + 17 * " pred:0", 22),
    ("moments s seed f t 2" + 17 * " moment:0:3", 22),
    ("moments s seed f t 2 moment:0:9", 6),
    ("moments s seed f t 2 moment:2:3", 6),
    ("moments s seed f t 2 moment:0:3 succ:1", 7),
    ("helplook f", 2),
    ("helpmom f t t", 3),
]

# The transcript of a run that asks SUB, what is changed of it, and what its audit comes to: its
# status, the place of a byte that is wrong, and its report.
TRANSCRIPT = bytes.fromhex(
    "53495054 010201 040009010000000100000002 0000000000000002 000000000000000a"
    "13000e0001000000020000000000000005 140011030000000000000003 0000000000000001 14000100"
)
AUDITS = [
    (TRANSCRIPT, "Accepted", None, b"sub:1:2 2:5\n"),
    (TRANSCRIPT[:75], "Rejected", None, b"rejected query 1 round 1 Closed\n"),
    (TRANSCRIPT + b"\0", "BadTranscript", 76, b"sub:1:2 2:5\n"),
    (TRANSCRIPT[:35] + b"\x11\0\x08\0", "BadTranscript", 38, b"rejected query 1 round 0 BadKind\n"),
    (TRANSCRIPT[:34], "BadTranscript", 27, b""),
    (b"SIP", "BadTranscript", 0, b""),
]


def judged(question, data):
    return verdict(question, BOTH, 2, BLOCK, data, 0, 1)


def spelled(messages):
    return b"".join(spelling(message, 1) for message in messages)


def hold():
    """Ends the program where a definition doesn't give what an example has."""
    # The first bytes of the stream of the key of zeros, as they are in the literature.
    same(
        "the stream of zeros",
        chacha.block(bytes(32), 0)[:16].hex(),
        "76b8e0ada0f13d90405d6ae55386bd28",
    )
    same("the first challenge", chacha.challenges(bytes(32), 2, 2)[1][0], 0x035DB1B417033A57)
    same("a spent word", chacha.draw([2**64 - 1] * 7 + [16], 1), [2])
    same("a made record", [*made(7, 1, 20), *made(0, 1, 20)], [(0, 532219, 8), (0, 913103, 1)])
    same("the root", folds.root(BOTH[0], BLOCK), 73)
    same("the root with counts", folds.root_counted(BOTH[0], BLOCK), (8739, 9))
    same(
        "an interval",
        [folds.interval(BLOCK, *ends) for ends in ((0, 3), (3, 3), (0, 0), (1, 3))],
        [1, 20, 9, P - 8],
    )
    for question, replies, answer in HONEST:
        same(
            f"the replies to {question.word()}",
            [*honest.replies(question, BOTH, 2, BLOCK)],
            replies,
        )
        same(
            f"what {question.word()} states",
            judged(question, b"".join(map(spelled, replies))).said,
            answer,
        )
        same(f"the answer to {question.word()}", question.answer(BOTH), answer)
    for question, messages, round_, reason in FAULTS:
        found = judged(question, messages if isinstance(messages, bytes) else spelled(messages))
        same(
            f"{messages} to {question.word()}",
            (found.said, found.round, found.reason),
            (None, round_, reason),
        )
    for data, status, at, report in AUDITS:
        files = {"s": b"0 0 3\n0 2 5\n0 3 1\n", "t": data}
        found = run([b"audit", b"text:s", b"t"], files, lambda name: True)
        said = "" if at is None else f"sip: bad transcript at offset {at}"
        same(f"the audit of {data.hex()}", found[:3], (status, said, report))
    for verb, heard, written, (status, reason) in TALKS:
        talk = serve(heard, verb)
        same(
            f"the talk of {verb} that hears {heard.hex()}",
            (talk.written, talk.status, talk.reason),
            (written, status, reason),
        )
    for (verb, *asked), stream, replies, wanted in RUNS:
        files = {"s": stream, "seed": bytes(32), "f": replies}
        found = run([verb, b"text:s", b"seed", b"f", b"t", *asked], files, lambda name: True)
        same(f"the run of {asked}", found[:4], wanted)
    for words, number in USAGES:
        found = run(words.encode().split(), {})
        same(words, found.said, f"sip: usage at word {number}")
    # Another polynomial of degree 3, here with a wrong claim, agrees with the true one three times.
    wrong = spelled([("Claim", -29), ("Power", P - 23, 23, P - 6, 0)])
    agrees = [
        r for r in range(50) if verdict(CUBES, vectors([(0, 0, 1)]), 1, [r], wrong, 0, 1).said
    ]
    same("where a wrong moment is accepted", agrees, [2, 3, 4])


def same(what, found, wanted):
    if found != wanted:
        raise SystemExit(f"{what}: the definitions give {found}, and the example has {wanted}")
