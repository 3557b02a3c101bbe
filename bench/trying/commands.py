"""Cases of words: of each command, mostly with something changed, over files that are there or
not."""

from oracle import honest
from oracle.chacha import challenges
from oracle.frames import spelling
from oracle.questions import Question
from oracle.runs import behind_progress
from oracle.streams import record, vectors
from oracle.words import COMMANDS, Usage, read_words

from .case import Case
from .program import FROM, TO

WORDS = (
    "verify", "help", "lookup", "helplook", "moments", "helpmom", "gen", "lines", "widen", "play",
    "audit", "show", "convert", "", "-",
    "--help", "--version", "-h", "-V", "honest", "skewed", "mute", "stream", "text:lines",
    "wide:records", "made:7:3", "made:0:0", "made:7:10000000", "made:7:10000001",
    "made:18446744073709551615:1", "made:18446744073709551616:1", "made:07:1", "made:7:",
    "made::1", "made:7:1:1", "made:", "text:", "wide:", "text:made:7:3", "seed", "short", "none",
    FROM, TO, ".", "..", "0", "1", "2", "20", "32", "33", "48", "49", "00", "01", "+1", "-1", "1 ",
    " 1", "1e1", "٣", "sub:0:0", "sub:0:1", "sub:1:0", "sub:0:3", "sub:0:4", "sub:01:2", "sub:0",
    "sub:0:1:2", "sub::1", "sub:0:281474976710655", "sub:0:281474976710656", "range:0:0:1",
    "range:2:0:1", "range:1:1:3", "range:0:1:0", "f2:0", "f2:1", "f2:2", "f2", "f2:", "f2:00",
    "inner", "inner:", "inner:0", "INNER", "heavy:0:1", "heavy:1:4", "heavy:0:0",
    "heavy:0:9223372036854775807", "heavy:0:9223372036854775808", "heavy:0", "heavy:2:1",
    "share:0:1:2", "share:1:1:1", "share:0:0:1", "share:0:2:1", "share:0:1:1000000",
    "share:0:1:1000001", "share:0:1", "lookup:0", "index:0", "index:3", "index:4", "index:00",
    "index:0:0", "index", "index:", "pred:1", "pred:2", "pred:281474976710655",
    "pred:281474976710656", "PRED:1", "succ:0", "succ:1", "succ:-1", "moment:0:3", "moment:1:8",
    "moment:0:2", "moment:0:9", "moment:2:3", "moment:0:03", "moment:0", "moment:0:3:3", "moment",
    "99999999999999999999999999",
)  # fmt: skip

# Those that fit each depth.
QUERIES = (
    "sub:0:1", "f2:0", "f2:1", "inner", "heavy:0:4", "heavy:1:1", "share:0:1:2", "range:0:0:1"
)
LOOKUPS = ("index:0", "index:1", "pred:0", "pred:1", "succ:0", "succ:1")
MOMENTS = ("moment:0:3", "moment:0:8", "moment:1:3", "moment:1:5")

# Bytes that are not UTF-8.
NO_TEXT = (b"\xff", b"a\xc0\xafb", b"\xed\xa0\x80")

UPDATES = [(0, 0, 3), (0, 2, 5), (0, 3, 1)]

# The replies to `sub:1:2` about this stream at depth 2, which are the same at all challenges.
SUB = bytes.fromhex(
    "13000e0001000000020000000000000005 140011030000000000000003 0000000000000001 140001 00"
)

# The transcript of a run that asks it, at the challenges 2 and 10.
RECORD = b"SIPT" + bytes([1, 2, 1]) + spelling(("Query", Question("sub", 0, 1, 2)), 1)
RECORD += (2).to_bytes(8, "big") + (10).to_bytes(8, "big") + SUB

FILES = {
    "stream": b"".join(record(update, "binary") for update in UPDATES),
    "lines": b"".join(record(update, "text") for update in UPDATES),
    "records": b"".join(record(update, "wide") for update in UPDATES),
    "seed": bytes(32),
    "short": bytes(31),
    "record": RECORD,
    "broken": RECORD[:75],
    "deep": RECORD[:5] + b"\x21" + RECORD[6:],
}


def spelled(*messages):
    return b"".join(spelling(message, 1) for message in messages)


# What each verifier hears that asks one thing of that stream, and what each helper does.
MOMENT = Question("moment", 0, degree=3)
FOUND = spelled(("Found", 1, 2)) + SUB
POWERS = spelled(
    *sum(honest.replies(MOMENT, vectors(UPDATES), 2, challenges(FILES["seed"], 2, 1)[0]), [])
)
REPLIES = {b"lookup": FOUND, b"moments": POWERS}

HEARD = spelled(("Open", 1, 2), ("Updates", UPDATES), ("EndStream",))
QUERY = spelled(("Query", Question("sub", 0, 1, 2)), ("Reveal", 2))
TALKS = {
    b"help": HEARD + QUERY + spelled(("Bye",)),
    b"helplook": HEARD + spelled(("AskLook", 3, 1)) + QUERY + spelled(("End",)),
    b"helpmom": HEARD + spelled(("AskMoment", 0, 3), ("Reveal", 2), ("End",)),
}


def case(chance):
    words = for_a_text(chance) if chance.one_in(50) else whole(chance)
    for _ in range(chance.choice((0, 0, 0, 1, 1, 1, 2))):
        words = changed(chance, words)
    words = [word.encode() for word in short_and_apart(words)]
    if chance.one_in(8):
        words.insert(0, b"--progress")
    if words and chance.one_in(200):
        words[chance.randrange(len(words))] = chance.choice(NO_TEXT)
    verb = (behind_progress(words) or [b""])[0]
    replies = REPLIES.get(verb, SUB)
    replies = chance.choice((replies, b"", replies[:20]))
    return Case(words, FILES, TALKS.get(verb, replies))


def short_and_apart(words):
    """The same words, where they don't make a long stream, and make no file that they read later."""
    try:
        _, said = read_words(words)
    except Usage:
        return words
    stream = said.get("stream")
    if max(said.get("count", 0), stream.count if stream else 0) > 1000:
        return ["lines", "made:7:1000", "20"]
    read = {said.get("seed"), said.get("from"), stream.path if stream else None}
    read -= {*FILES, FROM}
    if "to" in said and said["to"] in read:
        at = 2 if words[0].encode() in TALKS else 4
        return [*words[:at], "apart", *words[at + 1 :]]
    if said.get("record", "-") != "-" and said["record"] in read:
        at = 5 if words[0] == "verify" else 4
        return [*words[:at], "kept", *words[at + 1 :]]
    return words


def for_a_text(chance):
    """Words that ask for help or the version, or nearly."""
    text = chance.choice(("--help", "-h", "--version", "-V"))
    return [text] if chance.one_in(3) else [chance.choice(tuple(COMMANDS)), text]


def whole(chance):
    """The words of a command."""
    verb = chance.choice(
        (
            "verify", "verify", "play", "play", "help", "lookup", "helplook", "moments", "helpmom",
            "audit", "show", "convert", "gen", "lines", "widen",
        )
    )
    stream = chance.choice(("stream", "text:lines", "wide:records", "made:7:3", "none"))
    seed = chance.choice(("seed", "seed", "seed", "short", "none"))
    transcript = chance.choice(("record", "record", "broken", "deep", "stream", "none"))
    depth = chance.choice(("2", "2", "2", "1", "20", "32", "33", "48"))
    kept = chance.choice(("-", "-", "-", "-", "-", "-", "kept", "kept", seed, TO))
    first, others = {"lookup": ("succ:1", LOOKUPS), "moments": ("moment:0:3", MOMENTS)}.get(
        verb, ("sub:1:2", QUERIES)
    )
    queries = [first] if depth != "1" else []
    queries += [chance.choice(others) for _ in range(chance.choice((0, 0, 1, 2, 15, 16)))]
    asked = [verb, stream, seed, FROM, TO, depth, *queries]
    return {
        "verify": [verb, stream, seed, FROM, TO, kept, depth, *queries],
        "play": [
            verb, stream, seed, chance.choice(("honest", "skewed", "mute")), kept, depth, *queries
        ],
        "help": [verb, FROM, TO],
        "lookup": asked,
        "helplook": [verb, FROM, TO],
        "moments": asked,
        "helpmom": [verb, FROM, TO],
        "audit": [verb, stream, transcript],
        "show": [verb, transcript],
        "convert": [verb, transcript],
        "gen": [
            verb, str(chance.choice((0, 7, 2**64 - 1))), chance.choice(("0", "1", "30")), depth
        ],
        "lines": [verb, stream, depth],
        "widen": [verb, stream, depth],
    }[verb]


def changed(chance, words, pool=WORDS):
    """The words with one of them another one, or at another place."""
    words = list(words)
    at = chance.randrange(len(words) + 1)
    way = chance.choice(("front", "drop", "double", "swap", "other", "other", "insert", "letters"))
    if way == "insert" or at == len(words) or not words:
        words.insert(at, chance.choice(pool))
    elif way == "front":
        del words[at:]
    elif way == "drop":
        del words[at]
    elif way == "double":
        words.insert(at, words[at])
    elif way == "swap":
        other = chance.randrange(len(words))
        words[at], words[other] = words[other], words[at]
    elif way == "other":
        words[at] = chance.choice(pool)
    else:
        words[at] = letters_changed(chance, words[at])
    return words


def letters_changed(chance, word):
    at = chance.randrange(len(word) + 1)
    letter = chance.choice("0123456789:-+ aeotx\n٣é")
    return chance.choice(
        (
            word[:at] + letter + word[at:],
            word[:at] + word[at + 1 :],
            word[:at] + letter + word[at + 1 :],
            word.upper(),
        )
    )
