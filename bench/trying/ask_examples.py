"""Worked runs of `ask` over sketches that `begin`, `watch` and `merge` made, and over stores. The
seed is 32 zero bytes, and V the stream 0 0 3, 0 2 5, 0 3 1."""

from oracle import asks, stores
from oracle.frames import spelling
from oracle.sketches import read
from oracle.streams import vectors
from oracle.words import ASKS, Usage, any_question, read_words

from .examples import same
from .sketch_examples import BYTES, USED_DIGEST
from .sketch_run_examples import BEGIN, GROWN, V, Folder, binary, may_be_made
from .store_examples import HELD, OPEN, RECALL

# The first frames of a talk over the sketch of V, and what else is said in one question.
QUERY = bytes.fromhex("040009 01 00000001 00000002")
REVEAL = bytes.fromhex("050008 1207be3415bc170e")
BYE = b"\x06\0\0"
HELD_BY = {
    3: "3 9 0 b8261ae7db4fab00",
    4: "4 11 0 da3a76c0ed546482",
}


def hold():
    check_one()
    check_growing()
    check_kinds()
    check_parts()
    check_seats()
    check_ends()
    for words, number in USAGES:
        try:
            read_words(words.split(" "), ASKS)
        except Usage as usage:
            same(words, usage.word, number)
        else:
            same(words, None, number)


def kept(log=V, seats="entries:1 sums:0:1", **files):
    """A folder with a sketch of a log, which is its store too."""
    it = Folder(log=binary(log), store=binary(log), **files)
    it.run(f"begin k s 2 1/1 {seats}")
    it.run("watch k log + -")
    return it


def ask(it, words, line="", report="", replies=None, busy=()):
    """An ask of the store's helper, or of one that has said these bytes. It has to say this line
    and to write this report."""
    words = words.encode().split(b" ")
    answers = honest if replies is None else lambda it, words: replies
    it.files["a"] = answers(it, words)
    outcome = asks.run(words, it.files, may_be_made, busy)
    same(b" ".join(words), (outcome.said, outcome.report.decode()), (line, report))
    it.files, it.stored = outcome.left, outcome.stored
    return outcome


def honest(it, words):
    """What a helper with the store replies, whatever comes of it: what is sent depends on it, so
    they take turns."""
    heard, replied = None, b""
    while True:
        files = {**it.files, "a": replied}
        sent = asks.run(words, files, may_be_made).to or b""
        if sent == heard:
            return replied
        heard = sent
        talk = stores.run(b"serve store f t".split(), {"store": it.files["store"], "f": heard})
        replied = talk.to or b""


def check_one():
    it = kept()
    outcome = ask(it, "ask k a b sub:1:2", report="sub:1:2 2:5\n")
    same("what is sent", outcome.to, OPEN + RECALL + QUERY + REVEAL + BYE)
    same("what is stored", [one.bytes() for one in it.stored], [it.files["k"]])
    same("the used flag", it.files["k"][:120], BYTES[:53] + b"\1" + BYTES[54:120])
    same("the digest", it.files["k"][120:].hex(), USED_DIGEST)
    before = it.files["k"]
    outcome = ask(it, "ask k a b sub:0:0", "sip: no seat for query 1")
    same("what is sent then", (outcome.to, it.files["k"]), (None, before))


def check_growing():
    it = kept(more=binary(GROWN[3:]))
    ask(it, "ask k a b sub:1:2", report="sub:1:2 2:5\n")
    it.run("watch k more + -")
    before = it.files["k"]
    line = f"sip: helper holds {HELD_BY[3]}, sketch {HELD_BY[4]}"
    ask(it, "ask k a b f2:0", line)
    same("a sketch that is out of step", it.files["k"], before)
    it.files["store"] = binary(GROWN)
    ask(it, "ask k a b f2:0", report="f2:0 39\n")
    # A store of more records than the sketch.
    it = kept()
    it.files["store"] = binary(GROWN)
    outcome = ask(it, "ask k a b sub:1:2", report="sub:1:2 2:5\n")
    same("how many are asked for", outcome.to[5:16], RECALL)


def check_kinds():
    """One ask of eight kinds, and the answers as sums over (3, 0, 5, 1)."""
    it = kept(seats="entries:4 sums:0:3 heavy:0:1 products:1")
    words = "sub:1:2 succ:1 moment:0:3 f2:0 index:1 heavy:0:4 pred:1 range:0:1:3"
    lines = "sub:1:2 2:5|succ:1 2:5|moment:0:3 153|f2:0 35|index:1 0|heavy:0:4 2:5|pred:1 0:3|"
    lines += "range:0:1:3 6|"
    ask(it, f"ask k a b {words}", report=lines.replace("|", "\n"))
    same("the used seats", [seat.used for seat in it.sketch().seats], [True] * 8 + [False])
    # The other order, at other seats: what is kept of products is of both sides.
    it = kept([*V, (1, 2, 7), (1, 0, -4)], "products:1 sums:1:2")
    ask(it, "ask k a b inner range:1:0:0", report="inner 23\nrange:1:0:0 -4\n")


def check_parts():
    it = Folder(a=binary(V[:2]), c=binary(V[2:]), store=binary(V))
    for number, (part, log) in enumerate((("one", "a"), ("two", "c")), 1):
        it.run(f"begin {part} s 2 {number}/2 entries:1")
        it.run(f"watch {part} {log} 0 -")
        ask(it, f"ask {part} a b sub:1:2", "sip: sketch is not whole")
    it.files["a"], first = binary(V[:2]), it.files["one"]
    it.run("merge all one two")
    ask(it, "ask all a b sub:1:2", report="sub:1:2 2:5\n")
    same("a part", it.files["one"], first)
    it.run("merge all one two")
    same("a seat of a sum made again", it.sketch("all").seats[0].used, True)


def check_seats():
    signed = [(0, 2, 5), (0, 2, -1)]
    it = kept(signed, "entries:2 heavy:0:1")
    outcome = ask(it, "ask k a b heavy:0:4", "sip: query 1 on a side with negatives")
    same("what is said of a signed side", outcome.to, None)
    ask(it, "ask k a b share:0:1:2", "sip: query 1 on a side with negatives")
    ask(it, "ask k a b sub:0:3", report="sub:0:3 2:4\n")
    same("the seats", [seat.used for seat in it.sketch().seats], [True, False, False])
    # Large entries of any side are judged by its weight, which is 6 here.
    it = kept(signed, "above:0:2 above:1:1")
    ask(it, "ask k a b above:0:4 above:0:5", report="above:0:4 2:4\nabove:0:5 none\n")
    same("the seats of weights", [seat.used for seat in it.sketch().seats], [True, True, False])
    ask(it, "ask k a b above:0:7 above:1:1", report="above:0:7 none\nabove:1:1 none\n")
    ask(it, "ask k a b above:0:1", "sip: no seat for query 1")
    # Entries larger than all of a side take no seat, and nothing is asked then.
    it = kept()
    lines = "heavy:0:10 none\nshare:1:1:1 none\n"
    outcome = ask(it, "ask k a b heavy:0:10 share:1:1:1", report=lines)
    same("a talk without a question", len(outcome.turns), 1)
    same("the seats of none", [seat.used for seat in it.sketch().seats], [False, False])
    ask(it, "ask k a b heavy:0:9", "sip: no seat for query 1")
    ask(it, "ask k a b sub:1:4", "sip: query 1 does not fit")
    ask(it, "ask k a b inner index:4", "sip: query 2 does not fit")
    ask(it, "ask k a b f2:0 sub:0:0 moment:0:3", "sip: no seat for query 3")
    ask(kept([(0, 0, 2**20)]), "ask k a b moment:0:3", "sip: query 1 too high")
    wide = kept([(0, 0, 2**20)], "heavy:0:1")
    ask(wide, "ask k a b heavy:0:15", "sip: query 1 too wide")


def check_ends():
    it = kept(seats="entries:2")
    lies = HELD + spelling(("Siblings", 1, 1), 1) + spelling(("Siblings", None, None), 1)
    outcome = ask(it, "ask k a b sub:1:2 sub:0:0", "", "rejected query 1 round 2 Root\n", lies)
    same("what a lie comes to", outcome.to, OPEN + RECALL + QUERY + REVEAL)
    same("the seats of a lie", [seat.used for seat in it.sketch().seats], [True, False])
    for replies, line in (
        (b"", "sip: peer closed"),
        (HELD[:-1], "sip: peer closed"),
        (b"\x26\0\x21", "sip: bad frame at offset 0"),
        (b"\x18\0\1\1", "sip: bad frame at offset 0"),
    ):
        it = kept()
        ask(it, "ask k a b sub:1:2", line, replies=replies)
        same("a seat before what is held", it.sketch().seats[0].used, False)
    it = kept()
    ask(it, "ask k a b sub:1:2", "", "rejected query 1 round 0 Closed\n", HELD)
    same("a seat behind it", it.sketch().seats[0].used, True)
    it = kept()
    for to in ("k", "k.lock", "k.new", "d/t"):
        ask(it, f"ask k a {to} sub:1:2", "sip: peer fault")
        same("a sketch that is TO", it.sketch().seats[0].used, False)
    ask(it, "ask k none b sub:1:2", "sip: peer fault")
    ask(it, "ask k a b sub:1:2", "sip: sketch is busy", busy=("k",))
    ask(it, "ask none a b sub:1:2", "sip: bad sketch at offset 0")
    ask(it, "ask d/k a b sub:1:2", "sip: read fault on sketch")
    it.files["dir"] = it.files["k"]
    ask(it, "ask dir a b sub:1:2", "sip: write fault on sketch", replies=HELD)
    through = asks.run(b"ask k - b sub:1:2".split(), it.files, given=HELD)
    same("standard input", through.report, b"rejected query 1 round 0 Closed\n")


# Words that are no command, and the number of the first that begins none.
USAGES = [
    ("ask", 1),
    ("ask k a b", 4),
    ("ask  a b sub:1:2", 1),
    ("ask k a b sub:1:2 above:0:0", 5),
    ("ask k a b sub:2:1", 4),
    ("ask k a b sub:0:281474976710656", 4),
    ("ask k a b moment:0:2", 4),
    ("ask k a b" + 16 * " f2:0" + " f2:0", 20),
]
