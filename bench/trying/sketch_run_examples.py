"""Worked runs of the commands of sketches: what they come to, and the files behind them. The seed
is 32 zero bytes, and V the stream 0 0 3, 0 2 5, 0 3 1."""

from oracle import sketch_runs
from oracle.field import WEIGHT
from oracle.sketches import read, spelled
from oracle.streams import record

from .examples import same
from .sketch_examples import BYTES, EMPTY_DIGEST, LISTING, USED_DIGEST

V = [(0, 0, 3), (0, 2, 5), (0, 3, 1)]
GROWN = [*V, (0, 1, 2)]
BEGIN = "begin k s 2 1/1 entries:1 sums:0:1"


def binary(updates):
    return b"".join(record(update, "binary") for update in updates)


class Folder:
    """Files, and the runs over them, one behind another."""

    def __init__(self, **files):
        self.files = {"s": bytes(32), "V": binary(V), **files}
        self.stored = []

    def run(self, words, said="", busy=()):
        """A run that has to say this line, or to write this report."""
        outcome = sketch_runs.run(words.encode().split(b" "), self.files, may_be_made, busy)
        same(words, outcome.said or outcome.report.decode(), said)
        self.files, self.stored = outcome.left, outcome.stored

    def sketch(self, name="k"):
        return read(self.files[name])

    def uses_a_seat(self, name):
        """Sets the used flag of the first seat, as an ask does, and the digest."""
        sketch = self.sketch(name)
        first, *others = sketch.seats
        self.files[name] = spelled(
            sketch._replace(seats=(first._replace(used=True), *others))
        )


def may_be_made(name):
    return "/" not in name and name != "dir.new"


def hold():
    check_growing()
    check_merging()
    check_spoiled()
    check_logs()
    check_ends()
    for words, number in USAGES:
        Folder().run(words, f"sip: usage at word {number}")


def check_growing():
    it = Folder(more=binary(GROWN[3:]))
    it.run(BEGIN)
    same("the digest behind begin", it.files["k"][-32:].hex(), EMPTY_DIGEST)
    it.run("watch k V + -")
    same("the file behind watch", it.files["k"].hex(), BYTES.hex())
    it.uses_a_seat("k")
    same("the digest of a used seat", it.files["k"][-32:].hex(), USED_DIGEST)
    it.run("seats k", LISTING)
    root = it.sketch().seats[0]
    it.run("watch k more + -")
    sketch = it.sketch()
    same("four records", (sketch.records, sketch.weights), (4, (11, 0)))
    same("the point of four", sketch.seats[1].first, 0x094599DDCC3C66CD)
    same("the root of a used seat", sketch.seats[0], root)


def check_merging():
    it = Folder(a=binary(V[:2]), b=binary(V[2:]), c=binary([(0, 1, -2)]))
    for part, log in (("one", "a"), ("two", "b")):
        number = 1 if part == "one" else 2
        it.run(f"begin {part} s 2 {number}/2 entries:1")
        it.run(f"watch {part} {log} 0 -")
    same("part 1", it.sketch("one").fingerprint, 0x9B1B0603004E1B13)
    same("part 2", it.sketch("two").fingerprint, 0x1D0B14E4DB018FED)
    it.run("merge all one two")
    for words, why in (
        ("all one one", "2: NotNext"),
        ("all two one", "2: NotNext"),
        ("all one", "1: Missing"),
        ("all two", "1: Missing"),
        ("other all", "1: Whole"),
        ("other one all", "2: Whole"),
        ("two one two", ""),
    ):
        it.run(f"merge {words}", f"sip: part {why}" if why else "")
    # SKETCH is a sum then, and one of the parts.
    same("a sum over a part", it.files["two"], it.files["all"])
    it.run("watch all V + -", "sip: bad start, sketch is a sum")
    it.run("watch all V 9 -", "sip: bad start, sketch is a sum")
    it.uses_a_seat("all")
    it.run("begin two s 2 2/2 entries:1", "sip: sketch exists")
    del it.files["two"]
    it.run("begin two s 2 2/2 entries:1")
    it.run("merge all one two", "sip: part 2: Fewer")
    it.run("watch two c + -")
    it.run("merge all one two")
    seat = it.sketch("all").seats[0]
    same("a used seat of a sum", (seat.used, it.sketch("all").negatives), (True, 1))
    it.uses_a_seat("one")
    it.run("merge more one two", "sip: part 1: UsedSeat")
    it.run("merge more two one", "sip: part 2: UsedSeat")
    it.run("begin deep s 3 2/2 entries:1")
    it.run("begin three s 2 2/3 entries:1")
    for other in ("deep", "three"):
        it.run(f"merge more two {other}", "sip: part 2: Shape")
    it.run("merge more two V", "sip: bad part 2 at offset 0")
    it.run("merge more two none", "sip: bad part 2 at offset 0")
    it.run("merge V two", "sip: bad sketch at offset 0")
    check_weights()


def check_weights():
    for delta, said in ((2**29 - 1, ""), (-(2**29), "sip: part 2: Heavy(0)")):
        it = Folder(a=binary([(0, 0, 2**29)]), b=binary([(0, 1, delta)]))
        for part, log in (("one", "a"), ("two", "b")):
            number = 1 if part == "one" else 2
            it.run(f"begin {part} s 2 {number}/2 heavy:0:1 heavy:1:1")
            it.run(f"watch {part} {log} 0 1")
        it.run("merge all one two", said)
        if not said:
            sketch = it.sketch("all")
            same("the greatest weight", sketch.weights, (WEIGHT, 0))
            same("totals", [seat.second for seat in sketch.seats], [2 * WEIGHT, WEIGHT])


def check_spoiled():
    """A file that is no sketch is told by its first bad byte, and stays as it is."""
    kept = Folder(k=BYTES)
    kept.uses_a_seat("k")
    cleared = kept.files["k"][:53] + b"\0" + kept.files["k"][54:]
    for data, at in ((b"SIP", 3), (b"", 0), (BYTES + b"\0", 152), (cleared, 120)):
        it = Folder(k=data)
        for words in ("seats k", "watch k V + -", "merge k V"):
            it.run(words, f"sip: bad sketch at offset {at}")
            same(f"the file behind {words}", it.files["k"], data)
        it.run("begin k s 2 1/1 entries:1", "sip: sketch exists")
    for words in ("seats none", "watch none V + -"):
        Folder().run(words, "sip: bad sketch at offset 0")


def check_logs():
    cut = binary(V)[:-11]
    it = Folder(M=binary(V[:2]), cut=cut, T=b"0 0 3\n0 2 5\n0 3 1\n", other=binary([(1, 0, 1)]))
    it.run(BEGIN)
    it.run("watch k V 0 1")
    same("what is stored", [one.taken for one in it.stored], [13, 26, 39, 39])
    same("the last that is stored", it.stored[-1].bytes(), it.files["k"])
    whole = it.files["k"]
    it.run("watch k V 0 1")
    same("a log that is watched again", it.files["k"], whole)
    it.run("watch k text:T 0 1")
    same("the same log as lines", it.files["k"], whole)
    it.run("watch k V 4 -", "sip: bad start, sketch has 3 records")
    it.run("watch k M 0 -", "sip: stream ends at record 2")
    it.run("watch k M 1 -")
    it.run("watch k s 1 -", "sip: bad stream at record 1: ZeroDelta")
    it.run("watch k none 1 -", "sip: read fault on first")
    same("a sketch that has all", it.files["k"], whole)
    it.run("watch k other 3 -")
    same("a log that was rotated", it.sketch().weights, (9, 1))
    del it.files["k"]
    it.run(BEGIN)
    it.run("watch k cut 0 -", "sip: bad stream at record 2: Truncated")
    same("a log with a half record", it.sketch().records, 2)
    it.run("watch k V 0 -")
    same("the log, grown", it.files["k"], whole)
    # Weights hold over the whole life, and of what is known over the stream's own records.
    it.files["great"] = binary([(0, 0, WEIGHT - 9), (0, 0, 1)])
    it.run("watch k great + 1", "sip: bad stream at record 4: TooHeavy(0)")
    same("a sketch of the greatest weight", it.sketch().weights, (WEIGHT, 0))
    it.files["known"] = binary([(0, 0, WEIGHT), (0, 0, 1), (1, 0, 1)])
    it.run("watch k known 2 1", "sip: bad stream at record 3: TooHeavy(0)")
    it.files["known"] = binary([(0, 0, WEIGHT), (1, 1, 1), (1, 0, 1)])
    it.run("watch k known 2 1")
    same("a record behind known ones", (it.sketch().records, it.sketch().weights), (5, (WEIGHT, 1)))


def check_ends():
    it = Folder(short=bytes(31), k=BYTES)
    for words in ("begin k s 2 1/1 entries:1", "watch k V + -", "merge k k"):
        it.run(words, "sip: sketch is busy", busy=("k",))
    it.run("seats d/k", "sip: bad sketch at offset 0")
    for words in ("begin d/k s 2 1/1 entries:1", "watch d/k V + -", "merge d/k k"):
        it.run(words, "sip: read fault on sketch")
    it.run("begin n short 2 1/1 entries:1", "sip: seed too short")
    it.run("begin n none 2 1/1 entries:1", "sip: read fault on second")
    it.run("begin dir s 2 1/1 entries:1", "sip: write fault on sketch")
    same("the files", sorted(it.files), sorted(["V", "dir.lock", "k", "n.lock", "s", "short"]))


# Words that are no command, and the number of the first that begins none.
USAGES = [
    ("begin", 1),
    ("begin k s 2 1/1", 5),
    ("begin k s 49 1/1 entries:1", 3),
    ("begin k s 2 2/1 entries:1", 4),
    ("begin k s 2 0/1 entries:1", 4),
    ("begin k s 2 1 entries:1", 4),
    ("begin k s 2 1/4294967296 entries:1", 4),
    ("begin k s 2 1/1 entries:0", 5),
    ("begin k s 2 1/1 entries:65", 5),
    ("begin k s 2 1/1 entries:64 heavy:0:1", 6),
    ("begin k s 2 1/1" + 64 * " products:1" + " sums:1:1", 69),
    ("begin k s 2 1/1 sums:1", 5),
    ("begin k s 2 1/1 sums:2:1", 5),
    ("begin k s 2 1/1 entries:0:1", 5),
    ("watch k made:7:3 + -", 2),
    ("watch k text: + -", 2),
    ("watch k V - -", 3),
    ("watch k V 2147483649 -", 3),
    ("watch k V 2147483648 0", 4),
    ("watch k V 0 2147483649", 4),
    ("watch k V 0", 4),
    ("watch k V 0 + -", 4),
    ("watch k V 0 1 1", 5),
    ("merge k", 2),
    ("merge k " + "p " * 1023 + "p p", 1026),
    ("merge  p", 1),
    ("seats", 1),
    ("seats k k", 2),
    ("sums k", 0),
]
