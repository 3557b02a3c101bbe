"""Cases of a sketch: how it begins, how it grows by a stream in a file, and how it is shown. The
file is often spoiled, and the stream another than the one that the sketch has a front of."""

from oracle import whole
from oracle.sketches import KINDS, spelled
from oracle.streams import illegal, record
from oracle.words import SKETCHES

from . import changes, spoiled
from .case import Case
from .commands import changed
from .copies import illegal_somewhere, line_changed
from .program import FROM
from .replies import word_of
from .tame import tame

# Words that are one of these commands' own, or nearly.
WORDS = (
    "begin", "watch", "merge", "seats", "ask", "", "-", "+", "++", "0", "1", "2", "3", "00", "01",
    "+1", "-1", "48", "49", "2147483648", "2147483649", "99999999999999999999999", "1/1", "1/2",
    "2/2", "0/1", "1/0", "2/1", "01/1", "1/01", "1/", "/1", "1/1/1", "1", "-1/1", "1/4294967295",
    "4294967295/4294967295", "1/4294967296", "entries:1", "entries:0", "entries:64", "entries:65",
    "entries:01", "entries:", "entries", "entries:0:1", "ENTRIES:1", "sums:0:1", "sums:1:1",
    "sums:2:1", "sums:1", "sums:0:63", "sums:0:64", "products:1", "products:0:1", "products:2",
    "heavy:0:1", "heavy:1:1", "heavy:1", "heavy:2:1", "heavy:0:0", "above:0:1", "above:1:1", "above:1",
    "above:2:1", "above:0:0", "sketch", "seed", "short",
    "none", "none/k", "stream", "text:stream", "wide:stream", "text:", "wide:", "made:7:3",
    "made:", "text:none", "٣",
)  # fmt: skip


def run(case, files, may_be_made, verbs):
    """What a case comes to, of a program with these commands."""
    return whole.run(case.words, files, may_be_made, case.busy, case.given, verbs)


def case(chance):
    """Words of `begin`, `watch` or `seats`, and their files."""
    depth = chance.depth()
    make = chance.choices((begin, watch, seats), (20, 65, 15))[0]
    return beside(chance, make(chance, depth))


def beside(chance, it, pool=WORDS, verbs=tuple(SKETCHES)):
    """The same, at times with other words, a lock that is taken, or a name that no file can
    have."""
    name = it.words[1].decode()
    if chance.one_in(40):
        it = it._replace(busy=(name,))
        it.files[name + ".lock"] = b""
    elif chance.one_in(40):
        it = it._replace(folders=(name + ".new",))
    elif chance.one_in(40) and name not in it.files:
        it = it._replace(folders=(name,))
    elif chance.one_in(40):
        it.files[name + ".lock"] = b"locked"
    if chance.one_in(40) and not it.folders:
        it.files[name + ".new"] = b"left behind"
    if chance.one_in(8):
        it = it._replace(words=words_changed(chance, it, pool, verbs))
    return it


def words_changed(chance, it, pool, verbs=tuple(SKETCHES)):
    """Other words for a case, of which it is sure what they do."""
    words = [word.decode() for word in it.words]
    for _ in range(chance.choice((1, 1, 2))):
        words = changed(chance, words, pool)
    if chance.one_in(30):
        words = [chance.choice(verbs), chance.choice(("--help", "-h"))]
    there = {*it.files, *(() if it.data is None else (FROM,))}
    return [word.encode() for word in tame(words, there)]


def begin(chance, depth):
    parts = chance.choice((1, 1, 2, 7, 2**32 - 1))
    part = chance.choice((1, parts, chance.randint(1, parts)))
    seed = chance.seed_bytes() + chance.randbytes(chance.choice((0, 0, 1, 32)))
    files = {"seed": seed[: chance.randrange(33)] if chance.one_in(12) else seed}
    if chance.one_in(30):
        del files["seed"]
    if chance.one_in(5):
        it = spoiled.sketch(chance, depth, [])
        files["sketch"] = chance.choice((b"", spelled(it), spoiled.spoiled(chance, it)))
    seats_ = many_seats(chance) if chance.one_in(10) else spoiled.words_of(spoiled.kinds(chance))
    words = ["begin", "sketch", "seed", str(depth), f"{part}/{parts}", *seats_]
    return Case([word.encode() for word in words], files)


def many_seats(chance):
    """Words of about as many seats as there may be, in one word or several."""
    kinds = tuple(KINDS.values())
    first = chance.choice((1, 31, 32, 63, 64, chance.randint(1, 64)))
    counts = [first, *((64 - first + chance.choice((0, 0, 1)),) if first < 64 else ())]
    if chance.one_in(3):
        counts.insert(chance.randrange(len(counts) + 1), 1)
    return [f"{chance.choice(kinds)}:{count}" for count in counts]


def seats(chance, depth):
    parts = chance.choice((1, 1, 2, 5, 2**32 - 1))
    first = chance.randint(1, parts)
    it = spoiled.sketch(chance, depth, chance.legal(depth), first, parts)
    it = spoiled.used(chance, it._replace(last_part=chance.randint(first, parts)))
    return Case([b"seats", b"sketch"], {"sketch": bytes_of(chance, it)})


def bytes_of(chance, it):
    return spoiled.spoiled(chance, it) if chance.one_in(2) else spelled(it)


def watch(chance, depth):
    """A sketch of a front of a log, or of another stream, and the log."""
    log, form = chance.legal(depth), chance.form(depth)
    known = chance.choice((0, len(log), *(chance.randint(0, len(log)) for _ in range(3))))
    stream, at, before = log, "0", log[:known]
    ways = ("grown", "grown", "behind", "behind", "from", "short", "rotated", "above")
    way = chance.choice(ways)
    if way == "behind":
        stream, at = log[known:], chance.choice(("+", str(known)))
    elif way == "from":
        skipped = chance.randint(0, known)
        stream, at = log[skipped:], str(skipped)
    elif way == "short":
        skipped = chance.randint(0, known)
        stream, at = log[skipped : chance.randint(skipped, known)], str(skipped)
    elif way == "rotated":
        # Another stream, which may be shorter, and too heavy behind the first.
        stream = chance.legal(depth)
        at = chance.choice(("+", "0", str(chance.randint(0, known))))
    elif way == "above":
        at = str(known + chance.choice((1, 2, 2**31 - known)))
    it = spoiled.used(chance, spoiled.sketch(chance, depth, before), 4)
    if chance.one_in(15):
        it = it._replace(parts=3, last_part=chance.randint(1, 3))
    files = {"sketch": spelled(it), "stream": stream_bytes(chance, stream, depth, form)}
    if chance.one_in(5):
        files["sketch"] = spoiled.spoiled(chance, it)
    if chance.one_in(40):
        del files[chance.choice(("sketch", "stream"))]
    if chance.one_in(20):
        form = chance.choice(("binary", "text", "wide"))
    words = [b"watch", b"sketch", word_of(form), at.encode(), every(chance, len(stream))]
    return Case(words, files)


def stream_bytes(chance, updates, depth, form):
    """Those of a stream, mostly legal."""
    if chance.one_in(5):
        updates = illegal_somewhere(chance, updates, depth, form)
    elif chance.one_in(8):
        updates = filled(chance, updates, depth)
    data = b"".join(record(update, form) for update in updates)
    if chance.one_in(5):
        # Half a record at the end.
        return data[: -chance.randint(1, 20)]
    if form == "text" and chance.one_in(10):
        data = line_changed(chance, data)
    return changes.bytes_changed(chance, data) if chance.one_in(10) else data


def filled(chance, updates, depth):
    """The updates, and such that a side has its greatest weight, or 1 more."""
    weights = [0, 0]
    for update in updates:
        illegal(update, depth, weights)
    side = chance.randrange(2)
    short = 2**30 - 1 - weights[side] + chance.choice((0, 0, 1))
    more = [(side, chance.choice(chance.items(depth)), short)] if short else []
    return [*updates, *more, *((1 - side, 0, 1) for _ in range(chance.randrange(3)))]


def every(chance, size):
    near = str(max(size, 1)), str(size + 1)
    return chance.choice(("-", "1", "1", "2", "2", "3", "7", "512", *near)).encode()
