"""Runs of the commands of sketches, over the files that their words name: how each ends, what it
writes, what it stores meanwhile, and what all files have behind it.

SKETCH is a file that is replaced whole. A run that replaces it has the lock of the file beside it,
NAME.lock, and makes the new one as NAME.new."""

from typing import NamedTuple

from . import runs
from .sketches import Bad, begun, listing, read, spelled, watched
from .streams import record, records
from .sums import summed, unlike
from .words import SKETCHES

SEED = 32


class Ends(Exception):
    """How a run ends that isn't done: its status, the line on standard error, and more of why."""

    def __init__(self, status, said, reason=""):
        super().__init__(status, said, reason)
        self.why = status, said, reason


class Stored(NamedTuple):
    """What a replacement stores, once so many bytes of STREAM came: a sketch and updates behind."""

    taken: int
    sketch: tuple
    updates: list

    def bytes(self):
        return spelled(watched(self.sketch, self.updates))


def run(words, files, may_be_made=lambda name: True, busy=()):
    """The run of these words, which are bytes, where these files stand. Another process has the
    locks of the names in `busy`."""
    said, refused = runs.read_or_refused(words, SKETCHES)
    if refused:
        return refused._replace(left=files)
    if runs.asks_for_text(words, SKETCHES) and said["sketch"] not in files:
        return runs.Outcome("Page", "", b"", None, left=files)
    desk = Desk(said["sketch"], files, may_be_made, busy)
    verb = words[0].decode()
    try:
        report = {"begin": begin, "watch": watch, "merge": merge, "seats": seats}[verb](desk, said)
        ended = runs.Outcome("Wrote", "", report or b"", None)
    except Ends as ends:
        status, line, reason = ends.why
        ended = runs.Outcome(status, line, b"", None, reason)
    return ended._replace(left=desk.files, stored=tuple(desk.stored))


class Desk:
    """The files of a run, of which one is replaced."""

    def __init__(self, name, files, may_be_made, busy):
        self.name, self.files, self.stored = name, dict(files), []
        self.may_be_made, self.busy = may_be_made, busy

    def file(self, name, port):
        """The bytes of a file, or None where it is missing."""
        if name in self.files:
            return self.files[name]
        if self.may_be_made(name) or "/" in name:
            return None
        raise Ends("ReadFault", f"sip: read fault on {port}")

    def load(self):
        """The bytes of the sketch, whose lock the run has from here on, or None where it is
        missing."""
        lock = self.name + ".lock"
        if self.name in self.busy:
            raise Ends("Busy", "sip: sketch is busy")
        if not self.may_be_made(lock):
            raise Ends("ReadFault", "sip: read fault on sketch")
        self.files.setdefault(lock, b"")
        return self.file(self.name, "sketch")

    def replace(self, stored):
        """Stores a sketch, which is spelled where someone asks for it."""
        if not self.may_be_made(self.name + ".new"):
            raise Ends("WriteFault", "sip: write fault on sketch")
        self.files.pop(self.name + ".new", None)
        self.stored.append(stored)

    def keep(self, stored):
        """Stores a sketch, the last one of the run."""
        self.replace(stored)
        self.files[self.name] = stored.bytes()


def sketch_of(data, where):
    """The sketch that bytes are, of which a missing file has none."""
    try:
        return read(data or b"")
    except Bad as bad:
        raise Ends("BadSketch", f"sip: bad {where} at offset {bad.at}") from None


def begin(desk, said):
    """A sketch that is there, whatever it has, is not begun anew."""
    if desk.load() is not None:
        raise Ends("Exists", "sip: sketch exists")
    seed = desk.files.get(said["seed"])
    if seed is None:
        raise Ends("ReadFault", "sip: read fault on second")
    if len(seed) < SEED:
        raise Ends("BadSeed", "sip: seed too short")
    kinds = [kind for word in said["seats"] for kind in word]
    desk.keep(Stored(0, begun(seed[:SEED], said["depth"], *said["part"], kinds), []))


def watch(desk, said):
    """Adds the records of a stream that are not in the sketch."""
    sketch = sketch_of(desk.load(), "sketch")
    at = sketch.records if said["at"] == "+" else said["at"]
    if sketch.first_part != sketch.last_part:
        raise Ends("BadStart", "sip: bad start, sketch is a sum")
    if at > sketch.records:
        raise Ends("BadStart", f"sip: bad start, sketch has {sketch.records} records")
    stream, known = said["stored"], sketch.records - at
    data = desk.files.get(stream.path)
    if data is None:
        desk.keep(Stored(0, sketch, []))
        raise Ends("ReadFault", "sip: read fault on first")
    updates, fault = records(data, sketch.depth, stream.form, known, sketch.weights)
    if not fault and len(updates) < known:
        raise Ends("Behind", f"sip: stream ends at record {at + len(updates)}")
    add(desk, sketch, updates, known, stream.form, said["every"])
    if fault:
        number, why = fault
        raise Ends("BadStream", runs.bad_stream((at + number, why)), why)


def add(desk, sketch, updates, known, form, every):
    """Stores the sketch behind the updates that it doesn't know: so often as it is said, and at the
    end."""
    size, added = sum(len(record(update, form)) for update in updates[:known]), updates[known:]
    for number, update in enumerate(added, 1):
        size += len(record(update, form))
        if every != "-" and number % every == 0:
            desk.replace(Stored(size, sketch, added[:number]))
    desk.keep(Stored(size, sketch, added))


def merge(desk, said):
    """Each part is loaded, read and judged before the next one is looked at."""
    data = desk.load()
    kept = None if data is None else sketch_of(data, "sketch")
    parts, names = [], said["parts"]
    for number, name in enumerate(names, 1):
        parts.append(sketch_of(desk.file(name, f"part {number}"), f"part {number}"))
        why = unlike(kept, parts, number == len(names))
        if why:
            raise Ends("Unlike", f"sip: part {number}: {why}", why)
    desk.keep(Stored(0, summed(kept, parts), []))


def seats(desk, _):
    """A look, without a lock."""
    return listing(sketch_of(desk.file(desk.name, "sketch"), "sketch"))
