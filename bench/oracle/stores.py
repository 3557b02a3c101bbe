"""A helper that has the stream in a file, and is asked questions of every kind: what it hears, what
it writes, and how its run ends."""

from . import runs
from .sketches import fingerprint
from .streams import records, vectors
from .turns import QuestionTalk, Stops, served
from .words import STORES


class StoreTalk(QuestionTalk):
    """A talk whose stream is a front of a store, as long as a Recall says. `store` gives the legal
    updates of a depth and the fault behind them, or None where the file can't be read: it is read
    at the Recall."""

    def __init__(self, store):
        super().__init__()
        self.store = store

    def hear_updates(self, updates):
        return None

    def hear_endstream(self):
        return None

    def hear_recall(self, count):
        if self.depth is None or self.both:
            return None
        self.updates = self.front(count)
        self.both = vectors(self.updates)
        held = len(self.updates), *(side.weight for side in self.both), fingerprint(self.updates)
        return [("Held", *held)]

    def answers(self, question):
        return True

    def front(self, count):
        """So many records, or all where there are fewer. None is read where none is asked for."""
        store = self.store(self.depth) if count else ([], None)
        if store is None:
            raise Stops("ReadFault", "sip: read fault on first")
        updates, fault = store
        if fault and len(updates) < count:
            raise Stops("BadStream", runs.bad_stream(fault), fault[1])
        return updates[:count]


def store_of(said, files):
    """What a talk has of the file STORED. Where that is FROM it is not opened: to read it would
    take the other end's bytes."""
    stream = said["stored"]
    is_from = stream.path == said["from"] != "-"
    data = None if is_from else files.get(stream.path)
    return lambda depth: None if data is None else records(data, depth, stream.form)


def run(words, files, may_be_made=lambda name: True, given=b""):
    """The run of these words where these files stand, and `given` is standard input."""
    said, refused = runs.read_or_refused(words, STORES)
    if refused:
        return refused._replace(left=files)
    store = store_of(said, files)
    port = Link(said, {**files, "-": given}, may_be_made)
    outcome = runs.heard(port, lambda data: served(data, StoreTalk(store)))
    if said["to"] == "-":
        return outcome._replace(report=outcome.to, to=None, left=files)
    left = files if outcome.to is None else {**files, said["to"]: outcome.to}
    return outcome._replace(left=left)


class Link(runs.Ports):
    """The ends of the link, of which `-` are standard input and output."""

    def __init__(self, said, files, may_be_made):
        super().__init__(said, files, may_be_made)
        if said["to"] == "-":
            self.to = b""
