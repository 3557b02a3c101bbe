"""What an ask did with its desk, its link and its report, in order, as strace tells it."""

import os
import re

from .kept import FROM, SKETCH, TO

NEW, LOCK, FOLDER, REPORT = SKETCH + ".new", SKETCH + ".lock", "folder", "report"

CALL = re.compile(r"\d+ +(\w+)\((.*?)(?:\) += (-?\d+).*|\) += \?.*| <unfinished.*)", re.DOTALL)

# What is read or written, by the call and the file.
MOVES = {
    ("read", SKETCH): "loaded", ("write", NEW): "stored", ("write", TO): "out",
    ("read", FROM): "in", ("write", REPORT): "line",
}  # fmt: skip


class Trace:
    def __init__(self, kept):
        self.log, self.work = kept.path("strace"), kept.work
        self.names = {kept.path(name): name for name in (FROM, TO, SKETCH, NEW, LOCK, REPORT)}
        self.names[kept.work] = FOLDER

    def before(self, *options):
        """The words that a command has before it whose calls are told."""
        return ["strace", "-f", "-y", "-xx", "-s", "1000000", "-o", self.log, *options]

    def calls(self):
        """The calls of the system: the name, the words, and what was given, if it came to that."""
        with open(self.log) as file:
            for line in file:
                call = CALL.match(line)
                if call:
                    yield call[1], call[2], None if call[3] is None else int(call[3])

    def events(self):
        """Pieces of one write or read that lie beside each other are one."""
        found = []
        for name, words, given in self.calls():
            done = None if given is None or given < 0 else self.event(name, words, given)
            if done and found and len(done) > 1 and found[-1][0] == done[0]:
                found[-1] = done[0], found[-1][1] + done[1]
            elif done and done[1:] != (b"",):
                found.append(done)
        return found

    def event(self, name, words, given):
        at = self.descriptor(words)
        if name == "flock" and at == LOCK and "LOCK_EX|LOCK_NB" in words:
            return ("locked",)
        if name == "fsync":
            return {NEW: ("synced",), FOLDER: ("kept",)}.get(at)
        if name == "openat" and self.named(words) == [NEW]:
            return ("made",) if "O_EXCL" in words and words.endswith(", 0600") else None
        if name.startswith("rename"):
            return ("renamed",) if self.named(words) == [NEW, SKETCH] else None
        kind = MOVES.get((name, at))
        return (kind, strings(words)[0][:given]) if kind else None

    def descriptor(self, words):
        """The file of the first word."""
        first = re.match(r"\d+<((?:\\x[0-9a-f]{2})*)>", words)
        return self.names.get(os.fsdecode(unquoted(first[1]))) if first else None

    def named(self, words):
        """The files that are named."""
        paths = (os.path.join(self.work, os.fsdecode(one)) for one in strings(words))
        return [self.names.get(path) for path in paths]


def unquoted(text):
    return bytes.fromhex(text.replace("\\x", ""))


def strings(words):
    return [unquoted(one) for one in re.findall(r'"((?:\\x[0-9a-f]{2})*)"', words)]


def due(plan, report):
    """What a whole ask has to do, by what is said of it."""
    events = [("locked",), ("loaded", plan.states[0])]
    sent, heard, lines = 0, 0, report.splitlines(keepends=True)
    ends = [*plan.begins[1:], len(plan.outcome.to) - 3]
    for size, upto in plan.outcome.turns:
        if sent in plan.begins:
            stored = plan.states[plan.begins.index(sent) + 1]
            events += [("made",), ("stored", stored), ("synced",), ("renamed",), ("kept",)]
        events += [("out", plan.outcome.to[sent:size]), ("in", plan.replies[heard:upto])]
        sent, heard = size, upto
        if sent in ends:
            events.append(("line", lines[ends.index(sent)]))
    return [*events, ("out", plan.outcome.to[sent:])]


def front(events, done):
    """The front of events that has as many, of which the last one is as long."""
    found = events[: len(done)]
    if found and len(found[-1]) > 1 and len(done[-1]) > 1:
        found[-1] = found[-1][0], found[-1][1][: len(done[-1][1])]
    return found
