"""A folder with a log, the sketch that was kept of it and the store of a helper, in which `sip ask`
and `sip serve` run, and what an ask of an honest helper comes to."""

import os
import select
import signal
import subprocess
import time
from typing import NamedTuple

from oracle import asks, stores
from oracle.sketches import read
from oracle.streams import record

# A run that takes longer, in seconds, hangs.
LONGEST = 60

# The names of the files: both ends of the link, the sketch, the log and the store.
FROM, TO, SKETCH, LOG, STORE = "from", "to", "sketch", "log", "store"

SERVED = "text:" + STORE


class Ran(NamedTuple):
    """How an ask ended, and all that it sent. `seen` are the places of the seats that were used
    whenever more of it came, behind how many bytes that were sent."""

    code: int
    report: bytes
    said: str
    sent: bytes
    seen: list


class Plan(NamedTuple):
    """What an ask of an honest helper comes to: its outcome, all that the helper says, the sketch
    before it and behind each mark, and where the bytes of each question begin among those that are
    sent."""

    outcome: asks.runs.Outcome
    replies: bytes
    states: list
    begins: list


def line_of(said):
    """The line of a status on standard error, where there is one; advice is no such line."""
    of = [line for line in said.decode().splitlines() if not line.startswith("sip: hint: ")]
    return "\n".join(of)


def lines(updates):
    return b"".join(record(update, "text") for update in updates)


class Kept:
    def __init__(self, sip, work):
        self.sip, self.work = sip, work

    def path(self, name):
        return os.path.join(self.work, name)

    def put(self, name, data):
        with open(self.path(name), "wb") as file:
            file.write(data)

    def bytes_of(self, name):
        with open(self.path(name), "rb") as file:
            return file.read()

    def run(self, *words):
        """Runs a command that has to end well."""
        subprocess.run([self.sip, *words], cwd=self.work, check=True, timeout=LONGEST)

    def begin(self, depth, updates, seats):
        """The sketch of a log, with these seats, whose store has it too."""
        self.put("seed", os.urandom(32))
        os.chmod(self.path("seed"), 0o600)
        self.run("begin", SKETCH, "seed", str(depth), "1/1", *seats)
        os.unlink(self.path("seed"))
        for name in (LOG, STORE):
            self.put(name, lines(updates))
        self.run("watch", SKETCH, "text:" + LOG, "0", "-")

    def links(self):
        """The two FIFOs."""
        for name in (FROM, TO):
            os.mkfifo(self.path(name))

    def used(self):
        """The places of the seats that are used. The file has to be whole."""
        seats = read(self.bytes_of(SKETCH)).seats
        return [place for place, seat in enumerate(seats) if seat.used]

    def ask_words(self, questions):
        return ["ask", SKETCH, FROM, TO, *questions]

    def plan(self, questions, store=None):
        """By plain definitions, of the sketch as it stands and an honest helper with this store."""
        words = " ".join(self.ask_words(questions)).encode().split(b" ")
        store = self.bytes_of(STORE) if store is None else store
        files, heard, replies = {SKETCH: self.bytes_of(SKETCH)}, None, b""
        while True:
            outcome = asks.run(words, {**files, FROM: replies})
            if outcome.to == heard:
                states = [files[SKETCH], *(one.bytes() for one in outcome.stored)]
                return Plan(outcome, replies, states, begins(outcome.to or b""))
            heard, served = outcome.to, f"serve {SERVED} heard said".encode().split()
            replies = stores.run(served, {STORE: store, "heard": heard}).to or b""

    def cut_short(self, questions, replies):
        """What an ask comes to whose helper says this and is gone."""
        words = " ".join(self.ask_words(questions)).encode().split(b" ")
        return asks.run(words, {SKETCH: self.bytes_of(SKETCH), FROM: replies})

    def ask(self, questions, before=(), kill_at=None, gone_at=None):
        """Asks the helper of the store, over the two FIFOs, through what hears all of it. The asker
        is killed once it has sent so many bytes, and the helper is gone once so many of its bytes
        went to it."""
        with open(self.path("report"), "wb") as report, open(self.path("said"), "wb") as said:
            talk = Talk(self, kill_at, gone_at)
            words = [*before, self.sip, *self.ask_words(questions)]
            asker = subprocess.Popen(words, cwd=self.work, stdout=report, stderr=said)
            try:
                code = talk.lasts(asker)
            finally:
                asker.kill()
                asker.wait()
                talk.close()
        line = line_of(self.bytes_of("said"))
        return Ran(code, self.bytes_of("report"), line, talk.sent, talk.seen)


class Talk:
    """The other end of the link of an ask, which passes on what it hears to a helper and back."""

    def __init__(self, kept, kill_at, gone_at):
        self.kept, self.kill_at, self.gone_at = kept, kill_at, gone_at
        self.sent, self.said, self.seen = b"", 0, []
        # Neither end waits for the other one to open it.
        self.heard = os.open(kept.path(TO), os.O_RDONLY | os.O_NONBLOCK)
        self.back = os.open(kept.path(FROM), os.O_RDWR)
        pipe = subprocess.PIPE
        words = [kept.sip, "serve", SERVED, "-", "-"]
        self.helper = subprocess.Popen(
            words, cwd=kept.work, stdin=pipe, stdout=pipe, stderr=subprocess.DEVNULL, bufsize=0
        )

    def lasts(self, asker):
        """Goes on until the asker has ended, and gives its exit code."""
        ended, poll = os.pidfd_open(asker.pid), select.poll()
        for one in (self.heard, self.helper.stdout.fileno(), ended):
            poll.register(one, select.POLLIN)
        try:
            while True:
                ready = [one for one, _ in poll.poll(1000 * LONGEST)]
                if not ready:
                    raise SystemExit(f"an ask hangs that has sent {self.sent.hex()}")
                if self.heard in ready and not self.hears(asker):
                    poll.unregister(self.heard)
                if self.helper.stdout.fileno() in ready and not self.answers(asker):
                    poll.unregister(self.helper.stdout.fileno())
                if ended in ready:
                    while self.hears(asker):
                        pass
                    return asker.wait()
        finally:
            os.close(ended)

    def hears(self, asker):
        """Takes what was sent, and looks at the sketch as it is then."""
        try:
            data = os.read(self.heard, 1 << 16)
        except BlockingIOError:
            return False
        if data:
            self.sent += data
            self.seen.append((len(self.sent), self.kept.used()))
            if self.gone_at == 0 and self.back is not None:
                self.goes(asker)
            if self.kill_at is not None and len(self.sent) >= self.kill_at:
                asker.send_signal(signal.SIGKILL)
            else:
                self.passes_on(data)
        return bool(data)

    def passes_on(self, data):
        try:
            self.helper.stdin.write(data)
        except BrokenPipeError:
            pass

    def answers(self, asker):
        data = os.read(self.helper.stdout.fileno(), 1 << 16)
        if data and self.back is not None:
            os.write(self.back, data if self.gone_at is None else data[: self.gone_at - self.said])
            self.said += len(data)
            if self.gone_at is not None and self.said >= self.gone_at:
                self.goes(asker)
        return bool(data)

    def goes(self, asker):
        """The link ends, but not before the asker has it."""
        os.close(self.back)
        self.back = None
        while asker.poll() is None:
            try:
                os.close(os.open(self.kept.path(FROM), os.O_WRONLY | os.O_NONBLOCK))
                return
            except OSError:
                time.sleep(0.001)

    def close(self):
        os.close(self.heard)
        if self.back is not None:
            os.close(self.back)
        self.helper.stdin.close()
        self.helper.stdout.close()
        self.helper.wait(timeout=LONGEST)


def begins(sent):
    """Where the bytes of each question begin: with an Ask, or with a Query behind none."""
    at, found, before = 0, [], None
    while at < len(sent):
        kind = sent[at]
        if kind in (0x21, 0x24) or kind == 0x04 and before != 0x21:
            found.append(at)
        before, at = kind, at + 3 + int.from_bytes(sent[at + 1 : at + 3], "big")
    return found


def challenges_in(sent):
    """Those that were revealed, in whole frames."""
    at, found = 0, []
    while at < len(sent):
        end = at + 3 + int.from_bytes(sent[at + 1 : at + 3], "big")
        if sent[at] == 0x05 and end <= len(sent):
            found.append(sent[at + 3 : end])
        at = end
    return found
