"""A whole run of the program, over the files that its words name: what it writes, and how it
ends."""

from typing import NamedTuple, Optional

from . import honest
from .chacha import challenges
from .field import WEIGHT
from .frames import spelling
from .judging import verdict
from .questions import rejection, version_needed
from .streams import made, made_form, record, records, vectors
from .transcripts import Bad, listing, told, wide
from .turns import serve
from .words import COMMANDS, Usage, read_words

# The most updates of a frame.
FULL = 512

CODES = {
    "Accepted": 0, "Served": 0, "Wrote": 0, "Page": 0, "Rejected": 1, "Usage": 2, "BadStream": 3,
    "BadSeed": 3, "BadTranscript": 3, "BadFrame": 3, "TooWide": 3, "TooHigh": 3,
    "ReadFault": 4, "WriteFault": 4, "PeerFault": 4, "PeerClosed": 4,
    # Those of sketches.
    "BadSketch": 3, "Exists": 3, "BadStart": 3, "Behind": 3, "Unlike": 3, "Busy": 3,
    "NotWhole": 3, "Unfit": 3, "Signed": 3, "NoSeat": 3, "OutOfStep": 3,
}  # fmt: skip


class Outcome(NamedTuple):
    """`said` is the line on standard error, and `reason` says more of the status. `to` is what
    stands in the file TO, or None where there is none. `turns` are the moments at which the other
    end has the word: what was written to it before, and up to where its bytes are taken then.
    `left` are all files behind a run that has a sketch, by their names, and `stored` what each
    replacement of it stored."""

    status: str
    said: str
    report: bytes
    to: Optional[bytes]
    reason: str = ""
    turns: tuple = ()
    left: Optional[dict] = None
    stored: tuple = ()

    def code(self):
        return CODES[self.status]


def run(words, files, may_be_made=lambda name: True):
    """The run of these words, which are bytes, where these files stand. A file that a name can't be
    made of has no bytes."""
    words = behind_progress(words)
    said, refused = read_or_refused(words, COMMANDS)
    if refused:
        return refused
    if asks_for_text(words) and said["transcript"] not in files:
        return Outcome("Page", "", b"", None)
    port = Ports(said, files, may_be_made)
    verb = words[0].decode()
    return {
        "verify": verify, "lookup": verify, "moments": verify, "play": play, "help": help_,
        "helplook": help_, "helpmom": help_, "audit": audit, "show": read_back,
        "convert": read_back, "gen": gen, "lines": copy, "widen": copy,
    }[verb](verb, said, port)  # fmt: skip


def read_or_refused(words, commands):
    """What the words of a command say, or how a run ends whose words are none."""
    try:
        return read_words([word.decode() for word in words], commands)[1], None
    except UnicodeDecodeError:
        return None, Outcome("Usage", "sip: usage at word 0", b"", None)
    except Usage as usage:
        if asks_for_text(words, commands):
            return None, Outcome("Page", "", b"", None)
        return None, Outcome("Usage", f"sip: usage at word {usage.word}", b"", None)


def behind_progress(words):
    return words[1:] if words[:1] == [b"--progress"] else words


def asks_for_text(words, commands=COMMANDS):
    """Words for help or the version, alone, or for help behind a verb."""
    helps, versions = [[b"--help"], [b"-h"]], [[b"--version"], [b"-V"]]
    verbs = [[verb.encode()] for verb in commands]
    return words in helps + versions or words[:1] in verbs and words[1:] in helps


class Ports:
    """The bytes of the files; None is a port whose calls fail."""

    def __init__(self, said, files, may_be_made):
        self.files = files
        self.first = source(said["stream"], said["depth"], files) if "stream" in said else None
        self.second = files.get(said.get("transcript", said.get("seed")))
        self.replies = files.get(said.get("from"))
        # An output that is a file of the command is not opened. TO is there before RECORD is opened.
        to, record = said.get("to"), said.get("record", "-")
        read = {said.get("seed"), said.get("from")}
        stream = said.get("stream", said.get("stored"))
        if stream and stream.form != "made":
            read.add(stream.path)
        taken = to in files and (to in read or to == record != "-")
        self.to = None if to is None or taken or not may_be_made(to) else b""
        taken = record == to or record in files and record in read
        self.keeps = record == "-" or may_be_made(record) and not taken


def source(stream, depth, files):
    """The legal updates of a stream, and its fault; None where its file can't be read."""
    if stream.form == "made":
        return list(made(stream.number, stream.count, depth)), None
    data = files.get(stream.path)
    return None if data is None else records(data, depth, stream.form)


def help_(verb, _, port):
    return heard(port, lambda data: serve(data, verb))


def heard(port, talk):
    """The run of a helper whose talk goes so of what comes over its link."""
    if port.replies is None:
        return Outcome("PeerFault", "sip: peer fault", b"", port.to)
    served = talk(port.replies)
    if port.to is None and served.written:
        return Outcome("PeerFault", "sip: peer fault", b"", None)
    return Outcome(
        served.status,
        served.said,
        b"",
        None if port.to is None else served.written,
        served.reason,
        tuple(served.turns),
    )


def read_back(verb, _, port):
    if port.second is None:
        return Outcome("ReadFault", "sip: read fault on second", b"", None)
    try:
        it = told(port.second)
    except Bad as bad:
        return bad_transcript(bad.at, b"")
    report = listing(it) if verb == "show" else wide(it)
    if it.bad is not None:
        return bad_transcript(it.bad, report)
    return Outcome("Wrote", "", report, None)


def bad_transcript(at, report):
    return Outcome("BadTranscript", f"sip: bad transcript at offset {at}", report, None)


def gen(_, said, __):
    updates = made(said["number"], said["count"], said["depth"])
    form = made_form(said["depth"])
    return Outcome("Wrote", "", b"".join(record(update, form) for update in updates), None)


def copy(verb, said, port):
    if port.first is None:
        return Outcome("ReadFault", "sip: read fault on first", b"", None)
    updates, fault = port.first
    form = "text" if verb == "lines" else "wide"
    report = b"".join(record(update, form) for update in updates)
    if fault:
        return Outcome("BadStream", bad_stream(fault), report, None, fault[1])
    return Outcome("Wrote", "", report, None)


def bad_stream(fault):
    return f"sip: bad stream at record {fault[0]}: {fault[1]}"


def talk_of(updates, fault, depth, version):
    """What is sent up to the end of the stream, or up to its fault."""
    parts = [updates[at : at + FULL] for at in range(0, len(updates), FULL)]
    if fault and parts and len(parts[-1]) < FULL:
        parts.pop()
    messages = [("Open", version, depth), *(("Updates", part) for part in parts)]
    if not fault:
        messages.append(("EndStream",))
    return b"".join(spelling(message, version) for message in messages)


class Run:
    """A run of a verifier: the messages that it sends, and its report."""

    def __init__(self, said):
        self.depth, self.questions = said["depth"], said["queries"]
        self.version = version_needed(self.depth, self.questions)
        self.sent, self.report, self.turns, self.taken = b"", "", [], 0

    def send(self, *message):
        self.sent += spelling(message, self.version)

    def ends(self, status, said="", reason=""):
        return Outcome(status, said, self.report.encode(), self.sent, reason, tuple(self.turns))

    def gather(self, port, to_fails):
        """Goes up to the end of the stream. An outcome where the run ends there."""
        if port.second is None:
            return self.ends("ReadFault", "sip: read fault on second")
        if len(port.second) < 32:
            return self.ends("BadSeed", "sip: seed too short")
        self.blocks = challenges(port.second[:32], self.depth, len(self.questions))
        if not port.keeps:
            return self.ends("WriteFault", "sip: write fault on record")
        if to_fails:
            return self.ends("PeerFault", "sip: peer fault")
        updates, fault = ([], "unread") if port.first is None else port.first
        self.sent = talk_of(updates, fault, self.depth, self.version)
        return self.take(port.first)

    def take(self, first):
        """Takes the stream. An outcome where the run ends there."""
        if first is None:
            return self.ends("ReadFault", "sip: read fault on first")
        updates, fault = first
        if fault:
            return self.ends("BadStream", bad_stream(fault), fault[1])
        self.updates, self.both = updates, vectors(updates)
        for number, question in enumerate(self.questions, 1):
            status = question.unfit(self.both)
            if status:
                how = {"TooWide": "wide", "TooHigh": "high"}[status]
                return self.ends(status, f"sip: query {number} too {how}")
        return None

    def ask(self, number, data, at):
        """Asks a query of replies that begin there. Tells where those of the next one begin, or the
        outcome."""
        question, block = self.questions[number - 1], self.blocks[number - 1]
        if data is None:
            self.send(*question.message())
            return None, self.ends("PeerFault", "sip: peer fault")
        judged = verdict(question, self.both, self.depth, block, data, at, self.version)
        self.taken = judged.taken
        # A message leaves before the reply to it is taken, and behind the reply before.
        for message, end in zip(judged.asked, [*judged.ends, len(data)]):
            self.send(*message)
            self.turns.append((len(self.sent), end))
        if judged.reason:
            self.report += rejection(number, judged.round, judged.reason)
            return None, self.ends("Rejected", "", judged.reason)
        self.report += question.line(judged.said)
        return judged.ends[-1], None

    def ask_all(self, data, at):
        """Asks all queries of replies that begin there. An outcome where the run ends at one."""
        for number, question in enumerate(self.questions, 1):
            if not question.is_asked(self.both):
                self.report += question.line([])
                continue
            at, ended = self.ask(number, data, at)
            if ended:
                return ended
        return None


def verify(verb, said, port):
    going = Run(said)
    ended = going.gather(port, port.to is None)
    if ended:
        return ended if port.to is not None else ended._replace(to=None)
    ended = going.ask_all(port.replies, 0)
    if ended:
        return ended
    going.send("Bye" if verb == "verify" else "End")
    return going.ends("Accepted")


def judged_again(it, data, first):
    """The run that a transcript tells, over a stream: the run, and its outcome, whatever stands
    behind the bytes that it takes."""
    going = Run({"depth": it.depth, "queries": [question for question, _ in it.asks]})
    going.version, going.blocks = it.version, [block for _, block in it.asks]
    going.taken = it.begins
    ended = going.take(first) or going.ask_all(data, it.begins) or going.ends("Accepted")
    return going, ended._replace(to=None)


def audit(_, said, port):
    if port.second is None:
        return Outcome("ReadFault", "sip: read fault on second", b"", None)
    try:
        it = told(port.second)
    except Bad as bad:
        return bad_transcript(bad.at, b"")._replace(reason="Head")
    going, ended = judged_again(
        it, port.second, source(said["stored"], it.depth, port.files)
    )
    if ended.status in ("Accepted", "Rejected") and going.taken < len(port.second):
        return bad_transcript(going.taken, ended.report)._replace(reason="Behind")
    return ended


def play(_, said, port):
    going = Run(said)
    ended = going.gather(port, False)
    if ended:
        return ended._replace(to=None)
    kept = going.both
    if said["helper"] == "skewed" and kept[0].weight < WEIGHT:
        kept = vectors(going.updates + [(0, 0, 1)])
    for number, question in enumerate(going.questions, 1):
        if not question.is_asked(going.both):
            going.report += question.line([])
            continue
        if said["helper"] == "honest" and question.refusal(kept) is None:
            # Nothing is known of the replies here but that they are honest: the line is the
            # stream's own answer.
            going.report += question.line(question.answer(going.both))
            continue
        data = b""
        if said["helper"] != "mute":
            replies = honest.replies(question, kept, going.depth, going.blocks[number - 1])
            data = b"".join(
                spelling(message, going.version) for reply in replies for message in reply
            )
        _, ended = going.ask(number, data, 0)
        if ended:
            return ended._replace(to=None)
    return going.ends("Accepted")._replace(to=None)
