"""The lines of advice of a run, `sip: hint:`, as far as they are said here: how each begins, and what
it has to say behind that."""

from .runs import asks_for_text, behind_progress, source
from .transcripts import told
from .words import ASKED, COMMANDS, LOOKUPS, QUERIES, Usage, read_words

SHOWN = 64

# What is said of the word of a shape.
PLACES = {
    "verb": "the first word is verify",
    "stream": "STREAM is PATH, text:PATH, wide:PATH or made:NUMBER:COUNT",
    "stored": "STORED is PATH",
    "seed": "SEED is a file of 32 random bytes",
    "from": "FROM is the file or FIFO",
    "to": "TO is the file or FIFO",
    "record": "RECORD is the file",
    "helper": "HELPER is honest, skewed or mute",
    "transcript": "TRANSCRIPT is the file",
    "number": "NUMBER is below 2^64",
    "count": "COUNT is up to 10000000",
    "depth": "DEPTH is from 1 to 48",
    "queries": "T from 1, and NUM from 1 to DEN",
    "lookups": "LOOKUP is index:I, pred:I or succ:I, with I below 2^DEPTH",
    "moments": "MOMENT is moment:SIDE:K, with SIDE 0 or 1 and K from 3 to 8",
    "end": "the command ends before it",
}

# Of a record that is not legal.
WHYS = {
    "Truncated": "STREAM ends inside a record",
    "BadLine": "a line is a side, an item and a number",
    "BadSide": "a side is 0 or 1",
    "BadItem": "items are below 2^DEPTH",
    "ZeroDelta": "a record that adds 0",
    "TooHeavy(0)": "1073741823 at most",
    "TooHeavy(1)": "1073741823 at most",
}

# Of the reasons of a rejection that are an honest helper's.
HONEST = {
    "Refused(1)": "memory ran out, as an honest helper's may",
    "Refused(2)": "more than 65536 entries, as an honest helper does",
    "Refused(3)": "an entry of the side is below 0, as an honest helper does",
}

# Of other ends that no file explains.
ENDS = {
    "BadSeed": "SEED has 32 random bytes",
    "BadTranscript": "TRANSCRIPT is a file that verify or play kept",
    "BadFrame": "FROM is TO of the other side",
    "TooWide": "more than 65536 entries could be in that answer",
    "TooHigh": "the weight of that side",
    "PeerFault": "FROM or TO could not be opened",
    "PeerClosed": "left before its end",
}

EVEN = "SEED is one byte, 32 times"
READABLE = "others can read the file of SEED"


def advice(words, files, outcome, may_be_made, readable):
    """The lines of a run that came to this over these files: how each begins, and all else that it
    has to say. `readable` says that others can read the file of the seed."""
    words = behind_progress(words)
    try:
        texts = [word.decode() for word in words]
    except UnicodeDecodeError:
        return [("sip: hint: a word is not UTF-8",)]
    try:
        verb, said = read_words(texts)
    except Usage as usage:
        return [] if asks_for_text(words) else [refused(texts, usage.word)]
    if outcome.status == "Page":
        return []
    lines = [
        of_end(verb, said, files, outcome, may_be_made),
        of_seed(said, files, readable),
        of_credits(verb, said, files, outcome),
    ]
    return [line for line in lines if line]


def quoted(word):
    """A word with all but printed ASCII by its number, cut."""
    word = word.encode()
    shown = ""
    for byte in word[:SHOWN]:
        if byte in b'"\\':
            shown += "\\" + chr(byte)
        else:
            shown += chr(byte) if 32 <= byte < 127 else f"\\x{byte:02x}"
    return f'"{shown}"' + ("..." if len(word) > SHOWN else "")


def refused(words, at):
    place = PLACES[shape(words, at)]
    if at >= len(words):
        return "sip: hint: a word is missing: ", place
    kind = words[at].split(":")[0] if ":" in words[at] else ""
    if shape(words, at) == "queries" and kind in (*LOOKUPS, "moment"):
        place = f"sip {'moments' if kind == 'moment' else 'lookup'} asks "
    return f"sip: hint: {quoted(words[at])} cannot stand here: ", place


def shape(words, at):
    """What stands at a word."""
    if not words or words[0] not in COMMANDS:
        return "verb"
    shapes = COMMANDS[words[0]]
    if at == 0:
        return "verb"
    if shapes[-1] in ASKED and len(shapes) <= at < len(shapes) + QUERIES:
        return shapes[-1]
    return shapes[at - 1] if at <= len(shapes) else "end"


def of_end(verb, said, files, outcome, may_be_made):
    status, reason = outcome.status, outcome.reason
    if status == "Rejected":
        return f"sip: hint: {reason}", HONEST.get(reason, "")
    if status == "BadStream":
        return of_record(said, *outcome.said.removeprefix("sip: bad stream at record ").split(": "))
    file = explains(said, files, outcome, may_be_made)
    if file:
        name, word, why = file
        return f"sip: hint: {name} {quoted(word)} cannot be used: ", why
    return ("sip: hint: ", ENDS[status]) if status in ENDS else None


def of_record(said, at, why):
    form = said.get("stream", said.get("stored")).form
    if form == "binary" and at == "0" and why in ("Truncated", "BadSide"):
        return "sip: hint: a stream of lines is named text:PATH", "wide:PATH"
    if form == "binary":
        return "sip: hint: ", WHYS[why], "; a stream of wide records is named wide:PATH"
    return "sip: hint: ", WHYS[why]


def explains(said, files, outcome, may_be_made):
    """The file by which a run failed: its name among the words, its word, and why it is not to be
    had."""
    if outcome.status == "ReadFault" and outcome.said.endswith("first"):
        shape = "stream" if "stream" in said else "stored"
        path = said[shape].path
        word = path if said[shape].form == "binary" else f"{said[shape].form}:{path}"
        return shape.upper(), word, unread(path, may_be_made)
    if outcome.status == "ReadFault":
        shape = "seed" if "seed" in said else "transcript"
        return shape.upper(), said[shape], unread(said[shape], may_be_made)
    if outcome.status == "WriteFault":
        return "RECORD", said["record"], unwritten(said["record"], may_be_made)
    if outcome.status == "PeerFault" and said["from"] not in files:
        return "FROM", said["from"], unread(said["from"], may_be_made)
    if outcome.status == "PeerFault" and outcome.to is None:
        return "TO", said["to"], unwritten(said["to"], may_be_made)
    return None


def is_folder(name):
    return name in (".", "..")


def unread(name, may_be_made):
    if is_folder(name):
        return "it is a directory"
    return "no such file or directory" if may_be_made(name) else "does not open it"


def unwritten(name, may_be_made):
    """A file that could be made is spared, since it is another one of the command."""
    if is_folder(name):
        return "it is a directory"
    return "another file of this command" if may_be_made(name) else "does not open it"


def of_seed(said, files, readable):
    """A seed that is used, though it may be no secret."""
    seed = files.get(said.get("seed"))
    if seed is None:
        return None
    if len(seed) >= 32 and len(set(seed[:32])) == 1:
        return (f"sip: hint: {EVEN}",)
    return (f"sip: hint: {READABLE}",) if readable else None


def of_credits(verb, said, files, outcome):
    """Large entries that were asked of a side that had numbers below 0."""
    if verb not in ("verify", "play", "audit") or outcome.status not in ("Accepted", "Rejected"):
        return None
    if verb == "audit":
        it = told(files[said["transcript"]])
        updates, _ = source(said["stored"], it.depth, files)
        questions = [question for question, _ in it.asks]
    else:
        updates, _ = source(said["stream"], said["depth"], files)
        questions = said["queries"]
    asked = {question.side for question in questions if question.kind in ("heavy", "share")}
    sides = sorted(asked & {side for side, _, delta in updates if delta < 0})
    if not sides:
        return None
    which = "both sides" if len(sides) == 2 else f"side {sides[0]}"
    return f"sip: hint: {which} had numbers below 0: ", "only if no entry"
