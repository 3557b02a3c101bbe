"""Cases for an audit: transcripts of runs, mostly with bytes changed, cut or added, and streams."""

from oracle.chacha import challenges
from oracle.questions import version_needed
from oracle.runs import judged_again
from oracle.streams import record, vectors
from oracle.transcripts import head, told

from . import changes
from .case import Case
from .replies import helper_bytes, word_of


def case(chance):
    """Words of `audit`, a stream, and a transcript, which is often that of a run that ended."""
    depth = chance.depth()
    updates = chance.legal(depth)
    form = chance.form(depth)
    both = vectors(updates)
    questions = chance.questions(both, depth)
    version = 2 if chance.one_in(5) else version_needed(depth, questions)
    blocks = challenges(chance.seed_bytes(), depth, len(questions))
    data = head(version, depth, list(zip(questions, blocks)))
    data += helper_bytes(chance, depth, updates, both, questions, blocks, version)
    if not chance.one_in(4):
        data = data[: judged_again(told(data), data, (updates, None))[0].taken]
    if chance.one_in(4):
        data = changes.bytes_changed(chance, data)
    elif chance.one_in(8):
        data = field_changed(chance, data)
    stream = b"".join(record(update, form) for update in updates)
    if chance.one_in(20):
        stream = changes.bytes_changed(chance, stream)
    # Another form than that of the bytes.
    if chance.one_in(50):
        form = chance.choice(("binary", "text", "wide"))
    return Case([b"audit", word_of(form), b"record"], {"stream": stream, "record": data})


def field_changed(chance, data):
    """Another byte in the head, or in the first frames; or the bytes cut there."""
    at = chance.choice((4, 5, 6, 7, 8, 9, 10, 11, chance.randrange(100)))
    if chance.one_in(4) or at >= len(data):
        return data[:at]
    byte = changes.near(chance, data[at]) % 256
    return data[:at] + bytes([byte]) + data[at + 1 :]
