"""The run of any words, whichever command they are of: how it ends, and what all files have behind
it. Words are refused by the command that they begin with, and not by another one."""

from . import asks, runs, sketch_runs, stores
from .words import ASKS, COMMANDS, SKETCHES, STORES

EVERY = {**COMMANDS, **SKETCHES, **STORES, **ASKS}


def run(words, files, may_be_made=lambda name: True, busy=(), given=b"", verbs=tuple(EVERY)):
    """The run of these words, which are bytes, where these files stand, by a program that has these
    commands. Another process has the locks of the names in `busy`, and `given` is standard
    input."""
    words = runs.behind_progress(words)
    verb = words[0].decode(errors="replace") if words else ""
    if verb in ASKS and verb in verbs:
        return asks.run(words, files, may_be_made, busy, given)
    if verb in SKETCHES:
        return sketch_runs.run(words, files, may_be_made, busy)
    if verb in STORES:
        return stores.run(words, files, may_be_made, given)
    outcome = runs.run(words, files, may_be_made)
    if outcome.to is None:
        return outcome._replace(left=files)
    said, _ = runs.read_or_refused(words, COMMANDS)
    return outcome._replace(left={**files, said["to"]: outcome.to})
