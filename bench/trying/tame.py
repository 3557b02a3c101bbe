"""Words of which it is sure what they do, in the folder of a run and nowhere else, whoever runs
them."""

from oracle.whole import EVERY
from oracle.words import Usage, read_words


def tame(words, there):
    """The same words, where the names in `there` are files. A command among them uses no file
    outside of its folder, which the one who runs it could have; its sketch is no folder, beside
    which the lock would lie; and what it makes as TO was there before, if it reads it."""
    try:
        _, said = read_words(words, EVERY)
    except Usage:
        return words
    words = ["none" + word if word.startswith("/") else word for word in words]
    if set(said.get("sketch", "sketch")) == {"."}:
        words[1] = "sketch"
    if "stored" in said and "to" in said:
        if said["to"] in (said["stored"].path, said["from"]) and said["to"] not in there:
            words[3] = "apart"
    if "questions" in said and said["to"] == said["from"] and said["to"] not in there:
        words[3] = "apart"
    return words
