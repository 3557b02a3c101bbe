"""What is asked for in the environment."""

import os


def numbers(name, default):
    return [int(word) for word in os.environ.get(name, default).split()]


class Settings:
    def __init__(self):
        self.rounds = numbers("ROUNDS", "5")[0]
        self.records = numbers("RECORDS", "1000000 10000000")
        self.depths = numbers("DEPTHS", "20 32 48")
        self.queries = numbers("QUERIES", "1 16")


def record_size(depth):
    """The bytes of a record of a stream, in the form that `gen` writes at this depth."""
    return 13 if depth <= 32 else 17


def stream_word(path, depth):
    """The word that names a file of such records."""
    return path if depth <= 32 else f"wide:{path}"
