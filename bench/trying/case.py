"""A case: the words of a run, the files that it reads, and what comes over its link."""

from typing import NamedTuple, Optional


class Case(NamedTuple):
    """`data` is what stands in the file that the words name as FROM, or comes through the FIFO of
    that name, and `given` is standard input. `folders` are names that no file can have, and `busy`
    the names of sketches whose lock another process has. Where there is a `helper`, it is run by
    these words at the other end of the link."""

    words: list
    files: dict
    data: Optional[bytes] = None
    given: bytes = b""
    folders: tuple = ()
    busy: tuple = ()
    helper: tuple = ()
