"""Runs programs of which one allocation is refused, by a library that is loaded before the C
library."""

import os
import signal
import subprocess
import sys
from typing import NamedTuple

TOP = os.path.dirname(os.path.dirname(os.path.abspath(__file__)))

# A run that takes longer, in seconds, hangs.
LONGEST = 60

# The descriptor on which the library says that it refused.
SAYS = 3


class End(NamedTuple):
    """How a run ended. `code` is negative where a signal ended it; `refused` is whether an
    allocation was."""

    code: int
    report: bytes
    said: bytes
    refused: bool


def library(work):
    path = os.path.join(work, "refuse.so")
    words = [
        "rustc",
        "--edition",
        "2024",
        "--crate-type",
        "cdylib",
        "-C",
        "panic=abort",
        "-O",
        "-o",
        path,
    ]
    subprocess.run([*words, os.path.join(TOP, "refuse.rs")], check=True)
    return path


class Started:
    """A program that runs. With a number, that allocation of it is refused; `pipes` are descriptors
    that it gets, by their numbers there."""

    def __init__(self, words, refusing=None, number=None, pipes=()):
        self.written = [os.memfd_create(name) for name in ("report", "said", "refused")]
        actions = [(os.POSIX_SPAWN_OPEN, 0, os.devnull, os.O_RDONLY, 0)]
        actions += [
            (os.POSIX_SPAWN_DUP2, self.written[at], to) for at, to in ((0, 1), (1, 2), (2, SAYS))
        ]
        actions += [(os.POSIX_SPAWN_DUP2, descriptor, to) for to, descriptor in pipes]
        environment = {"LD_PRELOAD": refusing, "REFUSE": str(number)} if number else {}
        self.pid = os.posix_spawn(
            words[0], words, environment, file_actions=actions, setsigdef=[signal.SIGPIPE]
        )

    def end(self):
        signal.signal(signal.SIGALRM, lambda *_: os.kill(self.pid, signal.SIGKILL))
        signal.alarm(LONGEST)
        code = os.waitstatus_to_exitcode(os.waitpid(self.pid, 0)[1])
        signal.alarm(0)
        report, said, refused = (self.take(descriptor) for descriptor in self.written)
        return End(code, report, said, bool(refused))

    def take(self, descriptor):
        data = os.pread(descriptor, os.fstat(descriptor).st_size, 0)
        os.close(descriptor)
        return data


def alone(words, refusing, number):
    """A program on its own."""
    return Started(words, refusing, number).end()


def both_ends(helper, verifier, refusing, number, which):
    """Both ends of a talk over two pipes, of which `which` (0 the helper, 1 the verifier) is
    refused the allocation. An end is words, in which `FROM` and `TO` are its link."""
    # Their numbers are above those that the ends get them by.
    pipes = [high(descriptor) for _ in range(2) for descriptor in os.pipe()]
    (heard, asked), (got, replied) = pipes[:2], pipes[2:]
    links = [((4, heard), (5, replied)), ((4, got), (5, asked))]
    started = []
    for at, (words, link) in enumerate(zip((helper, verifier), links)):
        words = [{"FROM": "/dev/fd/4", "TO": "/dev/fd/5"}.get(word, word) for word in words]
        started.append(Started(words, refusing, number if at == which else None, link))
    for descriptor in pipes:
        os.close(descriptor)
    return [one.end() for one in started]


def high(descriptor):
    import fcntl

    moved = fcntl.fcntl(descriptor, fcntl.F_DUPFD_CLOEXEC, 100)
    os.close(descriptor)
    return moved
