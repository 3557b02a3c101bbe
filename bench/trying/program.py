"""Runs the program over files of a folder in memory, and tells what it wrote and how it ended."""

import fcntl
import os
import select
import signal
import stat
import time
from typing import NamedTuple, Optional

# A run that takes longer, in seconds, hangs.
LONGEST = float(os.environ.get("LONGEST", "20"))

# The names of the two ends of a link, among the words of a case. They are files, or FIFOs in a
# folder of their own.
FROM, TO = "link.from", "link.to"

# The file that is standard input, where there is more than nothing.
GIVEN = "standard input"

# Seconds in which a replacement of a sketch comes, once its last record was sent.
SOON = 2


class Ran(NamedTuple):
    """`code` is negative where a signal ended the run, and None where it hung. `to` is the file TO,
    where it is there. `changed` are the names of files that were there and have other bytes now,
    and `left` are all files behind the run, with their `modes`. `late` says which replacement of a
    sketch didn't come."""

    code: Optional[int]
    report: bytes
    said: bytes
    to: Optional[bytes]
    early: bool = False
    changed: tuple = ()
    left: Optional[dict] = None
    modes: Optional[dict] = None
    late: str = ""


class Hangs(Exception):
    pass


def bytes_of(name):
    with open(name, "rb") as file:
        return file.read()


def rings(*_):
    raise Hangs


class Program:
    def __init__(self, path, folder):
        self.path = path
        self.out, self.err = os.memfd_create("report"), os.memfd_create("said")
        signal.signal(signal.SIGALRM, rings)
        signal.signal(signal.SIGPIPE, signal.SIG_IGN)
        self.files, self.fifos = (os.path.join(folder, name) for name in ("files", "fifos"))
        for folder in (self.files, self.fifos):
            os.mkdir(folder)
        os.mkfifo(os.path.join(self.fifos, FROM))
        os.mkfifo(os.path.join(self.fifos, TO))

    def makes_files(self, readable):
        """Whether others can read the files of a run."""
        os.umask(0o022 if readable else 0o077)

    def start(self, words, given=os.devnull):
        for written in (self.out, self.err):
            os.ftruncate(written, 0)
            os.lseek(written, 0, os.SEEK_SET)
        streams = [
            (os.POSIX_SPAWN_OPEN, 0, given, os.O_RDONLY, 0),
            (os.POSIX_SPAWN_DUP2, self.out, 1),
            (os.POSIX_SPAWN_DUP2, self.err, 2),
        ]
        return os.posix_spawn(
            self.path, [b"sip", *words], {}, file_actions=streams, setsigdef=[signal.SIGPIPE]
        )

    def written(self, descriptor):
        size = os.fstat(descriptor).st_size
        return os.pread(descriptor, size, 0)

    def wait(self, child):
        """The exit code; a child that hangs is ended first."""
        signal.setitimer(signal.ITIMER_REAL, LONGEST)
        try:
            return os.waitstatus_to_exitcode(os.waitpid(child, 0)[1])
        except Hangs:
            os.kill(child, signal.SIGKILL)
            os.waitpid(child, 0)
            return None
        finally:
            signal.setitimer(signal.ITIMER_REAL, 0)

    def run(self, words, files, to=None, case=None):
        """Runs it over these files, which are there for this run alone."""
        os.chdir(self.files)
        held = self.put(files, case)
        code = self.wait(self.start(words, GIVEN if case and case.given else os.devnull))
        for descriptor in held:
            os.close(descriptor)
        left, modes = self.taken(case)
        changed = tuple(name for name, data in files.items() if left.get(name) != data)
        written = left.get(os.fsdecode(to)) if to else None
        report, said = self.written(self.out), self.written(self.err)
        return Ran(code, report, said, written, changed=changed, left=left, modes=modes)

    def put(self, files, case):
        """Makes the files of a case in the folder where the run is. The descriptors that hold what
        is locked."""
        for name, data in files.items():
            with open(name, "wb") as file:
                file.write(data)
        held = []
        if case is None:
            return held
        if case.given:
            with open(GIVEN, "wb") as file:
                file.write(case.given)
        for name in case.folders:
            os.mkdir(name)
        for name in case.busy:
            held.append(os.open(name + ".lock", os.O_CREAT | os.O_RDWR, 0o600))
            fcntl.flock(held[-1], fcntl.LOCK_EX | fcntl.LOCK_NB)
        return held

    def taken(self, case=None):
        """The files that are there and their modes, which are taken away with all else but the two
        FIFOs."""
        left, modes = {}, {}
        for name in os.listdir():
            if case and name in case.folders:
                os.rmdir(name)
                continue
            if name in (FROM, TO) and stat.S_ISFIFO(os.stat(name).st_mode):
                continue
            if name != GIVEN and os.path.isfile(name):
                left[name], modes[name] = bytes_of(name), os.stat(name).st_mode & 0o777
            os.unlink(name)
        return left, modes

    def trickle(self, case, name, stored):
        """Runs it over the stream of that name as a FIFO, of which more comes only when a sketch
        was stored as it has to be: `stored` are how many bytes of the stream there are then, the
        name of the sketch, and its bytes."""
        os.chdir(self.files)
        self.put({other: data for other, data in case.files.items() if other != name}, case)
        os.mkfifo(name)
        data, sent, late, code = case.files[name], 0, "", None
        child = self.start(case.words)
        signal.setitimer(signal.ITIMER_REAL, LONGEST)
        try:
            link = os.open(name, os.O_WRONLY)
            try:
                for number, (upto, sketch, wanted) in enumerate(stored, 1):
                    sent += os.write(link, data[sent:upto])
                    if not late and not comes(sketch, wanted):
                        late = f"replacement {number}"
                os.write(link, data[sent:])
            except BrokenPipeError:
                pass
            finally:
                os.close(link)
            code = os.waitstatus_to_exitcode(os.waitpid(child, 0)[1])
        except Hangs:
            os.kill(child, signal.SIGKILL)
            os.waitpid(child, 0)
        finally:
            signal.setitimer(signal.ITIMER_REAL, 0)
        left, modes = self.taken(case)
        left[name] = data
        report, said = self.written(self.out), self.written(self.err)
        return Ran(code, report, said, None, left=left, modes=modes, late=late)

    def talk(self, case, turns, cuts):
        """Runs it over the two FIFOs, whose other end this is. In each turn so many bytes have
        come, and then the other end's bytes go out up to there. `cuts` says where they are cut.
        Nothing may come before a turn's last bytes went out."""
        os.chdir(self.fifos)
        held, data = self.put(case.files, case), case.data
        came, sent, early = b"", 0, False
        heard = os.open(TO, os.O_RDONLY | os.O_NONBLOCK)
        child = self.start(case.words)
        signal.setitimer(signal.ITIMER_REAL, LONGEST)
        code = None
        try:
            link = os.open(FROM, os.O_WRONLY)
            try:
                for expected, upto in turns:
                    came += hear(heard, expected - len(came))
                    for cut in [*(cut for cut in cuts if sent < cut < upto), upto]:
                        early = early or len(came) > expected or hears(heard, 0)
                        # A program that has ended takes nothing more.
                        while sent < cut:
                            sent += os.write(link, data[sent:cut])
            except BrokenPipeError:
                pass
            finally:
                os.close(link)
            came += hear(heard, None)
            code = os.waitstatus_to_exitcode(os.waitpid(child, 0)[1])
        except Hangs:
            os.kill(child, signal.SIGKILL)
            os.waitpid(child, 0)
        finally:
            signal.setitimer(signal.ITIMER_REAL, 0)
            for descriptor in (heard, *held):
                os.close(descriptor)
        left, modes = self.taken(case)
        report, said = self.written(self.out), self.written(self.err)
        return Ran(code, report, said, came, early, left=left, modes=modes)

    def both(self, case):
        """Runs it and its helper over the two FIFOs. A helper that was asked nothing still waits
        for the other end when that is done, and is ended."""
        os.chdir(self.fifos)
        self.put(case.files, case)
        none = [(os.POSIX_SPAWN_OPEN, stream, os.devnull, os.O_RDWR, 0) for stream in (0, 1, 2)]
        helper = os.posix_spawn(
            self.path, [b"sip", *case.helper], {}, file_actions=none, setsigdef=[signal.SIGPIPE]
        )
        code = self.wait(self.start(case.words))
        os.kill(helper, signal.SIGKILL)
        os.waitpid(helper, 0)
        left, modes = self.taken(case)
        return Ran(code, self.written(self.out), self.written(self.err), None, left=left, modes=modes)


def comes(name, wanted):
    """Whether a file gets these bytes soon."""
    until = time.monotonic() + SOON
    while True:
        if os.path.isfile(name) and bytes_of(name) == wanted:
            return True
        if time.monotonic() > until:
            return False
        time.sleep(0.0002)


def hears(descriptor, seconds):
    """Whether something came, or the other end is gone, within so many seconds; None waits for
    it."""
    waiting = select.poll()
    waiting.register(descriptor, select.POLLIN)
    events = waiting.poll(None if seconds is None else seconds * 1000)
    return bool(events and events[0][1] & select.POLLIN)


def hear(descriptor, wanted):
    """What comes until so many bytes are there, or the other end is gone; None hears to its end."""
    came = b""
    while wanted is None or len(came) < wanted:
        waiting = select.poll()
        waiting.register(descriptor, select.POLLIN)
        waiting.poll()
        more = os.read(descriptor, 65536)
        if not more:
            break
        came += more
    return came
