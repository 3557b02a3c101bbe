"""Runs programs, and tells what each of them took: CPU time, and where it is asked for memory and stack."""

import ctypes
import os
import signal

# A child that takes longer, in seconds, is ended.
LONGEST = 900

# Numbers of linux/personality.h and linux/ptrace.h.
FIXED_ADDRESSES = 0x0040000
TRACE_ME, GO_ON, SET_OPTIONS = 0, 7, 0x4200
STOP_AT_EXIT = 0x40
EXIT_EVENT = signal.SIGTRAP | 6 << 8

PAGE = os.sysconf("SC_PAGE_SIZE")
LIBC = ctypes.CDLL(None, use_errno=True)
LIBC.ptrace.argtypes = [ctypes.c_long, ctypes.c_long, ctypes.c_void_p, ctypes.c_void_p]
LIBC.ptrace.restype = ctypes.c_long


class Child:
    """A program that was started."""

    def __init__(self, words, out=os.devnull, traced=False, cwd=None, wanted=0, quiet=False):
        self.words = [str(word) for word in words]
        self.traced = traced
        self.wanted = wanted  # the code that it is to end with
        self.code = None
        self.cpu = 0.0  # seconds of user and system time
        self.peak = None  # the most memory that was resident, in KiB
        self.own = None  # the memory at its end that is its own, and no part of a file, in KiB
        self.stack = None  # the bytes from the start of the stack down to the lowest page that was touched
        self.pid = os.fork()
        if self.pid == 0:
            self.become(out, cwd, quiet)

    def become(self, out, cwd, quiet):
        try:
            os.dup2(os.open(os.devnull, os.O_RDONLY), 0)
            os.dup2(os.open(out, os.O_WRONLY | os.O_CREAT | os.O_TRUNC, 0o644), 1)
            if quiet:
                os.dup2(os.open(os.devnull, os.O_WRONLY), 2)
            if cwd:
                os.chdir(cwd)
            # Drawn addresses make the memory differ by a hundred KiB from run to run.
            LIBC.personality(FIXED_ADDRESSES)
            signal.alarm(LONGEST)
            if self.traced and LIBC.ptrace(TRACE_ME, 0, None, None) != 0:
                os._exit(126)
            os.execve(self.words[0], self.words, {})
        finally:
            os._exit(127)

    def came(self, status, usage):
        """Takes what the system tells of the child. It has ended, or stopped."""
        if not os.WIFSTOPPED(status):
            self.code = os.waitstatus_to_exitcode(status)
            self.cpu = usage.ru_utime + usage.ru_stime
            return
        if status >> 8 == EXIT_EVENT:
            self.look()
        stop = os.WSTOPSIG(status)
        if stop == signal.SIGTRAP:
            LIBC.ptrace(SET_OPTIONS, self.pid, None, STOP_AT_EXIT)
            stop = 0
        LIBC.ptrace(GO_ON, self.pid, None, stop)

    def look(self):
        """Looks at a child that is about to end."""
        for line in open(f"/proc/{self.pid}/status"):
            if line.startswith("VmHWM:"):
                self.peak = int(line.split()[1])
        for line in open(f"/proc/{self.pid}/smaps_rollup"):
            if line.startswith("Anonymous:"):
                self.own = int(line.split()[1])
        stack = next(line for line in open(f"/proc/{self.pid}/maps") if line.rstrip().endswith("[stack]"))
        low, high = (int(address, 16) for address in stack.split()[0].split("-"))
        # Field 28 is where the stack began; the name in brackets, field 2, may have spaces.
        start = int(open(f"/proc/{self.pid}/stat").read().rpartition(")")[2].split()[25])
        with open(f"/proc/{self.pid}/pagemap", "rb") as pages:
            pages.seek(low // PAGE * 8)
            entries = pages.read((high - low) // PAGE * 8)
        for page in range((high - low) // PAGE):
            # Bits 63 and 62: the page is in memory, or swapped out.
            if entries[8 * page + 7] & 0xC0:
                self.stack = start - (low + page * PAGE)
                return


def wait(children):
    """Waits until all of them have ended."""
    left = {child.pid: child for child in children}
    while left:
        pid, status, usage = os.wait4(-1, 0)
        child = left.get(pid)
        if child is None:
            continue
        child.came(status, usage)
        if child.code is not None:
            del left[pid]
    for child in children:
        if child.code != child.wanted:
            raise SystemExit(f"{' '.join(child.words)} ended with {child.code}")


def run(words, out=os.devnull, **further):
    """Runs one program to its end."""
    child = Child(words, out, **further)
    wait([child])
    return child
