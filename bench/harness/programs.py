"""The programs that are compared, built where they are not given."""

import os
import shutil
import subprocess

TOP = os.path.dirname(os.path.dirname(os.path.dirname(os.path.abspath(__file__))))


def proved(crate, words):
    """A proved program, which `rt run` proves and builds where that is still to do."""
    given = os.environ.get(crate.upper())
    if given:
        return os.path.abspath(given)
    folder = os.path.join(TOP, "crates", crate)
    built = subprocess.run(["rt", "run", "--", *words], cwd=folder, capture_output=True, text=True)
    if built.returncode != 0:
        raise SystemExit(f"{crate} is not built:\n{built.stdout}{built.stderr}")
    return os.path.join(folder, "out", crate)


def plain(name, work):
    """A program in plain Rust."""
    path = os.path.join(work, name)
    subprocess.run(["rustc", "--edition", "2024", "-O", "-o", path, os.path.join(TOP, "bench", name + ".rs")], check=True)
    return path


def other(variable):
    """The program of another commit, where the environment gives its path."""
    path = os.environ.get(variable)
    return {"old": [os.path.abspath(path)]} if path else {}


class Programs:
    """A program is the words that it begins with."""

    def __init__(self, work):
        self.work = work

    def talks(self):
        """Those that have both ends of a talk, by name. `old` is there only where its path is given."""
        talk = plain("talk", self.work)
        programs = {"sip": [proved("sip", ["--version"])], "plain": [talk, "plain"], "limit": [talk, "limit"]}
        return programs | other("OLD")

    def sip(self):
        """`sip` alone, where nothing is compared with other programs."""
        return [proved("sip", ["--version"])]

    def bench(self):
        """The parts, alone."""
        return [proved("sip_bench", [])]

    def base(self):
        """`sip`, and the older program that it is held to; nothing where the path of that one isn't given."""
        path = os.environ.get("BASE")
        if not path:
            return None
        return {"sip": [proved("sip", ["--version"])], "base": [os.path.abspath(path)]}

    def parts(self):
        """Those that have the parts, by name, as for the talks."""
        yardstick = plain("yardstick", self.work)
        programs = {"sip": [proved("sip_bench", [])], "plain": [yardstick, "plain"], "limit": [yardstick, "limit"]}
        return programs | other("OLD_BENCH")


def valgrind():
    return shutil.which("valgrind")
