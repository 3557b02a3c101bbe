"""Runs cases, compares each run with what it has to be, and counts what was seen."""

import multiprocessing
import os
import subprocess
import sys
import tempfile
import time
from collections import Counter
from typing import Callable, NamedTuple, Optional

from harness.programs import proved
from oracle.advice import advice
from oracle.runs import behind_progress, run
from oracle.whole import EVERY
from oracle.words import ASKS, SKETCHES, Usage, read_words

from .chances import Chances
from .machines import by_machines, machines_in, machines_path
from .program import FROM, TO, Program

# Of so many cases, each kind of outcome that is wanted has to come.
ENOUGH = 20_000


class Group(NamedTuple):
    """`make` makes a case of its chances, and one in `fifos` goes over two FIFOs, or has its stream
    come bit by bit. `wanted` are the outcomes that have to come among many cases. `also` tells what
    else is wrong with a report. `verbs` are commands without which the group is skipped. Where
    `run` says what a case comes to, all files behind it are compared, and no advice is."""

    make: Callable
    fifos: int = 0
    wanted: list = []
    also: Callable = lambda case, report: ()
    verbs: tuple = ()
    run: Optional[Callable] = None


class Trial:
    """The cases of one group."""

    def __init__(self, name, group, paths, settings):
        self.name, self.group, self.settings = name, group, settings
        path, self.of_machines = paths
        self.path = path
        # The commands that the program has. `ask` is one that it need not have.
        self.verbs = [verb for verb in EVERY if verb not in ASKS or has(path, verb)]
        self.seen = Counter()
        self.wrong = 0

    def tries(self):
        begun = time.monotonic()
        memory = "/dev/shm" if os.access("/dev/shm", os.W_OK) else None
        with tempfile.TemporaryDirectory(prefix="sip-", dir=memory) as folder:
            workers = self.workers(folder)
            for at, _ in enumerate(self.settings.numbers):
                outcome, lines = workers[at % len(workers)].recv()
                self.seen[outcome] += 1
                self.wrong += len(lines)
                for line in lines:
                    print(line, flush=True)
        cases = len(self.settings.numbers)
        each = (time.monotonic() - begun) / max(cases, 1) * 1000
        print(f"{self.name}: {cases} cases, {self.wrong} differences, {each:.1f} ms each")
        print(
            "   ",
            ", ".join(f"{name} {count}" for name, count in self.seen.most_common()),
            flush=True,
        )
        missing = [name for name in self.group.wanted if not self.seen[name]]
        if missing and cases >= ENOUGH:
            self.wrong += 1
            print(f"{self.name}: never seen: {', '.join(missing)}", flush=True)

    def workers(self, folder):
        """Starts processes that take the cases in turn, and gives what comes from each of them."""
        jobs, heard = self.settings.jobs, []
        fork = multiprocessing.get_context("fork")
        for job in range(jobs):
            own = os.path.join(folder, str(job))
            os.mkdir(own)
            hears, says = fork.Pipe(duplex=False)
            numbers = self.settings.numbers[job::jobs]
            fork.Process(target=self.work, args=(numbers, own, says), daemon=True).start()
            says.close()
            heard.append(hears)
        return heard

    def work(self, numbers, folder, says):
        self.program = Program(self.path, folder)
        self.machines = machines_in(self.of_machines, folder) if self.of_machines else None
        for number in numbers:
            says.send(self.differences(number))

    def differences(self, number):
        """Runs a case. What it came to, and what is other than it has to be, one line each."""
        name = f"{self.name} {self.settings.seed} {number}"
        chance = Chances(name, self.settings.seed, number)
        case = self.group.make(chance)
        over_fifos = bool(self.group.fifos) and chance.one_in(self.group.fifos)
        files = {**case.files, FROM: case.data} if case.data is not None else case.files
        ways = self.with_files if self.group.run else self.with_advice
        outcome, found = ways(chance, case, files, over_fifos)
        if found and self.settings.keep:
            keep(os.path.join(self.settings.keep, name.replace(" ", "-")), case, files)
        lines = [f"{name}: {' '.join(map(repr, case.words))}: {line}" for line in found]
        return f"{outcome.status} {outcome.reason}".rstrip(), lines

    def with_advice(self, chance, case, files, over_fifos):
        """Compares a run, what it advises, and the files that it reads."""
        outcome = run(case.words, files, may_be_made)
        readable = chance.one_in(2)
        self.program.makes_files(readable)
        hints = advice(case.words, files, outcome, may_be_made, readable)
        wanted, over_fifos = outcome, over_fifos and outcome.to is not None
        if over_fifos:
            ran = self.over_fifos(chance, case, outcome)
        else:
            to = to_of(case.words)
            ran = self.program.run(case.words, files, to)
            if outcome.to is None and to:
                # What stood there stays as it was.
                outcome = outcome._replace(to=files.get(to.decode(errors="replace")))
        lost = [name for name in read_by(case.words) if name in ran.changed]
        found = [*compared(outcome, ran), *advised(hints, ran), *self.group.also(case, ran.report)]
        found += self.by_machines(chance, case, wanted, over_fifos)
        return outcome, found + [f"it changes {name}, which it reads" for name in lost]

    def with_files(self, chance, case, files, over_fifos):
        """Compares a run and all files behind it, and what it stored before its end."""
        self.program.makes_files(True)
        made = lambda name: made_beside(case.folders, name)  # noqa: E731
        wanted = outcome = self.group.run(case, files, made, self.verbs)
        ran = self.with_link(chance, case, outcome, over_fifos)
        if ran:
            outcome = outcome._replace(left=but_link(outcome.left), to=ran.to if case.helper else outcome.to)
            found = [*compared(outcome, ran), *left_otherwise(outcome.left, ran)]
            found += self.by_machines(chance, case, wanted, True)
            return outcome, found + [*self.group.also(case, ran.report)]
        stream, sketch = said_names(case.words) if over_fifos and outcome.stored else (None, None)
        if stream in case.files and stream != sketch:
            # The last replacement comes only behind the end of the stream.
            steps = [(one.taken, sketch, one.bytes()) for one in outcome.stored[:-1]]
            ran = self.program.trickle(case, stream, steps)
        else:
            ran = self.program.run(case.words, files, case=case)
        # TO is one of the files that are left.
        ran = ran._replace(to=outcome.to)
        found = [*compared(outcome, ran), *left_otherwise(outcome.left, ran)]
        found += self.by_machines(chance, case, wanted, False)
        return outcome, found + [*seen_by_others(case, files, outcome, ran)]

    def by_machines(self, chance, case, outcome, over_fifos):
        """What is other than it has to be where the same is done by machines, in pieces."""
        if not self.machines or case.words[:1] == [b"ask"] and not is_link(case):
            return []
        asked = by_machines(chance, case, outcome)
        if not asked:
            return []
        case, outcome = asked
        if over_fifos:
            ran = self.machines.talk(case, outcome.turns, cuts_of(chance, case))
            outcome = outcome._replace(left=outcome.left and but_link(outcome.left))
        else:
            files = case.files if case.data is None else {**case.files, FROM: case.data}
            ran = self.machines.run(case.words, files, to_of(case.words[1:]), case=case)
        if outcome.left is None:
            return [f"by machines: {line}" for line in compared(outcome, ran)]
        # TO is one of the files that are left.
        ran = ran if over_fifos else ran._replace(to=outcome.to)
        found = [*compared(outcome, ran), *left_otherwise(outcome.left, ran)]
        return [f"by machines: {line}" for line in found]

    def with_link(self, chance, case, outcome, over_fifos):
        """A run whose link is two FIFOs, if that is how it goes."""
        if case.helper:
            return self.program.both(case)
        if over_fifos and outcome.to is not None and outcome.turns and is_link(case):
            return self.over_fifos(chance, case, outcome)
        return None

    def over_fifos(self, chance, case, outcome):
        return self.program.talk(case, outcome.turns, cuts_of(chance, case))


def cuts_of(chance, case):
    """Where the bytes that come are cut."""
    size = len(case.data)
    return sorted(chance.randint(0, size) for _ in range(chance.choice((0, 1, 3, 20))))


def tried(groups, settings):
    """Tries the groups that are asked for. 1 where something differs."""
    wrong, path = 0, os.path.abspath(proved("sip", ["--version"]))
    paths = path, machines_path()
    for name in settings.groups:
        missing = [verb for verb in groups[name].verbs if not has(path, verb)]
        if missing:
            print(f"{name}: skipped, {path} has no {' and no '.join(missing)}", flush=True)
            continue
        trial = Trial(name, groups[name], paths, settings)
        trial.tries()
        wrong += trial.wrong
    if wrong:
        print(f"{wrong} differences", file=sys.stderr)
    return 1 if wrong else 0


def has(path, verb):
    """Whether the program has a command of that name."""
    asked = subprocess.run([path, verb, "--help"], stdin=subprocess.DEVNULL, capture_output=True)
    return asked.returncode == 0


def made_beside(folders, name):
    return name not in folders and may_be_made(name)


def is_link(case):
    """Whether the two ends of the link are where a case has them, and nowhere else."""
    words, ends = case.words, [FROM.encode(), TO.encode()]
    at = 2 if words[:1] == [b"ask"] else len(words) - 2
    apart = not any(word.endswith(end) for word in words[:at] + words[at + 2 :] for end in ends)
    return case.data is not None and words[at : at + 2] == ends and apart


def but_link(files):
    return {name: data for name, data in files.items() if name not in (FROM, TO)}


def said_names(words):
    """The stream and the sketch of a watch; twice nothing, of another command."""
    if words[0] != b"watch":
        return None, None
    _, said = read_words([word.decode() for word in words], SKETCHES)
    return said["stored"].path, said["sketch"]


def left_otherwise(wanted, ran):
    """What the files behind a run are other than they have to be."""
    for name in sorted({*wanted, *ran.left}):
        if ran.left.get(name) != wanted.get(name):
            yield f"{name} has {in_hex(ran.left.get(name))}, not {in_hex(wanted.get(name))}"
    if ran.late:
        yield f"{ran.late} didn't come before more of the stream"


def seen_by_others(case, files, outcome, ran):
    """The sketch and its lock, where the run made them and others than their owner may use them."""
    made = [name for name in outcome.left if name.endswith(".lock") and name not in files]
    if outcome.stored:
        made.append(case.words[1].decode())
    for name in made:
        # A sketch that has what it had may be the same file.
        if files.get(name) != ran.left.get(name) and ran.modes.get(name, 0o600) != 0o600:
            yield f"{name} has the mode {ran.modes[name]:o}, not 600"


def in_hex(data):
    return "nothing" if data is None else f"{data[:200].hex()} ({len(data)} bytes)"


def may_be_made(name):
    """Whether a file of this name can be made in the folder of a run."""
    return name not in (".", "..") and "/" not in name and len(name.encode()) <= 255


def to_of(words):
    """The name of the file that these words make, if they make one."""
    words = behind_progress(words)
    places = {b"verify": 4, b"lookup": 4, b"moments": 4, b"help": 2, b"helplook": 2, b"helpmom": 2}
    at = places.get(words[0] if words else b"")
    return words[at] if at and len(words) > at else None


def read_by(words):
    """The names of the files that these words read, if they are a command."""
    try:
        _, said = read_words([word.decode() for word in behind_progress(words)])
    except (UnicodeDecodeError, Usage):
        return set()
    stream = said.get("stream", said.get("stored"))
    path = stream.path if stream and stream.form != "made" else None
    return {said.get("seed"), said.get("from"), said.get("transcript"), path} - {None}


def advised(hints, ran):
    """Which lines of advice a run was not given, each by how it begins and what it says."""
    lines = [line for line in ran.said.split(b"\n") if line.startswith(b"sip: hint: ")]
    if ran.code is None:
        return
    if len(lines) != len(hints):
        yield f"its advice is {lines!r}, not {hints!r}"
        return
    for line, (start, *said) in zip(lines, hints):
        if not line.startswith(start.encode()) or any(it.encode() not in line for it in said):
            yield f"it is advised {line!r}, not {start!r} and {said!r}"
        if any(not 32 <= byte < 127 for byte in line):
            yield f"it is advised {line!r}, which has more than printed ASCII"


def compared(outcome, ran):
    """What a run was other than it has to be."""
    if ran.code is None:
        yield "it hangs"
        return
    if ran.code != outcome.code():
        wanted = f"{outcome.code()} ({outcome.status} {outcome.reason})"
        yield f"it ends with {ran.code}, not {wanted}: {ran.said[:300]!r}"
    if outcome.status != "Page" and ran.report != outcome.report:
        yield f"its report is {shown(ran.report)}, not {shown(outcome.report)}"
    # Lines of advice may follow, or stand alone.
    lines = ran.said.decode(errors="replace").splitlines()
    lines = [line for line in lines if not line.startswith(("sip: progress: ", "sip: hint: "))]
    if lines != ([outcome.said] if outcome.said else []):
        yield f"it says {ran.said[:300]!r}, not {outcome.said!r}"
    if ran.to != outcome.to:
        yield f"its TO has {shown(ran.to)}, not {shown(outcome.to)}"
    if ran.early:
        yield "something was sent before the reply that was due had come"


def shown(data):
    if data is None:
        return "nothing"
    return repr(data) if len(data) < 400 else f"{data[:400]!r}.. ({len(data)} bytes)"


def keep(folder, case, files):
    """Leaves the files and the words of a case in a folder, for a look at it."""
    os.makedirs(folder, exist_ok=True)
    for name, data in files.items():
        with open(os.path.join(folder, name), "wb") as file:
            file.write(data)
    with open(os.path.join(folder, "words"), "wb") as file:
        file.write(b"\n".join(case.words))
