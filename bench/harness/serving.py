"""A helper that has the stream in a file, beside one that is sent it, each asked the same question at the same challenges."""

import os
import sys

from harness.children import Child, run, wait
from harness.talks import ITEMS, Talks, made

from oracle.chacha import challenges
from oracle.frames import spelling
from oracle.questions import version_needed
from oracle.words import question

# What `serve` over records may take beside `help`: of CPU time, and of memory.
MOST_TIME, MOST_MEMORY = 1.15, 1.1

QUESTIONS = (f"sub:0:{ITEMS - 1}", "f2:0", "heavy:0:1000")

ASKER = os.path.join(os.path.dirname(os.path.abspath(__file__)), "asker.py")

# A frame that says what was heard, and where the records stand in it.
HELD, COUNT = 35, slice(3, 11)


class Stores(Talks):
    """Talks about one question, of either helper. The stream is kept in each form that the depth has: `serve` reads one of these."""

    def __init__(self, program, records, depth, work):
        super().__init__(made(program, records, depth), depth, work)
        self.program, self.records = program, records
        self.forms = {self.word.partition(":")[0] if ":" in self.word else "PATH": self.word}
        others = {"text": "lines", "wide": "widen"}
        for form, verb in others.items():
            if form not in self.forms:
                run([*program, verb, self.word, depth], self.path(form))
                self.forms[form] = f"{form}:{self.path(form)}"

    def prepare(self, word):
        """Asks `help` once, and keeps what it replies; then it is known what is to be said to `serve`."""
        self.asked = word
        record = self.path("record")
        self.RECORD = (record,)
        wait([Child(words, os.devnull) for words in self.ends(self.program, [word])])
        self.RECORD = ("-",)
        it = question("queries", word, self.depth)
        version = version_needed(self.depth, [it])
        query = spelling(it.message(), version)
        with open(record, "rb") as file:
            self.replies = file.read()[7 + len(query) + 8 * self.depth :]
        with open(self.seed, "rb") as file:
            block = challenges(file.read(32), self.depth, 1)[0]
        reveals = [spelling(("Reveal", challenge), version) for challenge in block[:-1]]
        opening = spelling(("Open", version, self.depth), version) + spelling(("Recall", self.records), version)
        with open(self.path("said"), "w") as said:
            for part in (opening, query, *reveals, spelling(("Bye",), version)):
                print(part.hex(), file=said)

    def helped(self, **further):
        """A run of `help`, to which the stream is sent."""
        helper, verifier = self.ends(self.program, [self.asked])
        ends = [Child(helper, **further), Child(verifier)]
        wait(ends)
        return ends[0]

    def served(self, form, **further):
        """A run of `serve` over the stream in this form. It replies what `help` does."""
        to_helper, from_helper = self.fifos
        heard = self.path("heard")
        helper = Child([*self.program, "serve", self.forms[form], to_helper, from_helper], **further)
        words = [sys.executable, "-B", ASKER, to_helper, from_helper, self.path("said"), heard]
        wait([helper, Child(words)])
        with open(heard, "rb") as file:
            data = file.read()
        if int.from_bytes(data[COUNT], "big") != self.records or data[HELD:] != self.replies:
            raise SystemExit(f"serve replies to {self.asked} at depth {self.depth} what help does not")
        return helper


def measure(programs, settings, work):
    program = programs.sip()
    records = settings.records[0]
    print(f"\nserve, {records} records: ms of CPU of a helper and the most memory that it has, in KiB, beside those of help", flush=True)
    columns = ("help", "serve", "/help", "help KiB", "serve KiB", "/help")
    print(f"{'':26}" + "".join(f"{column:>11}" for column in columns))
    above = []
    for depth in settings.depths:
        stores = Stores(program, records, depth, work)
        for word in QUESTIONS:
            stores.prepare(word)
            above += beside(stores, word, settings.rounds)
    return above


def beside(stores, word, rounds):
    """The lines of a question: one for each form of the store. Tells what is above what is allowed."""
    helped, served = [], {form: [] for form in stores.forms}
    for _ in range(rounds):
        helped.append(stores.helped().cpu)
        for form, times in served.items():
            times.append(stores.served(form).cpu)
    peak = stores.helped(traced=True).peak
    above = []
    for form, times in served.items():
        line = f"{form:4} {stores.depth} {word.partition(':')[0]}"
        memory = stores.served(form, traced=True).peak
        time = min(times) / min(helped)
        cells = [f"{number:11.2f}" for number in (min(helped) * 1e3, min(times) * 1e3, time)]
        cells += [f"{peak:11}", f"{memory:11}", f"{memory / peak:11.2f}"]
        # Lines are read as text, which takes what it takes: `help` is sent records.
        limits = [("times the CPU time", time, MOST_TIME)] if form != "text" else []
        limits.append(("times the memory", memory / peak, MOST_MEMORY))
        found = [f"serve: {line} takes {ratio:.2f} {what} of help" for what, ratio, most in limits if ratio > most]
        print(line.ljust(26) + "".join(cells) + ("  above" if found else ""), flush=True)
        above += found
    return above
