"""Tables of least times, with a ratio to the yardstick and one to the limit in each line."""

# The most that a line of sip may take of the yardstick's, and of what the program of another commit takes.
MOST_RATIO, MOST_OF_OLD = 1.5, 1.05


class Table:
    """A line has a name, and for each program the least of what was seen."""

    def __init__(self, title, unit, programs):
        self.title = title
        self.unit = unit
        self.programs = list(programs)
        self.least = {}
        self.most = {}
        self.notes = {}
        self.above = []

    def saw(self, name, program, number):
        line = self.least.setdefault(name, {})
        line[program] = min(number, line.get(program, number))

    def hold(self, name, most):
        """Holds a line to so many times the limit's."""
        self.most[name] = most

    def note(self, name, heading, text):
        """A further column of a line."""
        self.notes.setdefault(name, {})[heading] = str(text)

    def show(self):
        headings = list(dict.fromkeys(heading for notes in self.notes.values() for heading in notes))
        old = ["old", "old/sip"] if "old" in self.programs else []
        columns = ["sip", "plain", "limit", "/plain", "/limit", *old]
        print(f"\n{self.title}: {self.unit}", flush=True)
        print(f"{'':26}" + "".join(f"{column:>9}" for column in columns) + "".join(f"  {heading:>13}" for heading in headings))
        for name, least in self.least.items():
            self.show_line(name, least, headings)

    def show_line(self, name, least, headings):
        sip, plain, limit, old = (least.get(program) for program in ("sip", "plain", "limit", "old"))
        cells = [sip, plain, limit, times(sip, plain), times(sip, limit)]
        if old is not None:
            cells += [old, times(old, sip)]
        notes = [f"  {self.notes.get(name, {}).get(heading, '-'):>13}" for heading in headings]
        found = self.found(name, least)
        notes += [f"  above {most}{of}" for _, most, of in found]
        print(f"{name:26}" + "".join(f"{cell:9.2f}" for cell in cells) + "".join(notes), flush=True)
        self.above += [f"{self.title}: {name} takes {ratio:.2f} times as long, and {most}{of} is the most" for ratio, most, of in found]

    def found(self, name, least):
        """What the line is above: its ratio, the most that it may be, and to what."""
        held = [("plain", MOST_RATIO, ""), ("limit", self.most.get(name), " of limit"), ("old", MOST_OF_OLD, " of old")]
        ratios = [(times(least["sip"], least[program]), most, of) for program, most, of in held if most and program in least]
        return [(ratio, most, of) for ratio, most, of in ratios if ratio > most]


def times(number, other):
    return number / other if other else float("inf")
