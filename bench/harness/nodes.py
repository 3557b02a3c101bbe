"""The check of heavy hitters by the node: the verifier's instructions and memory, for answers of few and of many nodes."""

import struct

from harness.programs import valgrind
from harness.settings import record_size
from harness.talks import Talks

# How many heavy entries there are. They lie evenly, so that there are about 1,000, 10,000 and 100,000 nodes.
HEAVY = {20: (32, 512, 8192), 32: (16, 256, 2048), 48: (11, 140, 1280)}

# The value of each of them, which is the threshold.
AT_LEAST = 1000

# An answer of more nodes may take so many times the instructions of one with few, for each node.
MOST_GROWTH = 1.1

# The bytes of a space for each node of a level, and what may lie beside it.
SPACE, BESIDE = 64, 64 * 1024


class Answer:
    """Heavy entries that lie evenly, and no others."""

    def __init__(self, count, depth):
        self.count = count
        self.depth = depth
        self.items = [i * (1 << depth) // count for i in range(count)]

    def write(self, path):
        layout = ">BIq" if record_size(self.depth) == 13 else ">BQq"
        with open(path, "wb") as stream:
            for item in self.items:
                stream.write(struct.pack(layout, 0, item, AT_LEAST))

    def nodes(self):
        """The nodes of all levels below the root: both children of each that is heavy."""
        return sum(2 * len({item >> level for item in self.items}) for level in range(1, self.depth + 1))

    def most(self):
        """The most nodes that a level can have, for which a space is reserved."""
        return 2 * self.count

    def pairs(self):
        """The answer, as a report has it."""
        return " ".join(f"{item}:{AT_LEAST}" for item in self.items)

    def asked(self):
        return f"heavy:0:{AT_LEAST}"

    def unasked(self):
        """A query that changes nothing but that there is no answer: the threshold is above the total."""
        return f"heavy:0:{AT_LEAST * self.count + 1}"


def measure(programs, settings, work):
    if not valgrind():
        return []
    programs = programs.talks()
    print("\nnodes of heavy hitters: the verifier's instructions/mispredictions a node, and the bytes that it takes for the query")
    print(f"{'':26}" + "".join(f"  {name:>13}" for name in programs) + f"{'sip bytes':>12}{'space':>12}", flush=True)
    above = []
    for depth in settings.depths:
        first = None
        for count in HEAVY[depth]:
            answer = Answer(count, depth)
            talks = Talks(answer.write, depth, work)
            counts = {name: counted(talks, answer, name, program) for name, program in programs.items()}
            first = first or counts["sip"]
            above += show(answer, counts, first, taken(talks, answer, programs["sip"]))
    return above


def counted(talks, answer, name, program):
    """What the verifier executes for a node."""
    talks.answered(name, program, answer.asked(), answer.pairs())
    whole, without = (talks.count(program, [word], 1) for word in (answer.asked(), answer.unasked()))
    return whole.less(without).by(answer.nodes())


def taken(talks, answer, program):
    """The bytes that a verifier takes for the query."""
    words = answer.asked(), answer.unasked()
    whole, without = (talks.talk("sip", program, [word], traced=True)[1].peak for word in words)
    return (whole - without) * 1024


def show(answer, counts, first, taken):
    line = f"verify {answer.depth} {answer.nodes():7} nodes"
    space = SPACE * answer.most()
    grows = counts["sip"].instructions > MOST_GROWTH * first.instructions
    is_large = taken > space + BESIDE
    cells = "".join(f"  {str(count):>13}" for count in counts.values())
    print(f"{line:26}{cells}{taken:12}{space:12}" + ("  above" if grows or is_large else ""), flush=True)
    above = []
    if grows:
        above.append(f"nodes: {line} take {counts['sip']} a node, and few nodes take {first}")
    if is_large:
        above.append(f"memory: {line} take {taken} bytes, and the space for them has {space}")
    return above
