"""Talks of both ends about one lookup each, beside one about a sub-vector, in a vector of which no two records share an item."""

from bisect import bisect_left, bisect_right

from harness.streams import SIDES, distinct, put
from harness.tables import Table
from harness.talks import ITEMS, Talks

# A helper of one lookup may take as long as one of a sub-vector query, and what two runs of the same may differ by.
MOST_BESIDE = 1.05

PART = f"sub:0:{ITEMS - 1}"


class Lookups(Talks):
    HELPING, ASKING = "helplook", "lookup"
    RECORD = ()


def measure(programs, settings, work):
    programs = programs.talks()
    records = settings.records[0]
    table = Table(f"lookups in {records} records", "ms of CPU of an end, and the most memory that it has, in KiB", programs)
    above = []
    for depth in settings.depths:
        questions = questions_of(min(records, 1 << depth), depth, work)
        for _ in range(settings.rounds):
            for talks, word, answer in questions:
                for name, program in programs.items():
                    for end, child in zip((talks.HELPING, talks.ASKING), talks.answered(name, program, word, answer)):
                        table.saw(line_name(end, depth, word), name, child.cpu * 1e3)
        for talks, word, answer in questions:
            for name, program in programs.items():
                ends = talks.answered(name, program, word, answer, traced=True)
                for end, child in zip((talks.HELPING, talks.ASKING), ends):
                    table.note(line_name(end, depth, word), f"{name} KiB", child.peak)
        above += beside_a_query(table, questions, depth)
    table.show()
    return table.above + above


def line_name(end, depth, word):
    return f"{end:8} {depth} {word.partition(':')[0]}"


def questions_of(count, depth, work):
    """The talks about so many entries, each with its word and its answer: a sub-vector, and each lookup at the middle item."""
    values = {item: 1 + number % 8 for number, item in enumerate(distinct(count, depth))}
    write = put([(SIDES[0], item, value) for item, value in values.items()], depth)
    items = sorted(values)
    pairs = lambda found: " ".join(f"{item}:{values[item]}" for item in found) or "none"
    middle = 1 << (depth - 1)
    up_to, from_on = bisect_right(items, middle), bisect_left(items, middle)
    looks = Lookups(write, depth, work)
    return [
        (Talks(write, depth, work), PART, pairs(items[: bisect_left(items, ITEMS)])),
        (looks, f"index:{middle}", values.get(middle, 0)),
        (looks, f"pred:{middle}", pairs(items[:up_to][-1:])),
        (looks, f"succ:{middle}", pairs(items[from_on:][:1])),
    ]


def beside_a_query(table, questions, depth):
    """Notes how long the helper of a lookup takes beside that of the sub-vector, and tells where it is too long."""
    above = []
    query = table.least[line_name("help", depth, PART)]["sip"]
    for talks, word, _ in questions:
        if talks.HELPING != Lookups.HELPING:
            continue
        line = line_name(talks.HELPING, depth, word)
        beside = table.least[line]["sip"] / query
        table.note(line, "of help", f"{beside:.2f}")
        if beside > MOST_BESIDE:
            above.append(f"lookups: {line} takes {beside:.2f} times what a sub-vector query takes")
    return above
