"""Both ends of a talk beside those of an older program, which has to take some times as long, and whose verifier has to hold as much memory of its own at
least."""

from harness.talks import Talks, made, parts

# How many times the CPU time of an end the base takes at least.
LEAST_GAIN = {"help": 6, "verify": 4}

# The base has no greater depth.
MOST_DEPTH = 32


def measure(programs, settings, work):
    programs = programs.base()
    if programs is None:
        print("nothing is compared with a base: BASE is not given")
        return []
    records = settings.records[0]
    print(f"\nbase, talks of one query about {records} records: ms of CPU of an end")
    print(f"{'':26}" + "".join(f"{column:>9}" for column in ("sip", "base", "base/sip", "at least")), flush=True)
    slow = []
    for depth in settings.depths:
        if depth <= MOST_DEPTH:
            talks = Talks(made(programs["sip"], records, depth), depth, work)
            for end, least in least_times(talks, programs, settings.rounds).items():
                slow += show(f"{end:6} {depth}", least, LEAST_GAIN[end])
            slow += show_memory(f"verify {depth}", own_memory(talks, programs))
    return slow


def least_times(talks, programs, rounds):
    """The least times of each end, in ms, by the program."""
    least = {end: {} for end in LEAST_GAIN}
    for _ in range(rounds):
        for name, program in programs.items():
            for end, child in zip(LEAST_GAIN, talks.talk(name, program, parts(1))):
                least[end][name] = min(child.cpu * 1e3, least[end].get(name, float("inf")))
    return least


def own_memory(talks, programs):
    """What the verifier holds at its end that is its own, in KiB, by the program. What is mapped of the program's file and of libraries isn't in it."""
    return {name: talks.talk(name, program, parts(1), traced=True)[1].own for name, program in programs.items()}


def show_memory(line, own):
    is_above = own["sip"] > own["base"]
    print(f"{line + ', own KiB':26}{own['sip']:9}{own['base']:9}" + ("  above" if is_above else ""), flush=True)
    return [f"base: {line} holds {own['sip']} KiB of its own, and the base {own['base']}"] if is_above else []


def show(line, least, wanted):
    gain = least["base"] / least["sip"]
    is_below = gain < wanted
    cells = f"{least['sip']:9.2f}{least['base']:9.2f}{gain:9.2f}{wanted:9}"
    print(f"{line:26}{cells}" + ("  below" if is_below else ""), flush=True)
    return [f"base: {line} takes {gain:.2f} times less than the base, and {wanted} are wanted"] if is_below else []
