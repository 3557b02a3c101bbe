"""Worked examples of a sketch by hand: its bytes, what adds up, and where bytes are none. The seed
is 32 zero bytes, the depth 2, and the stream 0 0 3, 0 2 5, 0 3 1."""

from oracle.field import P, WEIGHT
from oracle.sketches import Bad, begun, listing, numbers, read, spelled, stands, watched
from oracle.streams import vectors
from oracle.sums import Unlike, summed

from .examples import same

STREAM = [(0, 0, 3), (0, 2, 5), (0, 3, 1)]
ENTRIES, SUMS, HEAVY = 1, 2, 5

BYTES = bytes.fromhex(
    "5349504b 01 02 00000001 00000001 00000001 0000000000000009 0000000000000000"
    "0000000000000003 00 b8261ae7db4fab00 02"
    "01 00 1207be3415bc170e 0517b0ca7cad4ba8 0862b3b8b01c7e21 0000000000000000"
    "02 00 035db1b417033a57 18e1aef1799de6d5 05f4ed565388ba7b 0000000000000000"
    "53a7f34491198a391b46471c9e7fef22dbf4b0c314e9c2196b726fa14c715b1f"
)
EMPTY_DIGEST = "a07e805e180ed0c471a8fb79f50e7ac62461a5bbf3daac5ab60151712892e9e5"
USED_DIGEST = "5b713ec80a21a3cbb6e9fafab4619c3a7badd422da5887d05ab43e7cfdccf64f"

# Where other bytes are put into these, and at which byte these are no sketch then.
CHANGES = [
    (4, 1, 2, 4), (5, 1, 49, 5), (10, 4, 2, 10), (14, 4, 0, 14), (18, 8, 2**30, 18),
    (34, 8, 10, 34), (42, 1, 2, 42), (51, 1, 0, 51), (52, 1, 9, 52), (53, 1, 2, 53),
    (54, 8, P, 54), (78, 8, 1, 78), (53, 1, 1, 120),
]  # fmt: skip
CUTS = [(0, 0), (3, 3), (78, 78), (151, 120)]

LISTING = """depth 2
parts 1 to 1 of 1
records 3 weights 9 0 fingerprint b8261ae7db4fab00
negatives none
seat 1 entries used
seat 2 sums:0 unused
"""


def bad_at(data):
    try:
        read(data)
    except Bad as bad:
        return bad.at
    return None


def why(sketch, *parts):
    try:
        summed(sketch, parts)
    except Unlike as unlike:
        return unlike.part, unlike.why
    return None


def part_of(number, updates):
    return watched(begun(bytes(32), 2, number, 2, [ENTRIES]), updates)


def hold():
    empty = begun(bytes(32), 2, 1, 1, [ENTRIES, SUMS])
    kept = watched(empty, STREAM)
    same("the digest of an empty sketch", spelled(empty)[-32:].hex(), EMPTY_DIGEST)
    same("the bytes of a sketch", spelled(kept).hex(), BYTES.hex())
    same("the sketch of the bytes", read(BYTES), kept)
    used = kept._replace(seats=(kept.seats[0]._replace(used=True), kept.seats[1]))
    same("the digest of a used sketch", spelled(used)[-32:].hex(), USED_DIGEST)
    same("the listing of a sketch", listing(used).decode(), LISTING)
    more = watched(used, [(0, 1, 2)])
    same("a used seat", more.seats[0], used.seats[0])
    same("a seat behind a record more", more.seats[1].first, 0x094599DDCC3C66CD)
    same("the fingerprint behind it", more.fingerprint, 0xDA3A76C0ED546482)
    check_bytes()
    check_sums()
    check_numbers()


def check_bytes():
    for at, size, number, where in CHANGES:
        changed = BYTES[:at] + number.to_bytes(size, "big") + BYTES[at + size :]
        same(f"{number} at {at}", bad_at(changed), where)
    for size, where in CUTS:
        same(f"the first {size} bytes", bad_at(BYTES[:size]), where)
    same("a byte more", bad_at(BYTES + b"\0"), len(BYTES))
    counted = spelled(watched(begun(bytes(32), 2, 1, 1, [HEAVY]), STREAM))
    same("a total", int.from_bytes(counted[78:86], "big"), WEIGHT + 9)
    less = counted[:78] + (WEIGHT + 8).to_bytes(8, "big") + counted[86:]
    same("a total that is less", bad_at(less), 78)


def check_sums():
    one, two = part_of(1, STREAM[:2]), part_of(2, STREAM[2:])
    same("the fingerprint of part 1", one.fingerprint, 0x9B1B0603004E1B13)
    same("the fingerprint of part 2", two.fingerprint, 0x1D0B14E4DB018FED)
    whole = summed(None, (one, two))
    alone = watched(begun(bytes(32), 2, 1, 1, [ENTRIES]), STREAM)
    same("a sum", (whole.seats, whole.fingerprint), (alone.seats, alone.fingerprint))
    same("a sum of one part twice", why(None, one, one), (2, "NotNext"))
    same("a sum in another order", why(None, two, one), (2, "NotNext"))
    same("a sum of fewer parts", why(whole, one), (1, "Missing"))
    same("a sum of a sum", why(None, whole), (1, "Whole"))
    half, less = part_of(1, [(0, 0, 2**29)]), part_of(2, [(0, 0, 2**29 - 1)])
    same("the greatest weight", why(None, half, less), None)
    same("a weight above it", why(None, half, part_of(2, [(0, 0, 2**29)])), (2, "Heavy(0)"))
    asked = whole._replace(seats=(whole.seats[0]._replace(used=True),))
    same("a seat that was asked", summed(asked, (one, two)).seats[0].used, True)


# A stream with both sides, numbers below 0, and an entry that goes back to 0.
MIXED = [(0, 0, 3), (1, 5, 9), (0, 2, 5), (1, 5, -2), (0, 7, -4), (0, 2, -5), (1, 0, 1)]
KINDS = [1, 2, 3, 4, 5, 6]


def weighted(entries, block):
    """What the seats have of a side, as sums over its entries: its root, its extension, and the
    hash of its tree with counts."""
    root = extension = hash_ = 0
    for item, value in entries.items():
        in_root = in_extension = in_hash = 1
        for bit, r in enumerate(block):
            is_right = item >> bit & 1
            in_root *= r if is_right else 1
            in_extension *= r if is_right else 1 - r
            in_hash = in_hash * r**2 + r**3 if is_right else in_hash + r
        root += value * in_root
        extension += value * in_extension
        hash_ += value * in_hash
    return root % P, extension % P, hash_ % P


def check_numbers():
    """Folds of whole vectors are sums over their entries, and what is added up stands."""
    both = vectors(MIXED)
    for block in ([2, 10, 5], [P - 1, 0, 7], [1207, P - 8, 3]):
        (root, first, hash_), (_, second, other) = (weighted(v.entries, block) for v in both)
        wanted = [
            (root, 0), (first, 0), (second, 0), (first, second),
            (hash_, WEIGHT + both[0].total), (other, WEIGHT + both[1].total),
        ]  # fmt: skip
        same(f"seats at {block}", [numbers(kind, block, both) for kind in KINDS], wanted)
    empty = sketch = begun(bytes(range(32)), 3, 1, 1, KINDS)
    for at, update in enumerate(MIXED, 1):
        sketch = watched(sketch, [update])
        same(f"a sketch of {at} records", sketch, watched(empty, MIXED[:at]))
        same(f"a sketch of {at} records stands", stands(sketch, MIXED[:at]), True)
    same("a sketch of another stream", stands(sketch, MIXED[:-1]), False)
    begins = (begun(bytes(32), 3, part, 2, KINDS) for part in (1, 2))
    parts = [watched(*pair) for pair in zip(begins, (MIXED[:4], MIXED[4:]))]
    same("a sum stands", stands(summed(None, parts), MIXED), True)
