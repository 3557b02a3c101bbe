"""Two streams of the same count, weights and fingerprint: whoever can choose records can make them,
since all of it is public. So what a helper says that it holds proves nothing, and nothing rests on
it: an honest one that holds another stream by mistake is told so before a seat is lost.

`python3 -B -m trying.twins` in the folder above looks for them again, in some seconds."""

from oracle.sketches import TOP, mixed

# Items of side 0: a record more of each of the first four, by 1, has the same fingerprint as one of
# each of the others.
TWINS = [30_726, 239_444, 384_809, 464_211], [651_317, 701_600, 858_122, 1_030_070]

# They are found in eight lists of so many items, by a sum of one of each that is 0 modulo 2^64: two
# lists at a time, up to the sums that have so many more zeros at their end (D. Wagner, A generalized
# birthday problem, 2002).
LISTS, BITS, ZEROS = 8, 17, (17, 17, 30)


def found():
    half = LISTS // 2
    lists = [
        [((mixed(item) if number < half else -mixed(item)) & TOP, (item,)) for item in items(number)]
        for number in range(LISTS)
    ]
    for zeros in ZEROS:
        lists = [joined(*pair, 1 << zeros) for pair in zip(lists[::2], lists[1::2])]
    first = min(picked for _, picked in lists[0])
    return list(first[:half]), list(first[half:])


def items(number):
    return range(number << BITS, number + 1 << BITS)


def joined(left, right, modulus):
    """The sums of one of each that this divides, divided by it."""
    by_rest = {}
    for value, picked in left:
        by_rest.setdefault(-value % modulus, []).append((value, picked))
    return [
        ((value + other) // modulus, before + picked)
        for value, picked in right
        for other, before in by_rest.get(value % modulus, ())
    ]


if __name__ == "__main__":
    if found() != TWINS:
        raise SystemExit("others were found")
