"""The field, and the limits of numbers."""

# Arithmetic is that of whole numbers modulo this prime.
P = 2**61 - 1

# The greatest absolute value of a claim or an entry.
HALF = (P - 1) // 2

# The greatest weight of a side: the sum of the absolute values of its deltas.
WEIGHT = 2**30 - 1

# The most entries of a sub-vector, and the most times that a threshold may go into a total.
WIDEST = 65_536


def inverse(x):
    return pow(x, P - 2, P)
