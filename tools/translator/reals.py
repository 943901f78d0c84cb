"""REAL constants: how an old file has their two words, and how the run-time has them.

The run-time has the 32 bits of IEEE 754, the low word first. What a file has depends on the machine
that it is for, and does not say which: so it is an option.
"""


def low_first(words):
    return words


def high_first(words):
    return words[::-1]


def of_pdp(words):
    """The PDP-11's: the high word first, and an exponent that is 2 greater for the same number."""
    high, low = words
    exponent = (high >> 7 & 255) - 2
    if exponent <= 0:
        return [0, 0]
    return [low, high & 32768 | exponent << 7 | high & 127]


# Each takes the words in the order of memory, and gives those of the run-time in this order.
WORDS = {"low": low_first, "high": high_first, "pdp": of_pdp}
