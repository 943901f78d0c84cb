"""The examples, with words that are typed at random."""

import os
import random

from ..checks import passed
from ..files import bytes_of
from ..program import TOP

NAMES = ("adventure", "ledger", "four", "hello", "calculator", "echo", "sorter", "calendar",
         "towers", "terminal/answer")
WORDS = ("NORTH SOUTH EAST WEST UP DOWN LOOK TAKE LAMP DROP KEY OPEN DOOR INVENTORY HELP N S E W I "
         "GO ADD PAY LIST SUM 12 7 3 -5 Y NO 1 2 4 5 6 JOHN RENT 100 250 QUIT0 3+4*(2-1) 17/3 X")
ENDS = (b"\n", b"\n", b"\r", b"\x7f\x7f\n", b"\n\n")


def path_of(name):
    return os.path.join(TOP, "examples", f"{name}.code")


def typed(source, count):
    """At least so many keys of random words and lines."""
    keys, words = bytearray(), WORDS.split()
    while len(keys) < count:
        line = " ".join(source.choice(words) for _ in range(source.choice([1, 1, 2, 3])))
        keys += line.encode() + source.choice(ENDS)
    return bytes(keys)


def try_examples(cuts, seed, times):
    """Each example so many times, cut at three keys, and once at twenty."""
    source = random.Random(seed)
    for name in NAMES:
        data = bytes_of(path_of(name))
        for _ in range(times):
            given = typed(source, source.choice([20, 60, 300]))
            cuts.try_program(data, given, sorted(source.choices(range(len(given)), k=3)))
        cuts.try_program(data, typed(source, 800), range(0, 800, 40 if times > 1 else 200))
    passed(f"{len(NAMES)} examples that are frozen write the same and end the same")
