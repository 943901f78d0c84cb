"""Programs at the limits are frozen, and those beyond them are refused."""

import random

from freezer import copies
from freezer.refused import Refused

from ..checks import passed
from ..program import must
from . import odd_programs as odd

KEYS = b"abcdefgh"
TEXT = b"The lamp is out. You are in a maze of twisty passages, all alike. "


def noise(size, seed=5):
    return random.Random(seed).randbytes(size)


def deep_cases():
    for params, data, depth in ((1, 14, 1022), (0, 0, 1022), (3, 0, 600)):
        keys = noise(depth).replace(b".", b"!")
        cuts = [3, depth // 2, depth, depth + 1, depth + 3]
        yield (f"{depth} calls of {params} and {data} words", odd.deep(params, data),
               keys + b"." + keys[:5] + b"..", cuts)
    yield "calls beyond 1,024", odd.deep(0, 0), b"a" * 1023 + b".", [1020, 1022]


def memory_cases():
    size = min(2 * 16380 - 4, odd.LENGTH)
    for what, given in (("noise", noise(size)), ("text", (TEXT * 500)[:size]),
                        ("zeros", bytes(size)), ("ones", b"\xff" * size)):
        yield (f"memory of {what}", odd.full_memory(16380), given + b"\1\2\3",
               [size // 3, size, size + 1])
    # The code of which a full memory is frozen only if it is packed.
    code = odd.full_memory(16380, odd.padding(26000))
    yield "packed memory", code, noise(size, 6) + b"\1\2\3", [size // 3, size - 1, size + 2]


def quick_cases():
    yield next(deep_cases())
    yield list(memory_cases())[-1]
    yield "a stack of 1018 words", odd.full_stack(1018), b"ab", [0, 1]
    yield "60 far targets", odd.full_table(60), KEYS, [0, 3]
    yield "60 procedures under way", odd.chain(60), KEYS, [0, 5]


def cases():
    yield from deep_cases()
    yield from memory_cases()
    for words in (10, 1018):
        yield f"a stack of {words} words", odd.full_stack(words), b"ab", [0, 1]
    for targets in (30, 60):
        yield f"{targets} far targets", odd.full_table(targets), KEYS, [0, 3, 5]
    for count in (60, 128):
        yield f"{count} procedures under way", odd.chain(count), KEYS, [0, 3, 5]


def try_limits(cuts, is_long):
    count = 0
    for name, data, given, places in cases() if is_long else quick_cases():
        try:
            cuts.try_program(data, given, places)
        except (AssertionError, Refused) as why:
            must(False, f"{name}: {why}")
        count += 1
    passed(f"{count} programs at the limits, of which none differs")


def with_full_tables(test):
    """Does something as if each jump table were full."""
    kept, copies.MOST_FAR = copies.MOST_FAR, 0
    try:
        test()
    finally:
        copies.MOST_FAR = kept
