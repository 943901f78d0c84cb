"""Bytes of a frozen file that are changed: the loader refuses the file, or the check does, or the
file does the same as before. `pgroup frozen` accepts all that the check does, and nothing that
does anything else: of an RBP, which ends the program, it passes over the operand."""

import collections
import random

from freezer.code import Code
from freezer.freezing import freeze
from freezer.making import checked
from freezer.refused import Refused
from freezer.state import state_after

from ..checks import passed
from ..files import bytes_of
from ..program import PROGRAM, must, ran
from .cuts import is_proved, put
from .examples import path_of, typed

NAMES = ("adventure", "ledger", "four", "hello", "calculator")
STEPS = 3000000
BEFORE = 200  # bytes of the original segment that are changed as often as those behind it


def run(data, given):
    done = ran([PROGRAM, "run", put(data, "run.code"), "--steps", str(STEPS)], given)
    return done.stdout, done.stderr


def waiting(data, source):
    """Keys after which a program waits, and its configuration."""
    for size in (120, 30, 30, 30, 5, 5, 0):
        given = typed(source, size)
        state = state_after(PROGRAM, put(data), given)
        if state.ends == "waits":
            return given, state
    raise AssertionError("the program does not wait")


def changed(source, made, length, size):
    """The file with another byte in its segment."""
    first = 512 + max(0, length - BEFORE) if source.random() < 0.8 else 512
    at = source.randrange(first, 512 + size)
    byte = source.choice([made[at] ^ 1 << source.randrange(8), source.randrange(256)])
    return made[:at] + bytes([byte]) + made[at + 1:]


def what_of(data, state, it):
    """Who refuses a changed file: `loader` or `check`. None if nobody does."""
    if ran([PROGRAM, "check", put(it, "changed.code")]).returncode:
        return "loader"
    try:
        checked(PROGRAM, data, it, state)
    except Refused:
        return "check"
    return None


def try_changed(seed, count):
    source, counts = random.Random(seed), collections.Counter()
    for name in NAMES:
        data = bytes_of(path_of(name))
        given, state = waiting(data, source)
        made = freeze(data, state)
        length = len(Code(data).code)
        size = int.from_bytes(made[6:8], "little")
        rests = [typed(source, 150) for _ in range(2)]
        wanted = [run(made, it) for it in rests]
        for _ in range(count):
            it = changed(source, made, length, size)
            if it == made:
                continue
            who = what_of(data, state, it)
            accepted = who != "loader" and is_proved(data, given, it)
            if who is None:
                must(accepted, f"{name}: pgroup frozen refuses what freeze accepts")
            if accepted:
                must([run(it, rest) for rest in rests] == wanted, f"{name}: a changed byte passes")
            counts[who or "harmless"] += 1
            counts["accepted by pgroup frozen"] += accepted
    must(counts["loader"] and counts["check"], f"nothing is refused by both: {counts}")
    told = ", ".join(f"{number} {who}" for who, number in sorted(counts.items()))
    passed(f"{len(NAMES) * count} bytes of frozen files: {told}")
