"""What `pgroup state` prints, beside a second interpreter; and odd p-code that is frozen."""

import collections
import random

from freezer.refused import Refused

from ..checks import passed
from ..files import bytes_of
from ..program import PROGRAM, must, ran
from . import examples, pascal
from .cuts import put
from .machine import state_text
from .odd import odd_file

STEPS = 3000  # of the interpreter; a program that takes more is passed over


def compare(name, data, given, most=STEPS):
    """How the program ends, or why it was passed over."""
    wanted = state_text(data, given, most)
    if wanted is None:
        return "take more steps"
    # It leads from an XJP past its UJP, which is a step.
    done = ran([PROGRAM, "state", put(data), "--steps", str(2 * most)], given)
    found = done.stdout.decode()
    if wanted != found or done.returncode or done.stderr:
        lines = [(one[:200], other[:200]) for one, other in
                 zip(wanted.splitlines(), found.splitlines()) if one != other]
        must(False, f"{name}: {lines[:3]} {done.returncode} {done.stderr[:200]}")
    return wanted.split("\n", 2)[1].partition(" procedure")[0]


def is_loaded(data):
    return ran([PROGRAM, "check", put(data)]).returncode == 0


def tell(what, counts):
    told = ", ".join(f"{number} {ends}" for ends, number in sorted(counts.items()))
    passed(f"{what}, as a second interpreter has it: {told}")


def try_odd_states(first, count):
    counts = collections.Counter()
    for seed in range(first, first + count):
        data, given = odd_file(seed)
        ends = compare(f"odd {seed}", data, given) if is_loaded(data) else "not loaded"
        counts[ends] += 1
    must(counts["ends waits"] and counts["ends error 7"], f"odd programs: {counts}")
    tell("the state of odd programs", counts)


def try_states(first, count):
    """Examples, and random programs in Pascal."""
    counts, source = collections.Counter(), random.Random(first)
    for name in examples.NAMES:
        data = bytes_of(examples.path_of(name))
        counts[compare(name, data, examples.typed(source, 40), 100 * STEPS)] += 1
    for seed in range(first, first + count):
        found = pascal.compiled(seed)
        if found:
            given = found[1][:source.randrange(len(found[1]) + 1)]
            counts[compare(f"the random program {seed}", found[0], given, 100 * STEPS)] += 1
    tell("the state of compiled programs", counts)


def try_odd_cuts(cuts, first, count):
    """Odd programs that are frozen."""
    counts = collections.Counter()
    for seed in range(first, first + count):
        data, given = odd_file(seed)
        text = state_text(data, given, STEPS) if is_loaded(data) else None
        if text is None:
            continue
        source = random.Random(f"cuts/{seed}")
        places = sorted(source.choices(range(len(given) + 1), k=source.choice([1, 2, 4])))
        try:
            cuts.try_program(data, given, places)
            counts["compared"] += 1
        except Refused as why:
            must(why.name == "overlap", f"odd {seed}: {why}")
            counts["refused"] += 1
        except AssertionError as why:
            must(False, f"odd {seed}: {why}")
    told = ", ".join(f"{number} {what}" for what, number in sorted(counts.items()))
    passed(f"odd programs that are frozen: {told}")
