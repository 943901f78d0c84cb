"""Compares what comes of a code file by the interpreter with what the program makes of the
translated one."""

import collections

from pcode.faults import Fault
from translator.program import translate
from translator.reading import read

from ..program import PROGRAM, must, ran
from .interpreter import interpreted
from .random_files import random_file

STEPS = 20000  # of the interpreter; a file that takes more is passed over
MANY = 50000000  # of the program


def kind_of(ending):
    return "error" if "error" in ending else ending


def run(data, given):
    """What a new code file writes, and how it ends."""
    with open("new.code", "wb") as file:
        file.write(data)
    done = ran([PROGRAM, "run", "new.code", "--steps", str(MANY)], given)
    return done.stdout, done.stderr.decode().strip() or "normal"


def compare(seed):
    """How a random file ends, or why it is refused. It is an error if the two differ."""
    data, order, given = random_file(seed)
    output, ending = interpreted(data, given, STEPS, order)
    if ending == "steps":
        return "more steps than are tried"
    try:
        made = translate(read(data, "random.code"))
    except Fault as fault:
        return f"refused: {fault}"
    found, end = run(made.data, given)
    if ending == "error 10":  # the run-time says first what was wrong
        found = found[:len(output)]
    is_same = found == output and kind_of(end) == kind_of(ending)
    must(is_same, f"the random file {seed} ends with {ending} and {output[-60:]!r}, and translated "
         f"with {end} and {found[-60:]!r}")
    return kind_of(ending)


def compare_all(first, count):
    """Compares so many files; answers how they ended."""
    return collections.Counter(compare(seed) for seed in range(first, first + count))
