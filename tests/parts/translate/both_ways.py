"""Pascal that goes both ways: compiled to a code file of pgroup, and compiled to an old code file
that is translated. Both have to write the same, and to end alike."""

import collections
import os

from compiler.program import Options, compile_text
from pcode.faults import Fault
from translator.program import Choices, translate
from translator.reading import read

from ..checks import passed
from ..compile import limits, old_programs
from ..compile.programs import PROGRAMS
from ..compile.random_files import random_file_program
from ..compile.random_programs import random_program
from ..compile.trial import CASES
from ..compile.units import INLINE, STACK, TOP, USES
from ..files import bytes_of
from ..program import TOP as REPOSITORY
from ..program import PROGRAM, must, ran
from .backend import NoOldCode, old_code
from .comparing import kind_of, run
from .interpreter import interpreted

EXAMPLES = os.path.join(REPOSITORY, "examples")
# Programs for which the old way has nothing, with the reason that the back end gives.
WITHOUT = {
    "REWRITE without a name", "WRITEBOOLEAN to a file", "no places of a REAL", "too many jumps",
    "READLONG of the library", "too many procedures",
}
# ADJ cuts an element that a set has not, and the compiler's own way is an execution error.
OTHERWISE = {"error 1: an element that a set has not"}
# What the interpreter has otherwise: address 0, the size of the heap, backspaces, names of devices
# and of files, windows of texts, and what is said in front of error 10.
APART = OTHERWISE | {
    "NIL", "a full heap", "a backspace takes a character back", "RESET of the console's names",
    "files of other names", "a file that is not open", "names have no case, volume and size",
    "INPUT^ is what was read last, and GET reads", "EOLN and EOF look ahead in a text",
    "characters of a text by its window", "a file that is not there",
    "a text is shown in the middle of files",
}
STEPS = 200000  # of the interpreter


def texts():
    """The Pascal of the repository's tests: a name, a text, its file and an input."""
    for name, declarations, statements, given, _, _ in CASES:
        yield name, f"PROGRAM T;\n{declarations}\nBEGIN\n{statements}\nEND.\n", "t.pas", given
    for name, text, given, _ in limits.accepted():
        yield name, text, "t.pas", given
    for name, given, _, _ in PROGRAMS:
        path = os.path.join(EXAMPLES, name)
        yield name, bytes_of(path).decode("latin-1"), path, given
    for name, (given, _) in old_programs.PROGRAMS:
        path = os.path.join(EXAMPLES, "old", f"{name}.pas")
        yield name, bytes_of(path).decode("latin-1"), path, given
    for name, text in (("units", USES), ("a unit in a program", INLINE)):
        yield name, text, "t.pas", ""


def judged(name, old, given, direct):
    """What the interpreter says of the old code: `and interpreted`, if it can do it."""
    output, ending = interpreted(old, given, STEPS)
    if ending == "steps" or "procedure" in ending or name in APART:
        return ""
    is_same = output == direct[0] and kind_of(ending) == kind_of(direct[1])
    must(is_same, f"{name}: {direct} is interpreted as {output} and {ending}")
    return ", and interpreted"


def both(name, text, file, given):
    """`same`, or why there is no old code. It is an error if the two ways differ."""
    given = given.encode("latin-1")
    try:
        old = old_code(text, file)
    except NoOldCode as reason:
        must(str(reason) in WITHOUT, f"{name}: there is no old code: {reason}")
        return f"without old code ({reason})"
    direct = run(compile_text(text, file).data, given)
    try:
        made = translate(read(old, "old.code"))
    except Fault as fault:
        must(False, f"{name} is refused: {fault.place}: {fault}")
    found = run(made.data, given)
    is_same = found[0] == direct[0] and kind_of(found[1]) == kind_of(direct[1])
    must(is_same or name in OTHERWISE, f"{name}: {direct} becomes {found}")
    if not is_same:
        return "otherwise, as is known"
    return "same" + judged(name, old, given, direct)


def told(counts):
    return "; ".join(f"{number} {what}" for what, number in sorted(counts.items()))


def try_pascal(step):
    """The programs of the repository's tests, or each so many-th of them."""
    for unit, text in (("stack", STACK), ("top", TOP)):
        with open(f"{unit}.pas", "w", encoding="latin-1") as file:
            file.write(text)
    some = list(texts())[::step]
    counts = collections.Counter(both(*it) for it in some)
    passed(f"of {len(some)} Pascal programs both ways: {told(counts)}")


def random_text(seed):
    """A random program and its input; its units are written beside it."""
    if seed % 4:
        program = random_program(seed)
    else:
        program = random_file_program(seed)
        for unit, text in program.others.items():
            with open(f"{unit.lower()}.pas", "w", encoding="latin-1") as file:
                file.write(text)
    return program.ucsd, program.given


def try_random_pascal(first, count):
    """Random programs: each fourth has REALs, files and a unit."""
    counts = collections.Counter()
    for seed in range(first, first + count):
        text, given = random_text(seed)
        try:
            counts[both(f"the random program {seed}", text, "t.pas", given)] += 1
        except Exception as fault:  # one that breaks a rule by what is known is not compiled
            if type(fault).__name__ != "Refused":
                raise
            counts["not compiled"] += 1
    passed(f"of {count} random Pascal programs both ways: {told(counts)}")


# Sizes and steps

MOST = 2

def steps_of(data, given):
    """How many steps a program takes: with one more it ends as it does without a limit."""
    with open("steps.code", "wb") as file:
        file.write(data)
    low, high = 0, 1 << 31
    while low < high:
        middle = (low + high) // 2
        done = ran([PROGRAM, "run", "steps.code", "--steps", str(middle)], given)
        low, high = (middle + 1, high) if done.returncode == 4 else (low, middle)
    return low - 1


def size_of(data):
    return int.from_bytes(data[6:8], "little")


def try_sizes():
    """No example is larger or takes more steps than twice what it does when compiled directly."""
    names = dict((name, given) for name, given, _, _ in reversed(PROGRAMS))
    names.update((f"old/{name}.pas", given) for name, (given, _) in old_programs.PROGRAMS)
    worst = 0
    for name, given in names.items():
        size, made_size, steps, made_steps = measured(name, given)
        worst = max(worst, made_size / size, made_steps / steps)
        must(worst <= MOST, f"{name}: {made_size} bytes for {size}, {made_steps} steps for {steps}")
    passed(f"{len(names)} examples that are translated are at most {worst:.2f} times as large, and "
           "take as many steps")


def measured(name, given):
    """The bytes and the steps of an example by both ways."""
    path = os.path.join(EXAMPLES, name)
    text = bytes_of(path).decode("latin-1")
    direct = compile_text(text, path, Options()).data
    old = translate(read(old_code(text, path), name), Choices()).data
    given = given.encode("latin-1")
    return size_of(direct), size_of(old), steps_of(direct, given), steps_of(old, given)
