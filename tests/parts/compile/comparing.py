"""Compares random programs with Free Pascal, for tests/pascal."""

import collections
import json
import os
import random
import sys

from compiler.program import Options, Refused, compile_text

from . import file_cases, free_pascal, limits, longs, real_cases, reals
from .cases import CASES
from .random_files import random_file_program
from .random_programs import random_program

# Faults of a program that are known to a compiler: what the program would have done is not tried.
KNOWN = ("divides by 0", "is outside")
TOLD, REALS = 60, 600  # random programs and operations that are tried on each planted fault


def data_of(program, seed):
    """The code file of a random program; None where it breaks a rule by what is known."""
    try:
        return compile_text(program.ucsd, f"{seed}.pas", Options(is_echoed=False)).data
    except Refused as refused:
        fault = refused.faults[0]
        if any(part in str(fault) for part in KNOWN):
            return None
        return sys.exit(f"tests/pascal: program {seed} is refused: {fault.place}: {fault}")


def write(room, name, data):
    with open(os.path.join(room, name), "wb") as file:
        file.write(data)
    return os.path.join(room, name)


def results(room, running, seeds):
    """For each random program what it is, what Free Pascal says, and what comes of the code file,
    which `running` has the words for. None is said of one that a compiler does not take."""
    for seed in seeds:
        program = random_program(seed)
        given = program.given.encode()
        write(room, "random.pas", program.free.encode())
        data = data_of(program, seed)
        wanted = found = None
        if data:
            found = free_pascal.run_code(running(write(room, "random.code", data)), given)
            try:
                wanted = free_pascal.run_free(free_pascal.built(room, "random"), given)
            except free_pascal.Refused:
                pass
        yield seed, program, wanted, found


def compare(room, running, first, count, differing):
    """Compares so many random programs, and prints how they ended. `differing` tells of two
    outputs that differ, and ends."""
    ends = collections.Counter()
    for seed, program, wanted, found in results(room, running, range(first, first + count)):
        if wanted is not None and found != wanted:
            print(program.ucsd, file=sys.stderr)
            differing(f"the random program {seed}, which is above", program.given, found, wanted)
        ends[wanted[1] if wanted else "passed over, as a compiler does not take it"] += 1
    told = ", ".join(f"{number} {ending}" for ending, number in sorted(ends.items()))
    print(f"of {count} random programs none differs: {told}")


def folder_with(room, name, text, others):
    """A folder with a program and its units."""
    folder = os.path.join(room, name)
    os.makedirs(folder, exist_ok=True)
    for unit, unit_text in others.items():
        write(folder, f"{unit.lower()}.pas", unit_text.encode())
    return folder, write(folder, "random.pas", text.encode())


def compare_files(room, running, first, count, differing):
    """The same of programs with REALs, files and a unit; all of them end by themselves."""
    os.chdir(room)  # where Free Pascal's programs make their files
    for seed in range(first, first + count):
        program = random_file_program(seed)
        _, path = folder_with(room, "ucsd", program.ucsd, program.others)
        data = compile_text(program.ucsd, path, Options(is_echoed=False)).data
        given = program.given.encode()
        found = free_pascal.run_code(running(write(room, "random.code", data)), given)
        folder, _ = folder_with(room, "free", program.free, program.free_others)
        wanted = free_pascal.run_free(free_pascal.built(folder, "random", "-B"), given)
        if found != wanted or found[1] != "normal":
            print(program.ucsd, *program.others.values(), sep="\n", file=sys.stderr)
            differing(f"the program {seed}, which is above", program.given, found, wanted)
    print(f"of {count} random programs with REALs, files and a unit none differs")


def told_programs(room, running, seed):
    """Two files of programs with what comes of them: those of tests/compile, and random ones."""
    cases = [{"name": name, "text": f"PROGRAM T;\n{declarations}\nBEGIN\n{statements}\nEND.\n",
              "given": given, "output": output, "is_echoed": True,
              "ending": ending.replace("execution ", "") or "normal"}
             for name, declarations, statements, given, output, ending in
             CASES + real_cases.CASES + file_cases.CASES + longs.CASES]
    asked, lines = reals.operations(random.Random(1), REALS)
    cases.append({"name": "operations with REALs", "text": reals.PROGRAM, "given": asked,
                  "output": "".join(f"{line}\n" for line in lines), "is_echoed": False,
                  "ending": "normal"})
    cases += [{"name": name, "text": text, "given": given, "output": output, "is_echoed": True,
               "ending": "normal"} for name, text, given, output in limits.accepted()]
    some = [{"name": f"program {number}", "text": program.ucsd, "given": program.given,
             "output": wanted[0].decode("latin-1"), "ending": wanted[1], "is_echoed": False}
            for number, program, wanted, _ in results(room, running, range(seed, seed + TOLD))
            if wanted]
    return {"the cases of tests/compile": write(room, "cases.json", json.dumps(cases).encode()),
            "random programs": write(room, "random.json", json.dumps(some).encode())}
