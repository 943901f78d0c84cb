#!/usr/bin/env python3
"""Says which of some programs a compiler gets wrong first, for tests/pascal.

    judge.py TOOLS RUNNER PROGRAMS

TOOLS is a folder with the compiler, RUNNER runs a code file, and PROGRAMS is a file of JSON: a list
of programs with their text, their input, and what they write and how they end."""

import json
import os
import sys
import tempfile

sys.dont_write_bytecode = True  # no files of the tool's own in the repository
TOOLS, RUNNER, PROGRAMS = sys.argv[1:]
HERE = os.path.dirname(os.path.abspath(__file__))
sys.path[:0] = [TOOLS, os.path.dirname(os.path.dirname(HERE))]
from compiler.program import Options, compile_text
from parts.compile.free_pascal import run_code


def is_right(program, file):
    """Whether the compiler makes of a program what it has to be."""
    try:
        options = Options(is_echoed=program["is_echoed"])
        data = compile_text(program["text"], "t.pas", options).data
    except Exception:  # a broken compiler may fall
        return False
    with open(file, "wb") as stream:
        stream.write(data)
    command = [RUNNER, "run", file, "--steps", "50000000"]
    found = run_code(command, program["given"].encode("latin-1"))
    return found == (program["output"].encode("latin-1"), program["ending"])


def main():
    sys.setrecursionlimit(6000)
    with open(PROGRAMS, encoding="ascii") as stream:
        programs = json.load(stream)
    with tempfile.TemporaryDirectory() as room:
        for number, program in enumerate(programs, 1):
            if not is_right(program, os.path.join(room, "t.code")):
                print(f"{number} {program['name']}")
                return
    print("none")


main()
