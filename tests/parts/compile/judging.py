"""What the tests of the compiler do with a text."""

import os
import re
import subprocess
import sys

from ..program import PROGRAM, TOP, must

TOOLS = os.path.join(TOP, "tools")
TOOL = os.path.join(TOOLS, "compile")
sys.path.insert(0, TOOLS)
from compiler.parsing.texts import read_text
from compiler.program import Options, Refused, compile_text

STEPS = "4000000000"


def write(name, data):
    with open(name, "wb") as file:
        file.write(data if isinstance(data, bytes) else data.encode("latin-1"))


def faults_of(text, file="t.pas", options=None):
    """What a text is refused with, as `LINE:COLUMN: text`; nothing where it is not."""
    try:
        compile_text(text, file, options)
        return []
    except Refused as refused:
        return [f"{fault.place}: {fault}" for fault in refused.faults]


def run(data, given, *words):
    """What a code file writes on an input, and how it ends."""
    write("t.code", data)
    limit = words or ("--steps", STEPS)
    done = subprocess.run([PROGRAM, "run", "t.code", *limit], check=False,
                          input=given.encode("latin-1"), capture_output=True)
    said = re.sub(r" in procedure .*\n|\n", "", done.stderr.decode())
    return done.stdout.decode("latin-1"), said


def prints(name, text, given, output, ending, options=None):
    """Whether a program writes what it has to, and ends so."""
    try:
        data = compile_text(text, f"{name}.pas", options).data
    except Refused as refused:
        must(False, f"{name} is refused: {refused.faults[0].place}: {refused.faults[0]}")
    found = run(data, given)
    must(found == (output, ending), f"{name}: {found} is not {(output, ending)}")


def tool(*words, folder=None):
    """The command by a process of its own: its status, standard output and standard error."""
    done = subprocess.run([sys.executable, TOOL, *words], check=False, capture_output=True,
                          cwd=folder)
    return done.returncode, done.stdout.decode("latin-1"), done.stderr.decode("latin-1")
