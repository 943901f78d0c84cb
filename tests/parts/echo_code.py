"""The code files that the tests and benches of groups run."""

import importlib.machinery
import importlib.util
import os

from .files import file_with
from .program import TESTS, TOP

ECHO = os.path.join(TOP, "examples", "echo.code")

# Reads bytes from unit 2 and writes each to unit 1, without end: procedure 1 is UNITREAD,
# UNITWRITE, three NOP, and a jump back.
ENDLESS = bytes.fromhex(
    "02a50300010000 9e05 01a50300010000 9e06 d7d7d7 b9f6 c100"
    "001a 0002 0004 0009 0022 0001 0002 0001 01"
)
# Divides by zero: SLDC 1, SLDC 0, and DVI at offset 2, which is error 6.
DIVIDING = bytes.fromhex("01 00 86 c100 00 0200 0400 0700 0c00 0100 0200 0101")
DIVIDED = "execution error 6 in procedure 1 at 2"


def cases_module():
    """Returns tests/cases/run as a module: it makes code files and reads the files of cases."""
    loader = importlib.machinery.SourceFileLoader("cases", os.path.join(TESTS, "cases", "run"))
    module = importlib.util.module_from_spec(importlib.util.spec_from_loader("cases", loader))
    loader.exec_module(module)
    return module


def named_bytes(cases):
    """Returns the bytes that tests/cases/named_bytes names, by their names. `reads` is a segment
    that writes each byte that it reads until one is Q."""
    return cases.read_cases(os.path.join(TESTS, "cases", "named_bytes"), {})[2]


def code_in(folder, name, segment):
    """Writes the code file of a segment into a folder. Returns its path."""
    return file_with(folder, name, cases_module().code_file(segment))


def endless_in(folder):
    return code_in(folder, "endless.code", ENDLESS)


def dividing_in(folder):
    return code_in(folder, "dividing.code", DIVIDING)
