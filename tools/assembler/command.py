"""The assembler's command line."""

import os
import sys

from pcode.faults import Fault, at
from pcode.files import drop_output, read_whole, write_whole
from pcode.listing import Lister

from .assembling import assemble, map_of
from .source import read_source

HELP = """Makes UCSD Pascal II.0 code files from assembly, and lists code files. It wants Python
3.8 or newer.

    assemble FILE.asm..                      writes FILE.code beside each
    assemble --map FILE.asm                  prints for each instruction its procedure, its offset,
                                             and its line
    assemble --map FILE.asm OFFSET           prints that of the instruction at an offset of the
                                             segment
    assemble --map FILE.asm PROCEDURE OFFSET the same, if it is of that procedure
    assemble --list FILE.code..              prints the listing of each code file
    assemble --help                          prints this

Status 0: it was done. Status 1: a file is refused, as `FILE:LINE: text`, or `FILE: text` where no
line is at fault; then no code file is written, and those that were there are as they were. Or a
code file or standard output cannot be written. Status 2: other words than these, or an older
Python.

The language is explained in examples/README.md."""


def read_asm(name):
    """The source of a file, and its code file."""
    if os.path.splitext(name)[1] != ".asm":
        raise Fault("the name of a source ends in .asm", name)
    source = read_source(name)
    return source, assemble(source)


def make(names):
    """Assembles all files, and writes nothing unless all of them can be assembled."""
    made = [(os.path.splitext(name)[0] + ".code", read_asm(name)[1]) for name in names]
    for name, data in made:
        write_whole(name, data)


def print_map(name, numbers):
    """Prints the map of a source: all lines, or the one of an offset, which the last number is."""
    found = [line for line in map_of(read_asm(name)[0])
             if not numbers or (line.at == numbers[-1] and numbers[:-1] in ([], [line.procedure]))]
    if numbers and not found:
        whose = f" of procedure {numbers[0]}" if len(numbers) == 2 else ""
        raise Fault(f"no instruction{whose} begins at {numbers[-1]}", name)
    for line in found:
        print(line)


def print_listings(names):
    """Prints the listings of code files, each if it can be listed to its end."""
    for name in names:
        data = read_whole(name)
        with at(name):
            lines = list(Lister(data).lines())
        for line in lines:
            print(line)


def is_number(word):
    return word.isascii() and word.isdigit() and len(word) <= 5


def run(words):
    """Does what the words say, and answers whether they say something."""
    if words in (["--help"], ["-h"]):
        print(HELP)
    elif words[:1] == ["--list"] and len(words) > 1:
        print_listings(words[1:])
    elif words[:1] == ["--map"] and 2 <= len(words) <= 4 and all(map(is_number, words[2:])):
        print_map(words[1], [int(word) for word in words[2:]])
    elif words and not words[0].startswith("-"):
        make(words)
    else:
        return False
    return True


def main(words):
    """Runs the command, and answers its status."""
    try:
        is_known = run(words)
        sys.stdout.flush()
    except Fault as fault:
        print(f"{fault.place}: {fault}", file=sys.stderr)
        return 1
    except BrokenPipeError:  # whoever reads the lines has enough
        drop_output()
        return 1
    except OSError as fault:
        drop_output()
        print(f"standard output: {fault.strerror}", file=sys.stderr)
        return 1
    if not is_known:
        print(HELP, file=sys.stderr)
        return 2
    return 0
