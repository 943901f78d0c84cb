"""The command line of tools/translate."""

import argparse
import os
import sys

from compiler.command import RECURSION, heap_of, number_of
from compiler.program import HEAP, LINE_ENDS
from pcode.faults import Fault
from pcode.files import drop_output, read_whole, write_whole
from pcode.words import Parser
from volumes import directory
from volumes.image import volume_of

from . import reals, report
from .program import Choices, translate
from .reading import read

ABOUT = """Translates a code file of UCSD Pascal II.0 or Apple Pascal 1.1 to one that pgroup runs.
It takes several segments, and calls of the system for READ, WRITE, strings, sets, files and the
heap. docs/PROGRAMS.md says what it does not take.

It is a tool, and nothing of it is proved. A wrong translation is a wrong program; it cannot make a
node do anything undefined, since the loader checks each code file."""
EXAMPLES = """examples:
  translate OLD.CODE -o new.code             writes new.code
  translate --volume old.dsk GAME.CODE -o game.code   takes the file out of the image of a disk
  translate --check OLD.CODE                 says what the file is and needs, and writes nothing
  translate --list OLD.CODE                  lists the old file, with the system's procedures
  translate --map OLD.CODE                   which instruction of the new file comes from which
  translate --where 4 33 OLD.CODE            after `execution error 1 in procedure 4 at 33`: what
                                             stood there in the old file

--where wants the options that the new file was made with. REAL constants have another form on each
machine, and the file does not say which: if they come out wrong, try --reals high or --reals pdp.

Status 0: it was done. 1: the file has a fault or needs what is not there, which is told with its
segment, procedure and offset, or a file cannot be read or written; then no file is written, and an
older one stays. 2: other arguments than these, or an older Python."""


def words_parser():
    parser = Parser(
        prog="translate", description=ABOUT, epilog=EXAMPLES, allow_abbrev=False,
        formatter_class=argparse.RawDescriptionHelpFormatter)
    parser.add_argument("file", metavar="FILE", help="the old code file, or its name in the volume")
    parser.add_argument("-o", dest="output", metavar="FILE",
                        help="the new code file; NAME.new.code of NAME.CODE without")
    parser.add_argument("--volume", metavar="IMAGE", help="the image of a disk that has FILE")
    parser.add_argument("--line-end", choices=sorted(LINE_ENDS), default="lf",
                        help="what WRITELN writes: lf is 10 (the default), cr is 13")
    parser.add_argument("--heap", metavar="WORDS", type=heap_of, default=HEAP,
                        help=f"room for NEW and for files in words; {HEAP} without")
    parser.add_argument("--no-echo", action="store_true",
                        help="READ does not show what it reads: for a terminal that does so")
    parser.add_argument("--reals", choices=tuple(reals.WORDS), default="low",
                        help="the form of REAL constants: IEEE with its low word first (low, the "
                        "default) or its high word (high), or the PDP-11's (pdp)")
    modes = parser.add_mutually_exclusive_group()
    modes.add_argument("--check", action="store_true",
                       help="says what the file is and needs, and whether it can be translated")
    modes.add_argument("--list", action="store_true", help="prints the listing of the old file")
    modes.add_argument("--map", action="store_true",
                       help="prints which instruction of the new file comes from which of the old")
    modes.add_argument("--where", nargs=2, metavar=("PROCEDURE", "OFFSET"), type=number_of,
                       help="prints the old instruction that one of the new file comes from")
    return parser


def old_file(words):
    """The bytes of the old file, and how it is called."""
    if not words.volume:
        return read_whole(words.file), words.file
    volume, order = volume_of(read_whole(words.volume), None, words.volume)
    found = directory.read(volume, order)
    for file in found.files:
        if file.name.upper() == words.file.upper():
            return file.bytes_in(volume), f"{words.volume}:{file.name}"
    raise Fault(f"it has no file {words.file.upper()}", words.volume)


def make(words):
    """Does what the words say."""
    data, name = old_file(words)
    found = read(data, name)
    choices = Choices(words.line_end, words.heap, not words.no_echo, words.reals)
    if words.check:
        lines, fault = report.check(found, choices)
        print("\n".join(lines))
        if fault:
            raise fault
    elif words.list:
        for line in report.listing(found):
            print(line)
    elif words.map:
        for line in report.mapping(translate(found, choices)):
            print(line)
    elif words.where:
        print(report.where(translate(found, choices), found, *words.where))
    else:
        put(translate(found, choices).data, words)


def put(data, words):
    target = words.output or os.path.splitext(os.path.basename(words.file))[0] + ".new.code"
    if not words.volume and os.path.realpath(target) == os.path.realpath(words.file):
        raise Fault("the new file would take the place of the old one: name another by -o", target)
    write_whole(target, data)


def main(arguments):
    """Runs the command, and answers its status."""
    words = words_parser().parse_args(arguments)
    if sys.stdout is None and (words.check or words.list or words.map or words.where):
        print("standard output: it is closed", file=sys.stderr)
        return 1
    sys.setrecursionlimit(RECURSION)
    try:
        make(words)
        if sys.stdout is not None:
            sys.stdout.flush()
        return 0
    except Fault as fault:
        print(f"{fault.place or words.file}: {fault}", file=sys.stderr)
    except BrokenPipeError:  # whoever reads the lines has enough
        drop_output()
    except OSError as fault:
        drop_output()
        print(f"standard output: {fault.strerror}", file=sys.stderr)
    return 1
