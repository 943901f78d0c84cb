"""The command line of tools/freeze."""

import argparse
import os
import sys

from pcode.faults import Fault
from pcode.files import drop_output, read_whole, write_whole
from pcode.words import Parser

from .frozen import Places, frozen_in
from .making import checked, frozen_after, proved
from .refused import Refused
from .state import state_after

TOP = os.path.join(os.path.dirname(os.path.realpath(__file__)), "..", "..")
ABOUT = """Freezes a program where it waits for a key. It runs FILE on its input, and makes a code
file that waits in the same configuration when it is started: a session with it continues without
the old keys."""
EXAMPLES = """examples:
  freeze adventure.code -o frozen.code < keys   writes frozen.code
  freeze --facts frozen.code                    what was read and written before, how often it was
                                                frozen, and how long its original is
  freeze --map frozen.code 34 5100              after `execution error 1 in procedure 34 at 5100`:
                                                the place in the original, for `compile --where`
  freeze adventure.code --check frozen.code < keys   checks it again, and writes nothing

FILE may be frozen itself. Then its original is frozen again, so no file grows. Each frozen file is
checked before it is written: started on nothing it has to wait in the same configuration, and each
place where it may go on has to have the same instructions. That check is not proved. If pgroup has
the command `frozen`, which is, it has to print the same of the frozen file as of the original.

A file is refused by one of these names:

  ended       the program has ended, so there is nothing to continue
  procedures  there are more than 255, with those that are under way
  bytes       the segment would have more than 65,534
  overlap     the code and the jump table of a procedure overlap
  parameters  a procedure that calls itself has 1,024 words of parameters
  steps       after 4,294,967,295 steps it neither waits nor has ended
  file        pgroup refuses it
  state       pgroup has no command `state`, or another text of it
  check       the frozen file is wrong, which is a fault of freeze
  proof       pgroup frozen refuses it, or does not agree with where the original stands
  original    it was never frozen
  damaged     it was frozen, and is cut off

Code of up to 26 KB, with that of the procedures under way, always fits, unless all 1,024 frames are
under way, or no number of a procedure below 256 is left. No compiler writes what `overlap` and
`parameters` name.

PGROUP=PROGRAM names the program pgroup; without it that of this repository or package is taken.

Status 0: it was done. 1: refused, or a file cannot be read or written, which is told; then no file
is written, and an older one stays. 2: other arguments than these, or an older Python."""


def words_parser():
    parser = Parser(prog="freeze", description=ABOUT, epilog=EXAMPLES, allow_abbrev=False,
                    formatter_class=argparse.RawDescriptionHelpFormatter)
    add = parser.add_argument
    add("file", metavar="FILE", nargs="?", help="the code file")
    add("-o", dest="output", metavar="FROZEN", help="the frozen file")
    add("--check", metavar="FROZEN", help="checks this frozen file of FILE and the input")
    add("--map", nargs=3, metavar=("FROZEN", "PROCEDURE", "OFFSET"),
        help="prints the place of the original program that one of a frozen file is")
    add("--facts", metavar="FROZEN", help="prints what a frozen file says of itself")
    return parser


def words_of(arguments):
    parser = words_parser()
    words = parser.parse_args(arguments)
    asked = [words.map, words.facts]
    if any(asked) and (all(asked) or words.file or words.output or words.check):
        parser.error("--map and --facts go with no other argument")
    if not any(asked) and (not words.file or bool(words.output) == bool(words.check)):
        parser.error("FILE and -o FROZEN are needed, or FILE and --check FROZEN")
    if words.map and not all(it.isdecimal() for it in words.map[1:]):
        parser.error("PROCEDURE and OFFSET are numbers")
    return words


def frozen_at(path):
    found = frozen_in(read_whole(path))
    if found is None:
        raise Refused("original", "it was never frozen", path)
    return found


def facts(path):
    it = frozen_at(path)
    return [f"times {it.times}", f"read {it.read}", f"wrote {it.wrote}",
            f"original {len(it.original)}"]


def place(path, number, offset):
    found = Places(frozen_at(path).rows).place(int(number), int(offset))
    return "procedure {} at {}".format(*found)


def target_of(words):
    if os.path.exists(words.output) and os.path.samefile(words.output, words.file):
        raise Fault("the frozen file would take the place of the file: name another by -o",
                    words.output)
    return words.output


def make(words):
    """Does what the words say."""
    if words.facts:
        print("\n".join(facts(words.facts)))
        return
    if words.map:
        print(place(*words.map))
        return
    program = os.path.realpath(os.environ.get("PGROUP") or os.path.join(TOP, "run"))
    data = read_whole(words.file)
    target = None if words.check else target_of(words)
    given = sys.stdin.buffer.read() if sys.stdin else b""
    if words.check:
        made = read_whole(words.check)
        it = checked(program, data, made, state_after(program, words.file, given))
        it = proved(program, words.file, data, given, it)
        print(f"{words.check}: {it.frozen.told()}; {it.told()}")
        return
    it = frozen_after(program, words.file, data, given)
    write_whole(target, it.data)
    print(f"{target}: {it.frozen.told()}")


def main(arguments):
    """Runs the command, and returns its status."""
    words = words_of(arguments)
    if sys.stdout is None:
        print("standard output: it is closed", file=sys.stderr)
        return 1
    asked = words.facts or (words.map[0] if words.map else words.file)
    try:
        make(words)
        sys.stdout.flush()
        return 0
    except Refused as why:
        print(f"{why.place or asked}: refused, {why.name}: {why}", file=sys.stderr)
    except Fault as fault:
        print(f"{fault.place or asked}: {fault}", file=sys.stderr)
    except BrokenPipeError:  # whoever reads the lines has enough
        drop_output()
    except OSError as fault:
        drop_output()
        print(f"{fault.filename or 'standard output'}: {fault.strerror}", file=sys.stderr)
    return 1
