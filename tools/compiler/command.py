"""The compiler's command line."""

import gc
import os
import sys

from pcode.faults import Fault
from pcode.files import drop_output, write_whole
from volumes.text import decoded, is_text_file

from .parsing.texts import read_text
from .program import HEAP, LINE_ENDS, SCREENS, Options, Refused, compile_text
from .runtime import FILES, keep_library, path_of

ABOUT = """Compiles UCSD Pascal to a code file that pgroup runs. docs/PASCAL.md says which Pascal.

It is a tool, and nothing of it is proved. A wrong compiler makes a wrong program; it cannot make a
node do anything undefined, since the loader checks each code file."""
EXAMPLES = """examples:
  compile hello.pas                      writes hello.code
  compile -o /tmp/h.code hello.pas       writes another file
  compile --check hello.pas              says what is wrong, and writes nothing
  compile --list hello.pas               the code with the lines of the text
  compile --where 1 33 hello.pas         after `execution error 10 in procedure 1 at 33`: its line
  compile --asm hello.pas > hello.asm    assembly, which tools/assemble makes the same file of
  compile --line-end cr hello.pas        WRITELN writes 13, as in the p-System, and not 10
  compile --heap 9000 hello.pas          more room for NEW and for files
  compile --file DATA=d.txt hello.pas    the program finds a file DATA in memory

READ takes 10 and 13 as the end of a line. A fault is told as FILE:LINE:COLUMN: what is wrong, on
standard error, up to ten of them. What a program needs and is not there is told beside these: all
of it, each once, at its first place and with how often it is met.

Status 0: it was done. 1: the text has faults, or a file cannot be read or written; then no file is
written, and an older one stays. 2: other words than these, or an older Python."""
# Nested texts take some recursion; the parser refuses what is nested too deeply.
RECURSION = 6000
MOST_HEAP = 16000
MOST_NAME, MOST_FILE = 15, 32766  # characters of a file's name, and its bytes


def wrong(text):
    """The fault of a word, as argparse wants it. It is loaded where there are options alone, which
    saves a fifth of the time of a small program."""
    from argparse import ArgumentTypeError
    return ArgumentTypeError(text)


def heap_of(text):
    if not (text.isascii() and text.isdigit() and len(text) <= 5 and 1 <= int(text) <= MOST_HEAP):
        raise wrong(f"1 to {MOST_HEAP} words")
    return int(text)


def file_of(text):
    """A name and the bytes of a file."""
    name, sign, path = text.partition("=")
    name = name.strip().upper()
    if not sign or not 1 <= len(name) <= MOST_NAME or not name.isascii():
        raise wrong(f"NAME=PATH, with a NAME of 1 to {MOST_NAME} characters")
    try:
        with open(path, "rb") as stream:
            data = stream.read()
    except OSError as fault:
        raise wrong(f"{path} cannot be read: {fault.strerror}") from None
    if is_text_file(data):
        data = decoded(data)
    if len(data) > MOST_FILE:
        raise wrong(f"{path} has {len(data)} bytes, and {MOST_FILE} are all "
                                         "that a machine's memory has")
    return name, data


def number_of(text):
    if not (text.isascii() and text.isdigit() and len(text) <= 5):
        raise wrong(f"{text} is no number")
    return int(text)


def words_parser():
    import argparse

    from pcode.words import Parser
    parser = Parser(
        prog="compile", description=ABOUT, epilog=EXAMPLES, allow_abbrev=False,
        formatter_class=argparse.RawDescriptionHelpFormatter)
    parser.add_argument("file", metavar="FILE.pas", nargs="?", help="the text of the program")
    parser.add_argument("-o", dest="output", metavar="FILE",
                        help="the code file; FILE.code without")
    parser.add_argument("--line-end", choices=sorted(LINE_ENDS), default="lf",
                        help="what WRITELN writes: lf is 10 (the default), cr is 13")
    parser.add_argument("--heap", metavar="WORDS", type=heap_of, default=HEAP,
                        help=f"room for NEW in words; {HEAP} without")
    parser.add_argument("--no-echo", action="store_true",
                        help="READ does not show what it reads: for a terminal that does so")
    parser.add_argument("--file", metavar="NAME=PATH", type=file_of, action="append", default=[],
                        dest="files", help="the program begins with a file NAME in memory that "
                        "has the bytes of PATH; may be given again")
    parser.add_argument("--show-files", action="store_true",
                        help="CLOSE(F, LOCK) prints the file between marks; tools/files reads them")
    parser.add_argument("--screen", choices=SCREENS, default="ansi",
                        help="the terminal whose codes GOTOXY and PAGE write; console --screen "
                        "shows those of an old one. ansi, a terminal of today, without")
    parser.add_argument("--pack-texts", action="store_true",
                        help="texts that are written take less room and more steps; it is done by "
                        "itself if the code is too large")
    modes = parser.add_mutually_exclusive_group()
    modes.add_argument("--check", action="store_true", help="only says what is wrong")
    modes.add_argument("--asm", action="store_true", help="prints the program as assembly")
    modes.add_argument("--list", action="store_true",
                       help="prints the listing, with the lines of the text")
    modes.add_argument("--where", nargs=2, metavar=("PROCEDURE", "OFFSET"), type=number_of,
                       help="prints the line that an instruction comes from")
    modes.add_argument("--library", action="store_true",
                       help="prints the run-time library, which is Pascal; it wants no FILE.pas")
    return parser


class FewWords:
    """The words of a call with a file, and with no more than -o FILE and --check."""

    file = output = where = None
    line_end, heap, files, screen = "lf", HEAP, (), "ansi"
    no_echo = show_files = pack_texts = check = asm = list = library = False


def few_words(arguments):
    """The words if they are but a few, as they mostly are; else None. To load argparse and to
    make its parser takes a fifth of the time of a small program."""
    words, waiting = FewWords(), list(arguments)
    while waiting:
        word = waiting.pop(0)
        if word == "--check":
            words.check = True
        elif word == "-o" and waiting and not waiting[0].startswith("-"):
            words.output = waiting.pop(0)
        elif word.startswith("-") or words.file:
            return None
        else:
            words.file = word
    return words if words.file else None


def words_of(arguments):
    """What the words of the command line say."""
    words = few_words(arguments)
    if words:
        return words
    parser = words_parser()
    words = parser.parse_args(arguments)
    if not words.file and not words.library:
        parser.error("FILE.pas is missing")
    return words


def library():
    for name in FILES:
        yield f"{{ {name}.pas }}"
        yield read_text(path_of(name))


def told(program, words):
    """What is printed of a program. What makes it is loaded for that alone, as argparse is."""
    from . import report
    if words.asm:
        return "\n".join(report.assembly(program))
    if words.list:
        return "\n".join(report.listing(program))
    return report.line_at(program, *words.where, words.file)


def make(words):
    """Does what the words say."""
    if words.library:
        print("\n".join(library()), end="")
        return
    text = read_text(words.file)
    options = Options(words.line_end, words.heap, not words.no_echo, words.files, words.show_files,
                      words.pack_texts, words.screen)
    program = compile_text(text, words.file, options)
    keep_library()
    for note in program.notes:
        print(note, file=sys.stderr)
    if words.asm or words.list or words.where:
        print(told(program, words))
    elif not words.check:
        target = words.output or os.path.splitext(words.file)[0] + ".code"
        if os.path.abspath(target) == os.path.abspath(words.file):
            raise Fault("the code file would take the place of the text: name one by -o", target)
        write_whole(target, program.data)


def tell(fault, file):
    print(f"{fault.place or file}: {fault}", file=sys.stderr)


def main(arguments):
    """Runs the command, and answers its status."""
    words = words_of(arguments)
    if sys.stdout is None and (words.asm or words.list or words.where or words.library):
        print("standard output: it is closed", file=sys.stderr)
        return 1
    sys.setrecursionlimit(RECURSION)
    gc.disable()  # the trees of a text live until the end, and looking for others takes a tenth
    try:
        make(words)
        if sys.stdout is not None:
            sys.stdout.flush()
        return 0
    except Refused as refused:
        for fault in refused.faults:
            tell(fault, words.file)
    except Fault as fault:
        tell(fault, words.file)
    except RecursionError:
        print(f"{words.file}:1:1: this text is nested too deeply", file=sys.stderr)
    except BrokenPipeError:  # whoever reads the lines has enough
        drop_output()
    except OSError as fault:
        drop_output()
        print(f"standard output: {fault.strerror}", file=sys.stderr)
    except Exception as fault:  # what no text should lead to
        print(f"{words.file}:1:1: the compiler itself has a fault, and this text shows it: "
              f"{type(fault).__name__}: {fault}", file=sys.stderr)
    return 1
