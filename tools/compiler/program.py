"""From the text of a program to its code file: the steps of the compiler, one after the other."""

from __future__ import annotations

from pcode.codefile import code_file
from pcode.faults import Fault, TooLarge, at
from pcode.parts import Procedure
from pcode.fields import Fields

from .checking.declarations import Checker
from .faults import Faults
from .generating.generator import Generator
from .parsing.declarations import Parser
from .parsing.lexer import Lexer
from .runtime import Library
from .units import APPLESTUFF, Units

LINE_ENDS = {"lf": 10, "cr": 13}
SCREENS = ("ansi", "vt52", "adm3a", "soroc", "apple")
HEAP = 4000
MOST_FILES = 10  # of memory that are open at once, and the console and keyboard
SEGMENT = 1
NAMING = "ABCDEFGHIJKLMNOPQRSTUVWXYZ0123456789"  # what a segment's name has of the program's


class Options(Fields):
    """What a program is compiled with."""

    line_end: str = "lf"  # what WRITELN writes
    heap: int = HEAP  # words for NEW
    is_echoed: bool = True  # READ from INPUT shows what it reads
    files: list[object] = list  # pairs of a name and the bytes that a file of memory begins with
    is_shown: bool = False  # a file that is locked is printed
    is_packed: bool = False  # texts that are written are packed
    screen: str = "ansi"  # the terminal for GOTOXY and PAGE


class Compiled(Fields):
    """A program that was compiled."""

    segment: str  # its name in the code file
    procedures: list[Procedure]  # in the order of their code: the program is the last
    data: bytes  # of the code file
    notes: list[str]


class Refused(Exception):
    """A program has faults, in the order of the text."""

    def __init__(self, faults: list[Fault]):
        super().__init__(f"{len(faults)} faults")
        self.faults = faults


def parsed(text, file, faults, entry=Parser.program):
    """The syntax tree of a program, or of a unit. If it has a fault, that is noted, and there may
    be no tree."""
    lexer, found = Lexer(text, file), None
    parser = Parser(lexer.all(), faults)
    with faults.caught():
        found = entry(parser)
    if found:
        found.has_files = parser.has_files()
    for remark in lexer.remarks:
        if found and remark.at >= parser.at:  # behind the last END.
            break
        if isinstance(remark.what, Fault):
            faults.add(remark.what)
        else:
            faults.note(remark.what, remark.place)
    return found


def parsed_unit(text, file, faults):
    return parsed(text, file, faults, Parser.unit)


def constants_of(checker, options, units=()):
    """What the library is told of a program, by names of constants."""
    return {"LINEEND": LINE_ENDS[options.line_end], "HEAPWORDS": options.heap,
            "ECHOED": 1 if options.is_echoed else 0, "MIXED": 1 if APPLESTUFF in units else 0,
            "SCREEN": SCREENS.index(options.screen), "HASFILES": int(checker.has_files),
            "ISSHOWN": int(options.is_shown),
            "MOSTFILES": MOST_FILES if checker.has_files else 2}


def library_of(checker, options, units=()):
    return Library(checker, constants_of(checker, options, units))


def checked(text, file, options):
    """The checker of a program that has no fault, and notes on it."""
    faults = Faults()
    checker = Checker(faults, LINE_ENDS[options.line_end])
    program = parsed(text, file, faults)
    if program:
        used = Units(faults, parsed_unit)
        units = used.of_program(program)
        of_form = dict(faults.places)
        checker.has_files = bool(options.files) or any(
            it.has_files for it in [program, *units])
        checker.library = library_of(checker, options, used.used)
        with faults.caught():
            checker.check_program(program, units, used.missing, options.files)
        faults.places = of_form or faults.places  # those of types are told once there are no others
    if not faults.is_right():
        raise Refused(faults.told())
    notes = sorted((place, note) for note, place in faults.notes.items())
    return checker, [f"{place}: note: {note}" for place, note in notes]


def compile_text(text, file, options=None) -> Compiled:
    """Compiles a program. Its faults are raised as Refused. If its code is too large the texts that
    it writes are packed."""
    options = options or Options()
    try:
        return compiled(text, file, options)
    except TooLarge as fault:
        if options.is_packed:
            raise Refused([fault]) from None
    fields = dict(zip(options._names, options.fields()), is_packed=True)
    try:
        program = compiled(text, file, Options(**fields))
    except TooLarge as fault:
        raise Refused([fault]) from None
    program.notes.append(f"{file}: note: the texts that it writes are packed, as its code would "
                         "otherwise be too large")
    return program


def compiled(text, file, options):
    checker, notes = checked(text, file, options)
    main = checker.main
    try:
        with at(main.place):
            generator = Generator(checker.routines, checker.library, checker.texts,
                                  LINE_ENDS[options.line_end], options.is_packed)
            program, *others = generator.procedures()
            procedures = others + [program]
            name = "".join(it for it in main.name.upper() if it in NAMING)[:8]
            data = code_file(name, SEGMENT, procedures, main.place)
    except TooLarge:
        raise
    except Fault as fault:
        raise Refused([fault]) from None
    return Compiled(name, procedures, data, notes)
