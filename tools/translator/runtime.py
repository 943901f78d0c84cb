"""The run-time of a translated program: the compiler's library, and runtime.pas beside it."""

import os
from typing import Any, NamedTuple

from compiler.checking.declarations import Checker
from compiler.faults import Faults
from compiler.generating.generator import MOST_ROUTINES, Generator
from compiler.parsing.lexer import fold
from compiler.parsing.texts import read_text
from compiler.parts import declared_in, parted
from compiler.program import LINE_ENDS, Options, constants_of, parsed
from compiler.runtime import Library
from pcode.faults import Fault
from pcode.parts import Procedure

PATH = os.path.join(os.path.dirname(os.path.abspath(__file__)), "runtime.pas")
EMPTY = "PROGRAM TRANSLATED; BEGIN END."


class RunTime(Library):
    """The library with the procedures of runtime.pas."""

    def __init__(self, checker, constants):
        super().__init__(checker, constants)
        rest, routines = parted(read_text(PATH), PATH)
        number = len(self.rests)
        self.rests[number] = rest
        self.routines.update((name, (number, part)) for name, part in routines.items())
        self.places = dict(self.places)
        for name in declared_in(rest):
            self.places[name] = [*self.places.get(name, ()), number]


class Text(NamedTuple):
    """Words that the program stores at its start, from an offset of the main frame on."""

    offset: int
    words: Any


class Machine:
    """Procedures and words of the main frame that are given out while a program is translated.
    `count` procedures are the program's own, the numbers 1 to `count`."""

    def __init__(self, count, words, has_files, options: Options, place):
        faults = Faults()
        checker = Checker(faults, LINE_ENDS[options.line_end])
        program = parsed(EMPTY, "runtime", faults)
        checker.has_files = has_files
        checker.library = RunTime(checker, constants_of(checker, options))
        checker.check_program(program)
        self.place = place
        self.generator = Generator(checker.routines, checker.library)
        self.library, self.main = checker.library, checker.main
        self.main.place, self.main.name = place, "the program"
        self.main.words = words
        self.generator.routines += [None] * (count - 1)
        self.texts, self.made, self.byname = {}, [], {}
        self.line_end = LINE_ENDS[options.line_end]

    def routine(self, name):
        """The number of a procedure of the run-time."""
        return self.generator.number_of(self.library[fold(name)])

    def variable(self, name):
        """The offset of a variable of the run-time in the main frame."""
        return self.generator.offset_of(self.library[fold(name)])

    def is_function(self, name):
        return self.library[fold(name)].result is not None

    def room(self, words):
        """The offset of words that nobody else has."""
        return self.main.allocate(words, self.place)

    def text(self, words):
        """The offset of words that are known. Those that are equal are kept once."""
        key = tuple(words)
        if key not in self.texts:
            self.texts[key] = Text(self.room(len(key)), key)
        return self.texts[key].offset

    def own(self, name, make):
        """The number of a procedure that `make` makes the lines and labels of, once for a name."""
        if name not in self.byname:
            if len(self.generator.routines) >= MOST_ROUTINES:
                raise Fault(f"there are {MOST_ROUTINES} procedures at most, and those of the "
                            "run-time are too many", self.place)
            self.generator.routines.append(None)
            self.byname[name] = number = len(self.generator.routines)
            params, lines, labels = make()
            self.made.append(Procedure(self.place, number, name, 1, params, 0, lines, labels))
        return self.byname[name]

    def procedures(self):
        """All procedures of the run-time that were asked for."""
        generator, found = self.generator, []
        while generator.waiting:
            found.append(generator.make(generator.waiting.pop(0)))
        return self.made + found
