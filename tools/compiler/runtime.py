"""The run-time library, of which only what a program uses is parsed and checked."""

import os

from pcode.fields import Fields
from pcode.kept import once

from .checking.symbols import ConstantSymbol, Standard
from .checking.types import INTEGER
from .faults import Faults
from .parsing.declarations import Parser
from .parsing.lexer import Lexer, fold
from .trees import keep, kept, kept_tree

FOLDER = os.path.join(os.path.dirname(os.path.abspath(__file__)), "library")
FILES = ("blocks", "output", "input", "strings", "sets", "heap", "reals", "decimals", "transcend",
         "chance", "files", "directory", "longs", "packed")
TREES = {}  # of the parts that were asked for: a process may compile many programs


class Part(Fields):
    """A piece of the library's text, at a line of a file."""

    file: str
    line: int
    text: str


def path_of(name):
    return os.path.join(FOLDER, f"{name}.pas")


@once
def parts():
    """The declarations of each file, without its procedures; the numbers of the files in whose
    declarations a name is declared; and all procedures by their names, with their files."""
    if not kept():
        from .parts import parts_of_texts  # here, since it takes `re`
        return parts_of_texts()
    rests, places, routines = kept()[0]
    return ([Part(*it) for it in rests], places,
            {name: (number, Part(*it)) for name, (number, it) in routines.items()})


def declarations_of(part):
    """The syntax trees of a part, which nobody changes."""
    if part not in TREES:
        TREES[part] = kept_tree(part) or trees_of(part)
    return TREES[part]


def trees_of(part):
    faults = Faults()
    lexer = Lexer(part.text, part.file, line=part.line)
    lexer.options["R"] = False  # as {$R-} says at the top of each file
    declarations = Parser(lexer.all(), faults).library()
    refuse_first(faults)
    return declarations


def keep_library():
    """Keeps the parts of the library and their trees for the next run, unless they are kept."""
    if kept():
        return
    rests, places, routines = parts()
    own = [*rests, *(part for _, part in routines.values())]
    keep(([it.fields() for it in rests], places,
          {name: (number, part.fields()) for name, (number, part) in routines.items()}),
         ((part, declarations_of(part)) for part in own))


class Library:
    """The symbols of the library by their names: a scope, and what the compiler calls. A procedure
    is declared where it is asked for first, and what stands in front of the procedures of a file
    with the first of its names. A procedure's body is checked by `complete`."""

    def __init__(self, checker, constants):
        self.checker = checker
        self.symbols = {fold(name): ConstantSymbol(INTEGER, it) for name, it in constants.items()}
        self.symbols.update((name, Standard(name)) for name in ("ADDRESS", "REALOF"))
        self.blocks = {}  # of each routine the one that waits to be checked
        rests, self.places, routines = parts()
        self.rests = dict(enumerate(rests))  # that are not declared
        self.routines = dict(routines)  # that nobody has asked for

    def prepare(self, name):
        """Declares what a name may need."""
        for number in self.places.get(name, ()):
            self.declare_rest(number)

    def declare_rest(self, number):
        if number in self.rests:
            self.declare(self.rests.pop(number))

    def __contains__(self, name):
        if name in self.symbols or name in self.routines:
            return True
        self.prepare(name)
        return name in self.symbols

    def __getitem__(self, name):
        if name in self.routines:
            number, part = self.routines.pop(name)
            self.declare_rest(number)
            self.declare(part)
        elif name not in self.symbols:
            self.prepare(name)
        return self.symbols[name]

    def __setitem__(self, name, symbol):
        self.symbols[name] = symbol

    def get(self, name):
        return self.symbols.get(name)

    def declare(self, part):
        """Declares what stands in a part. Its procedures get their bodies later."""
        faults, checker = Faults(), self.checker
        checker.in_library(self, faults,
                           lambda: checker.declare_of_library(declarations_of(part)))
        refuse_first(faults)

    def complete(self, routine):
        """Checks the body of a procedure, before it is made."""
        block = self.blocks.pop(routine, None)
        if block:
            faults, checker = Faults(), self.checker
            checker.in_library(self, faults, lambda: checker.body_of(routine, block))
            refuse_first(faults)


def refuse_first(faults):
    """The library has no fault; one that is put into it is told."""
    if not faults.is_right():
        raise faults.told()[0]
