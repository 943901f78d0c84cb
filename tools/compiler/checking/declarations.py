"""Checks declarations, and a whole program."""

from ..parsing import syntax
from ..parsing.lexer import fold
from ..units import APPLESTUFF
from . import tree
from .context import kind_of
from .locations import is_word
from .symbols import Broken, Copy, Parameter, Routine, Scopes, TypeSymbol, Variable
from .types import REAL, File, Ordinal, Pointer, Record, String
from .units import UnitParts, applestuff

MOST_ROUTINES = 255
DEEPEST = 127
# A function's frame begins with two words, of which the first is its value.
RESULT_WORDS = 2
# The method for each declaration.
DECLARED = {syntax.LabelDeclaration: "label", syntax.ConstDeclaration: "const",
            syntax.TypeDeclaration: "type", syntax.VarDeclaration: "variables",
            syntax.RoutineDeclaration: "routine_declaration", syntax.TypesEnd: "meet_targets"}
# The main frame begins with INPUT and OUTPUT, which mean nothing here.
FILE_WORDS = 2


class Checker(UnitParts):
    """The whole checker. Its entry is `check_program`; `library` is given in front of it."""

    def __init__(self, faults, line_end):
        super().__init__(Scopes(), faults, None)
        self.line_end = line_end
        self.main = Routine("PROGRAM", 0, None, None, words=FILE_WORDS, parameter_words=FILE_WORDS)
        self.interfaces = {APPLESTUFF: applestuff()}

    # The run-time library. Its procedures and variables get their numbers and offsets where they
    # are used.

    def in_library(self, library, faults, check):
        """Checks something of the library, where its names are known, and no others."""
        kept = self.scopes, self.faults, self.routine, self.is_library
        self.scopes, self.faults, self.routine, self.is_library = Scopes(), faults, self.main, True
        self.scopes.open(library)
        try:
            check()
        finally:
            self.scopes, self.faults, self.routine, self.is_library = kept

    def declare_of_library(self, nodes):
        """Declares procedures of the library without their bodies, and all else whole."""
        for node in nodes:
            if isinstance(node, syntax.RoutineDeclaration):
                self.library.blocks[self.fresh_routine(node)] = node.block
            else:
                self.declare(node)

    def check_program(self, program, units=(), missing=None, files=()):
        """The routines of a program and its units, the program itself first. `missing` is the
        feature that names which are not declared are taken for."""
        main = self.main
        main.name, main.place, main.number = program.name.written, program.place, 1
        self.routines = [main]
        self.scopes.units, self.routine = missing, main
        begin = [self.file_made(program, name, data) for name, data in files]
        begin += [self.check_unit(unit) for unit in units]
        self.scopes.open({program.name.name: main})
        self.open_units(program.uses)
        self.scopes.open()
        self.block(main, program.block)
        main.body = tree.Block(begin + [main.body])
        return self.routines

    def block(self, routine, block):
        around, self.routine = self.routine, routine
        for declaration in block.declarations:
            self.declare(declaration)
        self.refuse_missing(self.scopes.scopes[-1])
        routine.body = self.statement(block.body)
        routine.endings = self.endings(routine)
        self.check_labels()
        self.routine = around

    def declare(self, node):
        with self.faults.caught():
            getattr(self, DECLARED[type(node)])(node)

    def broken_at_a_fault(self, names, make):
        """What is made; if it has a fault, the names are not told of again."""
        try:
            return make()
        except Exception as fault:
            for name in names:
                if not self.scopes.local(name):
                    self.scopes.declare(name, Broken(getattr(fault, "feature", None)))
            raise

    def label(self, node):
        if node.label in self.routine.labels:
            self.refuse(f"the label {node.label} is declared twice", node.place)
        self.routine.labels[node.label] = "declared"

    def const(self, node):
        symbol = self.broken_at_a_fault([node.name], lambda: self.constant(node.value))
        self.scopes.declare(node.name, symbol)

    def type(self, node):
        kind = self.broken_at_a_fault([node.name], lambda: self.type_of(node.type))
        if isinstance(node.type, syntax.Enumeration) and isinstance(kind, Ordinal):
            kind.name = node.name.written
        elif isinstance(kind, Record) and not kind.name:
            kind.name = node.name.written
        self.scopes.declare(node.name, TypeSymbol(kind))

    def variables(self, node):
        kind = self.broken_at_a_fault(node.names, lambda: self.type_of(node.type))
        is_late = self.is_library and self.routine is self.main  # its offset comes with its use
        for name in node.names:
            offset = 0 if is_late else self.routine.allocate(kind.size, name.place)
            variable = Variable(kind, self.routine, offset)
            if isinstance(kind, File) and self.routine.level:
                self.routine.files.append(variable)
            self.scopes.declare(name, variable)

    # Procedures and functions

    def routine_declaration(self, node):
        known = self.scopes.local(node.name)
        if isinstance(known, Routine) and known.is_forward:
            routine = known
            routine.is_forward = False
            self.check_again(node, routine)
        else:
            routine = self.fresh_routine(node)
        if node.block is None:
            routine.is_forward = True
            return
        self.body_of(routine, node.block)

    def body_of(self, routine, block):
        self.scopes.open()
        try:
            self.declare_parameters(routine)
            self.block(routine, block)
        finally:
            self.scopes.close()

    def check_again(self, node, routine):
        """The heading that comes behind a FORWARD declaration."""
        if node.parameters or node.result:
            self.refuse_another(node, routine)
        if node.is_function != bool(routine.result):
            self.refuse(f"{node.name.written} is declared FORWARD as {kind_of(routine)}",
                        node.place)

    def refuse_another(self, node, routine):
        """Refuses a heading that is repeated, if it is another one."""
        again = Routine(node.name.written, routine.level, routine.parent, node.place)
        self.heading(node, again)
        pairs = list(zip(routine.parameters, again.parameters))
        is_same = (len(routine.parameters) == len(again.parameters)
                   and routine.result is again.result
                   and all(one.type is other.type and one.is_var == other.is_var
                           and fold(one.name) == fold(other.name) for one, other in pairs))
        if not is_same:
            self.refuse(f"{node.name.written} has other parameters or another type here than where "
                        "it was declared first: leave them out here", node.place)

    def fresh_routine(self, node):
        level = self.routine.level + 1
        routine = Routine(node.name.written, level, self.routine, node.place, self.is_library)
        self.scopes.declare(node.name, routine)
        if level > DEEPEST:
            self.refuse(f"procedures are nested at most {DEEPEST} deep", node.place)
        if not self.is_library:
            self.routines.append(routine)
            routine.number = len(self.routines)
            if routine.number > MOST_ROUTINES:
                self.refuse(f"a program has at most {MOST_ROUTINES} procedures, those of the "
                            "library among them", node.place)
        try:
            self.heading(node, routine)
        except Exception as fault:
            feature = getattr(fault, "feature", None)
            self.scopes.declare(node.name, Broken(feature), is_again=True)
            raise
        return routine

    def heading(self, node, routine):
        for group in node.parameters or []:
            kind = self.type_of(group.type)
            if isinstance(kind, File) and not group.is_var:
                self.refuse("a file is a VAR parameter", group.place)
            for name in group.names:
                routine.parameters.append(Parameter(name.written, kind, group.is_var, name.place))
        if node.is_function:
            if not node.result:
                self.refuse(f"the function {node.name.written} has no type: a : and its type are "
                            "wanted", node.place)
            routine.result = self.type_of(node.result)
            if isinstance(routine.result, String):
                self.refuse("UCSD Pascal had no functions that give a STRING: take a VAR parameter "
                            "for it", node.result.place)
            if not isinstance(routine.result, (Ordinal, Pointer)) and routine.result is not REAL:
                self.refuse(f"a function gives a number, character, Boolean, name of a list or "
                            f"pointer, and not a {routine.result}: take a VAR parameter",
                            node.result.place)
        words = sum(map(pushed_words, routine.parameters))
        words += RESULT_WORDS if node.is_function else 0
        routine.words = routine.parameter_words = words

    def declare_parameters(self, routine):
        """The first parameter is pushed first, and so has the greatest offset."""
        offset = routine.parameter_words + 1
        for parameter in routine.parameters:
            offset -= pushed_words(parameter)
            kind = parameter.type
            if parameter.is_var or is_word(kind) or kind is REAL:
                variable = Variable(kind, routine, offset, parameter.is_var)
            else:
                copy = routine.allocate(kind.size, parameter.place)
                routine.copies.append(Copy(copy, offset, kind))
                variable = Variable(kind, routine, copy)
            name = syntax.Name(parameter.place, fold(parameter.name), parameter.name)
            with self.faults.caught():
                self.scopes.declare(name, variable)


def pushed_words(parameter):
    """How many words a call pushes for a parameter."""
    return 2 if parameter.type is REAL and not parameter.is_var else 1
