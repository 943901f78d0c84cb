"""What all parts of the checker stand on: the names that are known, the routine that is checked,
and how a fault is told."""

from pcode.faults import Fault

from ..parsing import syntax
from ..parsing.lexer import fold
from . import tree
from .symbols import (ConstantSymbol, FileSymbol, OpenedField, Routine, Standard, TypeSymbol,
                      Variable)
from .reals import SIGN, real_of_text
from .types import BOOLEAN, INTEGER, REAL, Long, is_ordinal, with_article

KINDS = {ConstantSymbol: "a constant", TypeSymbol: "a type", Variable: "a variable",
         OpenedField: "a field", Standard: "a standard procedure", FileSymbol: "a file"}


def kind_of(symbol):
    """What a name is, as a person says it."""
    if isinstance(symbol, Routine):
        return "a function" if symbol.result else "a procedure" if symbol.level else "the program"
    return KINDS[type(symbol)]


class Context:
    """The checker's state. `library` has the symbols of the run-time library."""

    def __init__(self, scopes, faults, library):
        self.scopes, self.faults, self.library = scopes, faults, library
        self.routine = None  # the one that is checked
        self.routines = []  # all that have a body, in the order of their numbers
        self.is_library = False  # whether the library itself is checked
        self.texts = {}  # of each text that is known how often it is written

    def refuse(self, text, place):
        raise Fault(text, place)

    def refuse_type(self, node, kind, wanted, hint=""):
        """Refuses a value or variable of another type than is wanted."""
        what = f"{node.written} is" if isinstance(node, syntax.Name) else "this is"
        self.refuse(f"{what} {with_article(kind)}, and {wanted} is wanted here{hint}",
                    node.place)

    def need(self, node, kind, wanted):
        """Refuses a value of another host than is wanted."""
        if not is_ordinal(kind, wanted):
            is_literal = isinstance(node, (syntax.Number, syntax.LongNumber))
            if is_literal and isinstance(kind, Long):
                self.refuse(f"{node.value} is above 32767, the greatest INTEGER", node.place)
            hint = ": TRUNC or ROUND makes one" if kind is REAL and wanted is INTEGER else ""
            hint = ": TRUNC makes one" if isinstance(kind, Long) and wanted is INTEGER else hint
            self.refuse_type(node, kind, with_article(wanted), hint)

    def constant(self, node):
        """What a constant of the syntax tree is: a ConstantSymbol."""
        if isinstance(node, syntax.Unary):
            return self.signed(node)
        if isinstance(node, syntax.Number):
            if node.value > 32767:
                self.refuse("32768 is above 32767, the greatest INTEGER", node.place)
            return ConstantSymbol(INTEGER, node.value)
        if isinstance(node, syntax.LongNumber):
            self.refuse(f"{node.value} is above 32767, the greatest INTEGER: a long integer is no "
                        "constant of a name, a range or CASE", node.place)
        if isinstance(node, syntax.Real):
            bits = real_of_text(node.written)
            if bits is None:
                self.refuse(f"{node.written[:24]} is above 3.40282E38, the greatest REAL",
                            node.place)
            return ConstantSymbol(REAL, bits)
        if isinstance(node, syntax.Text):
            value = self.text(node.value)
            is_text = isinstance(value, tree.TextValue)
            return ConstantSymbol(value.type, value.text if is_text else value.value)
        symbol = self.scopes.find(node)
        if not isinstance(symbol, ConstantSymbol):
            self.refuse(f"{node.written} is {kind_of(symbol)}, and a constant is wanted here",
                        node.place)
        return symbol

    def signed(self, node):
        """A constant with a sign; 32768 has one alone."""
        operand = node.operand
        if isinstance(operand, syntax.Number) and node.operator == "-":
            return ConstantSymbol(INTEGER, -operand.value)
        symbol = self.constant(operand)
        if symbol.type is REAL:
            is_turned = node.operator == "-" and symbol.value
            return ConstantSymbol(REAL, symbol.value ^ SIGN if is_turned else symbol.value)
        self.need(operand, symbol.type, INTEGER)
        return ConstantSymbol(INTEGER, -symbol.value if node.operator == "-" else symbol.value)

    def ordinal_constant(self, node):
        symbol = self.constant(node)
        if not is_ordinal(symbol.type):
            self.refuse_type(node, symbol.type, "a number, character or name of a list")
        return symbol

    def library_value(self, name):
        """The value of a variable of the library."""
        variable = self.library[fold(name)]
        return tree.Load(variable.type, tree.VariableAt(variable.type, variable))

    def call_library(self, name, *arguments):
        """A call of a procedure or function of the run-time library."""
        routine = self.library[fold(name)]
        return tree.Call(routine.result, routine, list(arguments))


def number(value):
    return tree.Constant(INTEGER, value)


def low_bit(value):
    """A Boolean as 0 or 1. The machine looks at its lowest bit alone, and NOT changes all 16."""
    if not is_ordinal(value.type, BOOLEAN):
        return value
    if isinstance(value, tree.Constant):
        return tree.Constant(value.type, value.value & 1)
    return tree.Operation(value.type, ("LAND",), [value, number(1)])
