"""Checks expressions."""

from ..parsing import syntax
from ..parsing.expressions import PARENTHESES
from . import tree
from .context import kind_of, low_bit, number
from .locations import is_text_literal, is_word, literal_text
from .long_values import LongValues, is_long
from .symbols import ConstantSymbol, FileSymbol, OpenedField, Routine, Standard, Variable
from .types import (BOOLEAN, CHAR, INTEGER, REAL, Array, File, Pointer, Set, String, TextType,
                    is_ordinal, is_same, with_article, wrap)

ARITHMETIC = {"+": "ADI", "-": "SBI", "*": "MPI", "DIV": "DVI", "MOD": "MODI"}
BITWISE = {"AND": "LAND", "OR": "LOR"}
COMPARISONS = {"=": "EQU", "<>": "NEQ", "<": "LES", "<=": "LEQ", ">": "GRT", ">=": "GEQ"}


def is_file(kind):
    return isinstance(kind, File)


def divided(left, right):
    """DIV cuts off what lies behind the point."""
    quotient = abs(left) // abs(right)
    return -quotient if (left < 0) != (right < 0) else quotient


FOLDED = {"+": lambda a, b: a + b, "-": lambda a, b: a - b, "*": lambda a, b: a * b,
          "DIV": divided, "MOD": lambda a, b: a - b * divided(a, b)}
JOINED = {"AND": lambda a, b: a & b, "OR": lambda a, b: a | b}
COMPARED = {"=": lambda a, b: a == b, "<>": lambda a, b: a != b, "<": lambda a, b: a < b,
            "<=": lambda a, b: a <= b, ">": lambda a, b: a > b, ">=": lambda a, b: a >= b}
# The method that makes the value of each node; all others are variables.
VALUES = {syntax.Number: "number", syntax.Text: "quoted", syntax.LongNumber: "long_number",
          syntax.Real: "real_number", syntax.Name: "named", syntax.Call: "call_value",
          syntax.Operation: "operation", syntax.Unary: "unary", syntax.SetOf: "set_of"}


class Values(LongValues):
    def value(self, node):
        """The checked tree of an expression."""
        make = VALUES.get(type(node))
        return getattr(self, make)(node) if make else self.loaded(self.location(node))

    def loaded(self, location):
        return tree.Load(location.type, location)

    def number(self, node):
        if node.value > 32767:
            return self.long_number(node)
        return tree.Constant(INTEGER, node.value)

    def real_number(self, node):
        return tree.RealValue(REAL, self.constant(node).value)

    def quoted(self, node):
        return self.text(node.value)

    def text(self, text):
        """A text in quotes: of one character a CHAR."""
        if len(text) == 1:
            return tree.Constant(CHAR, ord(text))
        return tree.TextValue(TextType(len(text)), text)

    def named(self, name):
        symbol = self.scopes.find(name)
        if isinstance(symbol, ConstantSymbol):
            if isinstance(symbol.type, TextType):
                return tree.TextValue(symbol.type, symbol.value)
            if symbol.type is REAL:
                return tree.RealValue(REAL, symbol.value)
            return tree.Constant(symbol.type, symbol.value)
        if isinstance(symbol, (Variable, OpenedField)):
            return self.loaded(self.variable(name))
        if isinstance(symbol, Routine) and symbol.result:
            return self.routine_call(symbol, name, [])
        if isinstance(symbol, Standard):
            return self.standard_function(symbol.name, syntax.Call(name.place, name, []))
        return self.refuse(f"{name.written} is {kind_of(symbol)}, and has no value", name.place)

    def call_value(self, node):
        symbol = self.scopes.find(node.name)
        if isinstance(symbol, Standard):
            return self.standard_function(symbol.name, node)
        if isinstance(symbol, Routine) and symbol.result:
            return self.routine_call(symbol, node.name, node.arguments)
        why = "has no value" if isinstance(symbol, (Routine, FileSymbol)) else "no function"
        text = f"{node.name.written} is {kind_of(symbol)}"
        return self.refuse(f"{text}, and {why}", node.place)

    def integer(self, node):
        value = self.value(node)
        self.need(node, value.type, INTEGER)
        return value

    def boolean(self, node):
        value = self.value(node)
        self.need(node, value.type, BOOLEAN)
        return value

    def ordinal(self, node):
        value = self.value(node)
        if not is_ordinal(value.type):
            self.refuse_type(node, value.type, "a number, character, Boolean or name of a list")
        return value

    def unary(self, node):
        if node.operator in ("=", "<>"):
            self.refuse(f"{node.operator} in front of a value is of SCAN's second parameter alone",
                        node.place)
        if node.operator == "NOT":
            value = self.boolean(node.operand)
            if isinstance(value, tree.Constant):  # all 16 bits
                return tree.Constant(BOOLEAN, -1 - value.value)
            return tree.Operation(BOOLEAN, ("LNOT",), [value])
        if isinstance(node.operand, syntax.Number) and node.operator == "-":
            return tree.Constant(INTEGER, -node.operand.value)
        value = self.value(node.operand)
        if value.type is REAL:
            return value if node.operator == "+" else self.negative(value)
        if is_long(value):
            return value if node.operator == "+" else self.negative_long(value)
        self.need(node.operand, value.type, INTEGER)
        if node.operator == "+":
            return value
        if isinstance(value, tree.Constant):
            return tree.Constant(INTEGER, wrap(-value.value))
        return tree.Operation(INTEGER, ("NGI",), [value])

    def operation(self, node):
        left, right = self.value(node.left), self.value(node.right)
        if node.operator == "IN":
            return self.membership(node, left, right)
        if node.operator in COMPARISONS:
            return self.comparison(node, left, right)
        if node.operator in BITWISE:
            for part, value in ((node.left, left), (node.right, right)):
                if is_ordinal(value.type, INTEGER):
                    self.refuse_type(part, value.type, "a BOOLEAN", PARENTHESES)
                self.need(part, value.type, BOOLEAN)
            if isinstance(left, tree.Constant) and isinstance(right, tree.Constant):
                return tree.Constant(BOOLEAN, JOINED[node.operator](left.value, right.value))
            return tree.Operation(BOOLEAN, (BITWISE[node.operator],), [left, right])
        if node.operator in "+-*" and isinstance(left.type, Set) and isinstance(right.type, Set):
            return self.set_operation(node, left, right)
        if is_long(left) or is_long(right):
            return self.long_operation(node, left, right)
        if node.operator == "/" or REAL in (left.type, right.type):
            return self.real_operation(node, left, right)
        return self.arithmetic(node, left, right)

    def arithmetic(self, node, left, right):
        self.need(node.left, left.type, INTEGER)
        self.need(node.right, right.type, INTEGER)
        is_known = isinstance(right, tree.Constant)
        if is_known and right.value == 0 and node.operator in ("DIV", "MOD"):
            self.refuse("this divides by 0", node.place)
        if is_known and isinstance(left, tree.Constant):
            result = FOLDED[node.operator](left.value, right.value)
            return tree.Constant(INTEGER, wrap(result))
        return tree.Operation(INTEGER, (ARITHMETIC[node.operator],), [left, right])

    # Comparisons

    def comparison(self, node, left, right):
        is_equality = node.operator in ("=", "<>")
        if is_ordinal(left.type) and is_ordinal(right.type):
            return self.compared_words(node, left, right)
        if isinstance(left.type, Pointer) and isinstance(right.type, Pointer) and is_equality:
            self.need_pointer(right, left.type, node.right)
            return self.compared(node, left, right)
        if isinstance(left.type, Set) and isinstance(right.type, Set):
            return self.compared_sets(node, left, right)
        if is_long(left) or is_long(right):
            order = self.order_of_longs(node, left, right)
            return self.compared_words(node, order, number(0))
        if REAL in (left.type, right.type):
            order = self.order_of_reals(node, left, right)
            return self.compared_words(node, order, number(0))
        if self.is_string(left) and self.is_string(right):
            if is_equality:
                same = self.call_library("SAMETEXT", tree.StringAddress(as_text(left)),
                                         tree.StringAddress(as_text(right)))
                return negated_if(node.operator == "<>", same)
            order = self.call_library("COMPARE", tree.StringAddress(as_text(left)),
                                      tree.StringAddress(as_text(right)))
            return self.compared(node, order, number(0))
        return self.compared_blocks(node, left, right)

    def compared(self, node, left, right):
        """Two words that are compared as numbers."""
        return tree.Operation(BOOLEAN, (COMPARISONS[node.operator] + "I",), [left, right])

    def compared_words(self, node, left, right):
        if left.type.host is not right.type.host:
            self.refuse_type(node.right, right.type, with_article(left.type.host))
        if isinstance(left, tree.Constant) and isinstance(right, tree.Constant):
            holds = COMPARED[node.operator](low_bit(left).value, low_bit(right).value)
            return tree.Constant(BOOLEAN, int(holds))
        if left.type.host is BOOLEAN:  # by the lowest bits
            instruction = (COMPARISONS[node.operator], 6)
            return tree.Operation(BOOLEAN, instruction, [left, right])
        return self.compared(node, left, right)

    def compared_blocks(self, node, left, right):
        """Arrays of characters of one length; records and other arrays, which are equal or not."""
        sizes = [self.characters_of(value) for value in (left, right)]
        if sizes[0] and sizes[0] == sizes[1]:
            order = self.call_library("COMPAREBYTES", self.characters(left), self.characters(right),
                                      number(sizes[0]))
            return self.compared(node, order, number(0))
        is_block = isinstance(left, tree.Load) and not is_word(left.type) | is_file(left.type)
        is_equality = node.operator in ("=", "<>")
        if not is_block or not is_equality or not is_same(left.type, right.type):
            self.refuse(f"{with_article(left.type)} and {with_article(right.type)} cannot be "
                        f"compared by {node.operator}", node.place)
        same = self.call_library("SAMEWORDS", tree.Address(left.location),
                                 tree.Address(right.location), number(left.type.size))
        return negated_if(node.operator == "<>", same)

    def characters_of(self, value):
        """How many characters an array or a text in quotes has; None for all else."""
        if isinstance(value, tree.TextValue):
            return len(value.text)
        is_array = isinstance(value.type, Array) and value.type.is_text
        return value.type.count if is_array else None

    def characters(self, value):
        """The address of an array of characters, or of a text."""
        return value if isinstance(value, tree.TextValue) else tree.Address(value.location)

    # Strings

    def is_string(self, value):
        return isinstance(value.type, String) or is_text_literal(value)

    def string(self, node):
        """A value that is a string: a variable, a text in quotes, CONCAT or COPY."""
        value = self.value(node)
        if not self.is_string(value):
            self.refuse_type(node, value.type, "a STRING")
        return as_text(value)

    def ordered(self, node):
        """A value that counts as a number: of a Boolean the lowest bit."""
        return low_bit(self.ordinal(node))


def negated_if(is_so, value):
    """NOT of a Boolean, or the Boolean itself."""
    return tree.Operation(BOOLEAN, ("LNOT",), [value]) if is_so else value


def as_text(value):
    """One character in quotes as a text; all else as it is."""
    if isinstance(value, tree.Constant):
        return tree.TextValue(TextType(1), literal_text(value))
    return value
