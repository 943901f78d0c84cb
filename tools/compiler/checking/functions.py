"""Checks the functions of the language."""

from ..parsing import syntax
from . import tree
from .context import low_bit, number
from .files import Files
from .locations import is_packed
from .real_values import FUNCTIONS
from .symbols import FileSymbol, Routine, TypeSymbol, Variable
from .types import BOOLEAN, CHAR, INTEGER, REAL, Pointer, String, is_ordinal, wrap

# The method for each function.
STANDARD = {
    "ABS": "abs_or_square", "SQR": "abs_or_square", "CHR": "chr", "ODD": "odd", "ORD": "ord",
    "SUCC": "neighbour", "PRED": "neighbour", "LENGTH": "length", "POS": "pos",
    "CONCAT": "concat", "COPY": "copy", "EOLN": "end_of", "EOF": "end_of",
    "BLOCKREAD": "blocks", "BLOCKWRITE": "blocks", "IORESULT": "ioresult",
    "MEMAVAIL": "memavail", "SIZEOF": "sizeof", "ADDRESS": "address", "KEYPRESS": "keypress",
    "RANDOM": "random", "SCAN": "scan", "UNITBUSY": "unitbusy", "TRUNC": "whole",
    "ROUND": "whole", "PWROFTEN": "power_of_ten", "REALOF": "made_real",
    **dict.fromkeys(FUNCTIONS, "real_function"),
}


class StandardFunctions(Files):
    def standard_function(self, name, node):
        if name not in STANDARD:
            self.refuse(f"{name} is a procedure, and has no value", node.place)
        return getattr(self, STANDARD[name])(name, node)

    def abs_or_square(self, name, node):
        argument, = self.take(node, 1)
        value = self.value(argument)
        if value.type is REAL:
            return self.size_or_square(name, value, argument)
        self.need(argument, value.type, INTEGER)
        if isinstance(value, tree.Constant):
            result = abs(value.value) if name == "ABS" else value.value ** 2
            return tree.Constant(INTEGER, wrap(result))
        return tree.Operation(INTEGER, ("ABI" if name == "ABS" else "SQI",), [value])

    def retyped(self, value, kind):
        """The same word as a value of another type."""
        if isinstance(value, tree.Constant):
            return tree.Constant(kind, value.value)
        if isinstance(value, tree.Load):
            return tree.Load(kind, value.location)
        if isinstance(value, tree.Operation):
            return tree.Operation(kind, value.instruction, value.operands)
        return tree.Operation(kind, (), [value])

    def chr(self, _name, node):
        return self.retyped(self.integer(*self.take(node, 1)), CHAR)

    def odd(self, _name, node):
        """All bits stay, and the lowest is looked at. So ORD(ODD(A) AND ODD(B)) works on all."""
        return self.retyped(self.integer(*self.take(node, 1)), BOOLEAN)

    def ord(self, _name, node):
        argument, = self.take(node, 1)
        value = self.value(argument)
        if not is_ordinal(value.type) and not isinstance(value.type, Pointer):
            self.refuse_type(argument, value.type, "a character, Boolean or name of a list")
        return self.retyped(value, INTEGER)

    def neighbour(self, name, node):
        value = low_bit(self.ordinal(*self.take(node, 1)))
        step = 1 if name == "SUCC" else -1
        if isinstance(value, tree.Constant):
            return tree.Constant(value.type, wrap(value.value + step))
        instruction = "ADI" if step > 0 else "SBI"
        return tree.Operation(value.type.host, (instruction,), [value, number(1)])

    def length(self, _name, node):
        text = self.string(*self.take(node, 1))
        if isinstance(text, tree.TextValue):
            return number(len(text.text))
        return tree.Operation(INTEGER, ("LDB",), [tree.StringAddress(text), number(0)])

    def pos(self, _name, node):
        wanted, text = (self.string(it) for it in self.take(node, 2))
        return self.call_library("POSITION", tree.StringAddress(wanted), tree.StringAddress(text))

    def concat(self, _name, node):
        parts = [self.string(it) for it in self.take(node, 1, 99)]
        most = sum(longest(part) for part in parts)
        return tree.Concatenation(String(max(1, min(most, 255))), parts)

    def copy(self, _name, node):
        text, at, count = self.take(node, 3)
        text = self.string(text)
        kind = String(max(1, longest(text)))
        return tree.Copied(kind, text, self.integer(at), self.integer(count))

    def ioresult(self, _name, node):
        self.take(node, 0)
        machines = tree.Operation(INTEGER, ("CSP", 34), [])
        return self.call_library("IOOUTCOME", machines) if self.has_files else machines

    def unitbusy(self, _name, node):
        """No unit is ever busy."""
        unit = self.integer(*self.take(node, 1))
        return tree.Operation(BOOLEAN, ("LAND",), [unit, number(0)])

    def keypress(self, _name, node):
        """It is always TRUE: what is typed can only be waited for."""
        self.take(node, 0)
        return tree.Constant(BOOLEAN, 1)

    def random(self, _name, node):
        self.take(node, 0)
        return self.call_library("RANDOMNUMBER")

    def scan(self, _name, node):
        """SCAN(LENGTH, =CHARACTER or <>CHARACTER, VARIABLE)."""
        length, part, target = self.take(node, 3)
        if not isinstance(part, syntax.Unary) or part.operator not in ("=", "<>"):
            self.refuse("SCAN has = or <> in front of the character that it looks for", part.place)
        count, wanted = self.integer(length), self.value(part.operand)
        self.need(part.operand, wanted.type, CHAR)
        is_equal = tree.Constant(BOOLEAN, 1 if part.operator == "=" else 0)
        return self.call_library("SCANBYTES", count, wanted, is_equal, self.bytes_at(target))

    def bytes_at(self, node):
        """The base and the index of the bytes that a variable has."""
        location = self.location(node)
        if is_packed(location) and not is_byte(location):
            self.refuse("a part of a packed array or record of fewer than 8 bits has no address",
                        node.place)
        return tree.ByteAddress(location)

    def memavail(self, _name, node):
        self.take(node, 0)
        return self.call_library("MEMORY")

    def address(self, _name, node):
        """Where a variable lies; the library alone knows this function."""
        return tree.Operation(INTEGER, (), [tree.Address(self.location(*self.take(node, 1)))])

    def sizeof(self, _name, node):
        """The bytes of a type or of a variable."""
        argument, = self.take(node, 1)
        symbol = self.scopes.find(argument) if isinstance(argument, syntax.Name) else None
        if isinstance(symbol, TypeSymbol):
            return number(2 * symbol.type.size)
        if isinstance(symbol, (Routine, FileSymbol)):
            self.refuse("SIZEOF asks for the bytes of a variable or type", argument.place)
        if isinstance(symbol, Variable):
            return number(2 * symbol.type.size)
        return number(2 * self.location(argument).type.size)


def is_byte(location):
    """Whether a location is a whole byte, which LDB and STB reach."""
    return isinstance(location, tree.CharacterAt) or (
        isinstance(location, tree.ElementAt) and location.base.type.is_bytes)


def longest(text):
    """How many characters a string has at most."""
    return len(text.text) if isinstance(text, tree.TextValue) else text.type.most
