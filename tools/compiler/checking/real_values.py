"""Checks values of the type REAL. An INTEGER becomes one where it is needed."""

from . import tree
from .locations import Locations
from .reals import SIGN, calculated, order_of, real_of, whole_of
from .types import INTEGER, REAL, is_ordinal

ROUTINES = {"+": "ADDREALS", "-": "SUBREALS", "*": "MULREALS", "/": "DIVREALS"}
FUNCTIONS = {"SIN": "SINE", "COS": "COSINE", "ATAN": "ARCTANGENT", "ARCTAN": "ARCTANGENT",
             "EXP": "EXPONENTIAL", "LN": "LOGARITHM", "LOG": "LOGTEN", "SQRT": "ROOT"}
MOST_TENS = 37


class RealValues(Locations):
    def real(self, value, node):
        """A number as a REAL."""
        if value.type is REAL:
            return value
        if not is_ordinal(value.type, INTEGER):
            self.refuse_type(node, value.type, "a REAL")
        if isinstance(value, tree.Constant):
            return tree.RealValue(REAL, real_of(value.value))
        return self.call_library("FLOATED", value)

    def fitting(self, bits, node):
        """A REAL that is known, if it is not too great."""
        if bits is None:
            self.refuse("this is above 3.40282E38, the greatest REAL", node.place)
        return tree.RealValue(REAL, bits)

    def real_operation(self, node, left, right):
        """+ - * and / with a REAL; / of two INTEGERs too."""
        if node.operator not in ROUTINES:
            self.need(node.left, left.type, INTEGER)
            self.need(node.right, right.type, INTEGER)
        left, right = self.real(left, node.left), self.real(right, node.right)
        if isinstance(right, tree.RealValue):
            if node.operator == "/" and not right.value:
                self.refuse("this divides by 0", node.place)
            if isinstance(left, tree.RealValue):
                return self.fitting(calculated(node.operator, left.value, right.value), node)
        return self.call_library(ROUTINES[node.operator], left, right)

    def order_of_reals(self, node, left, right):
        """A number below 0, 0 or above 0, as one REAL is below, equal to or above the other."""
        left, right = self.real(left, node.left), self.real(right, node.right)
        if isinstance(left, tree.RealValue) and isinstance(right, tree.RealValue):
            order = order_of(left.value, right.value)
            return tree.Constant(INTEGER, (order > 0) - (order < 0))
        return self.call_library("COMPAREREALS", left, right)

    def negative(self, value):
        if isinstance(value, tree.RealValue):
            return tree.RealValue(REAL, value.value ^ SIGN if value.value else 0)
        return self.call_library("NEGATED", value)

    def size_or_square(self, name, value, node):
        """ABS or SQR of a REAL."""
        if not isinstance(value, tree.RealValue):
            return self.call_library("WITHOUTSIGN" if name == "ABS" else "SQUARED", value)
        if name == "ABS":
            return tree.RealValue(REAL, value.value & ~SIGN)
        return self.fitting(calculated("*", value.value, value.value), node)

    def whole(self, name, node):
        """TRUNC and ROUND."""
        argument, = self.take(node, 1)
        value = self.real(self.value(argument), argument)
        is_rounded = name == "ROUND"
        if not isinstance(value, tree.RealValue):
            return self.call_library("WHOLE", value, tree.Constant(INTEGER, int(is_rounded)))
        number = whole_of(value.value, is_rounded)
        if not -32768 <= number <= 32767:
            self.refuse(f"{number} is outside -32768..32767, the INTEGERs", argument.place)
        return tree.Constant(INTEGER, number)

    def real_function(self, name, node):
        argument, = self.take(node, 1)
        return self.call_library(FUNCTIONS[name], self.real(self.value(argument), argument))

    def power_of_ten(self, _name, node):
        argument, = self.take(node, 1)
        value = self.integer(argument)
        if not isinstance(value, tree.Constant):
            return self.call_library("TENPOWER", value)
        if not 0 <= value.value <= MOST_TENS:
            self.refuse(f"PWROFTEN has a number from 0 to {MOST_TENS}, and not {value.value}",
                        argument.place)
        return tree.RealValue(REAL, real_of(10 ** value.value))

    def made_real(self, _name, node):
        """A REAL of its two words; the library alone knows this function."""
        return tree.Operation(REAL, (), [self.integer(it) for it in self.take(node, 2)])
