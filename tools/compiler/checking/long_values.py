"""Checks long integers, INTEGER[N]. An INTEGER becomes one where it is needed."""

from . import tree
from .context import number
from .real_values import RealValues
from .types import INTEGER, LONG, MOST_DIGITS, Long, is_ordinal

ROUTINES = {"+": "ADDLONG", "-": "SUBLONG", "*": "MULLONG", "DIV": "DIVLONG"}


def is_long(value):
    return isinstance(value.type, Long)


class LongValues(RealValues):
    def long(self, value, node):
        """A whole number as a long integer."""
        if is_long(value):
            return value
        if not is_ordinal(value.type, INTEGER):
            self.refuse_type(node, value.type, "an INTEGER or a long integer")
        if isinstance(value, tree.Constant):
            return tree.LongValue(LONG, value.value)
        return tree.LongOf(LONG, value)

    def long_number(self, node):
        """A number above 32767."""
        if node.value >= 10 ** MOST_DIGITS:
            self.refuse(f"a long integer has at most {MOST_DIGITS} digits", node.place)
        return tree.LongValue(LONG, node.value)

    def long_operation(self, node, left, right):
        if node.operator not in ROUTINES:
            self.refuse(f"long integers have + - * DIV and comparisons, and not {node.operator}",
                        node.place)
        routine = self.library[ROUTINES[node.operator]]
        return tree.LongOperation(LONG, routine, self.long(left, node.left),
                                  self.long(right, node.right))

    def order_of_longs(self, node, left, right):
        left, right = self.long(left, node.left), self.long(right, node.right)
        return self.call_library("COMPARELONGS", tree.LongAddress(left), tree.LongAddress(right))

    def negative_long(self, value):
        if isinstance(value, tree.LongValue):
            return tree.LongValue(LONG, -value.value)
        return tree.LongNegative(LONG, value)

    def long_assigned(self, place, location, value):
        """Puts a long integer into a variable, of which the digits have to be enough."""
        kind = location.type
        if isinstance(value, tree.Load) and value.type.most == kind.most:
            return tree.MoveWords(place, location, tree.Address(value.location), kind.size)
        call = self.call_library("NARROW", tree.Address(location), tree.LongAddress(value),
                                 number(kind.size - 1), number(9 if kind.most % 2 else 99))
        return tree.Perform(place, call)

    def whole(self, name, node):
        """TRUNC has long integers, too."""
        argument, = self.take(node, 1)
        value = self.value(argument)
        if name == "TRUNC" and is_long(value):
            return self.call_library("TRUNCLONG", tree.LongAddress(value))
        return super().whole(name, node)
