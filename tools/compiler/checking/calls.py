"""Checks calls of procedures and functions, and their parameters."""

from . import tree
from .locations import is_packed, is_word
from .sets import Sets
from .types import REAL, Long, Set, String, is_ordinal, is_same, with_article


class Calls(Sets):
    def routine_call(self, routine, name, arguments):
        """A call of a procedure or function of the program."""
        if len(arguments) != len(routine.parameters):
            self.refuse_count(name, str(len(routine.parameters)), len(arguments))
        given = []
        for parameter, argument in zip(routine.parameters, arguments):
            self.refuse_width(argument)
            make = self.by_address if parameter.is_var else self.by_value
            given.append(make(parameter, argument.value))
        return tree.Call(routine.result, routine, given)

    def refuse_count(self, name, wanted, given):
        """Refuses too few or too many parameters."""
        many = "" if wanted == "1" else "s"
        verb = "is" if given == 1 else "are"
        self.refuse(f"{name.written} has {wanted} parameter{many}, and {given} {verb} given",
                    name.place)

    def refuse_width(self, argument):
        if argument.width:
            self.refuse("a width behind : is of WRITE alone", argument.width.place)

    def by_address(self, parameter, node):
        location = self.location(node)
        wanted, kind = parameter.type, location.type
        is_fitting = (self.is_library  # where a parameter takes the address of anything
                      or is_ordinal(kind) and is_ordinal(wanted, kind.host)
                      or isinstance(kind, String) and isinstance(wanted, String)
                      or is_same(kind, wanted))
        if not is_fitting:
            self.refuse_type(node, kind, f"{with_article(wanted)}, for the VAR parameter "
                             f"{parameter.name},")
        self.refuse_packed(location, node)
        return tree.Address(location)

    def refuse_packed(self, location, node):
        if is_packed(location):
            self.refuse("a part of a packed array, packed record or string has no address of its "
                        "own: put it into a variable, and give that", node.place)

    def by_value(self, parameter, node):
        return self.block_or_word(self.value(node), parameter.type, node)

    def block_or_word(self, value, wanted, node):
        """What is pushed for a value of a type: the value, or the address of its words."""
        if is_word(wanted):
            return self.fitted(value, wanted, node, node.place.is_checked)
        if wanted is REAL:
            return self.real(value, node)
        if isinstance(wanted, Long):
            return self.long_given(self.long(value, node), wanted)
        if isinstance(wanted, String):
            return tree.StringAddress(self.string(node))
        if isinstance(wanted, Set):
            if not isinstance(value.type, Set):
                self.refuse_type(node, value.type, with_article(wanted))
            self.need_set(node, value, wanted)
            return tree.SetAddress(value, wanted.size)
        if self.is_fitting_text(value, wanted):
            return value
        if not is_same(value.type, wanted) or not isinstance(value, tree.Load):
            self.refuse_type(node, value.type, with_article(wanted))
        return tree.Address(value.location)

    def long_given(self, value, wanted):
        """The address of a long integer for a value parameter."""
        if isinstance(value, tree.Load) and value.type.most == wanted.most:
            return tree.Address(value.location)
        return tree.LongFitted(self.library["NARROW"], value, wanted)

    def is_fitting_text(self, value, wanted):
        """Whether a value is a text in quotes for an array of so many characters."""
        if not isinstance(value, tree.TextValue):
            return False
        return getattr(wanted, "is_text", False) and wanted.count == len(value.text)

    # Arguments of standard procedures and functions

    def take(self, node, least, most=None):
        """The values of the arguments of a standard procedure, of which there have to be so
        many."""
        count = len(node.arguments)
        if not least <= count <= (most or least):
            self.refuse_count(node.name, f"{least} to {most}" if most else str(least), count)
        for argument in node.arguments:
            self.refuse_width(argument)
        return [argument.value for argument in node.arguments]

    def string_variable(self, node):
        location = self.location(node)
        if not isinstance(location.type, String):
            self.refuse_type(node, location.type, "a STRING")
        return location
