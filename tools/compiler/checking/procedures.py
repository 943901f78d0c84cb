"""Checks the procedures of the language, but for READ and WRITE."""

from ..parsing import syntax
from . import tree
from .context import number
from .functions import StandardFunctions
from .long_values import is_long
from .symbols import Routine
from .types import CHAR, INTEGER, Pointer, String, is_ordinal

UNITREAD, UNITWRITE, HALT, IOCHECK = 5, 6, 39, 0
# The method for each procedure.
STANDARD = {
    "CLOSE": "close", "DELETE": "delete", "DISPOSE": "dispose", "EXIT": "exit",
    "FILLCHAR": "fillchar", "GET": "get_or_put", "GOTOXY": "gotoxy", "HALT": "halt",
    "INSERT": "insert", "MARK": "mark", "MOVELEFT": "move", "MOVERIGHT": "move", "NEW": "new",
    "NOTE": "note", "PAGE": "page", "PUT": "get_or_put", "RANDOMIZE": "randomize",
    "READ": "read", "READLN": "read", "RELEASE": "release", "RESET": "open",
    "REWRITE": "open", "SEEK": "seek", "STR": "str", "TIME": "time",
    "UNITCLEAR": "unit_alone", "UNITREAD": "transfer", "UNITWAIT": "unit_alone",
    "UNITWRITE": "transfer", "WRITE": "write", "WRITELN": "write",
}


class StandardProcedures(StandardFunctions):
    def standard_procedure(self, name, node):
        if name not in STANDARD:
            self.refuse(f"{name} is a function: its value goes nowhere", node.place)
        return getattr(self, STANDARD[name])(name, node)

    # Strings

    def delete(self, _name, node):
        text, at, count = self.take(node, 3)
        text = tree.Address(self.string_variable(text))
        return self.perform(node, "DELETETEXT", text, self.integer(at), self.integer(count))

    def insert(self, _name, node):
        part, text, at = self.take(node, 3)
        part = self.string(part)
        if isinstance(part, tree.Load):  # it may be the string into which it goes
            part = tree.Concatenation(String(max(1, part.type.most)), [part])
        part = tree.StringAddress(part)
        location = self.string_variable(text)
        most, text = number(location.type.most), tree.Address(location)
        return self.perform(node, "INSERTTEXT", part, text, self.integer(at), most)

    def str(self, _name, node):
        value, text = self.take(node, 2)
        location = self.string_variable(text)
        most, number_given = number(location.type.most), self.value(value)
        if is_long(number_given):
            return self.perform(node, "STRLONG", tree.LongAddress(number_given),
                                tree.Address(location), most)
        self.need(value, number_given.type, INTEGER)
        return self.perform(node, "DIGITS", number_given, tree.Address(location), most)

    # Bytes

    def fillchar(self, _name, node):
        target, count, character = self.take(node, 3)
        value = self.value(character)
        if not is_ordinal(value.type, INTEGER):  # of a number the lowest 8 bits are taken
            self.need(character, value.type, CHAR)
        return self.perform(node, "FILL", self.bytes_at(target), self.integer(count), value)

    def move(self, name, node):
        source, target, count = self.take(node, 3)
        return self.perform(node, name, self.bytes_at(source), self.bytes_at(target),
                            self.integer(count))

    def transfer(self, name, node):
        """UNITREAD(UNIT, VARIABLE, LENGTH [, BLOCK [, MODE]])."""
        unit, buffer, length, *rest = self.take(node, 3, 5)
        values = [self.integer(unit), self.bytes_at(buffer), self.integer(length)]
        values += [self.integer(it) for it in rest] + [number(0)] * (2 - len(rest))
        number_of = UNITREAD if name == "UNITREAD" else UNITWRITE
        done = tree.Transfer(node.place, number_of, values)
        if self.has_files and not self.is_library:
            done = tree.Block([self.begun(node), done])
        if not node.place.is_io_checked:
            return done
        return tree.Block([done, self.instruction(node, "CSP", IOCHECK)])

    def unit_alone(self, _name, node):
        """UNITCLEAR(UNIT) and UNITWAIT(UNIT): nothing waits in a unit."""
        return self.perform(node, "IGNORE", self.integer(*self.take(node, 1)))

    def note(self, _name, node):
        """NOTE(PITCH, DURATION): nothing is heard."""
        return tree.Block([self.perform(node, "IGNORE", self.integer(it))
                           for it in self.take(node, 2)])

    def randomize(self, _name, node):
        self.take(node, 0)
        return self.perform(node, "RESEED")

    def time(self, _name, node):
        """TIME(HIGH, LOW)."""
        high, low = (self.integer_variable(it) for it in self.take(node, 2))
        return tree.Block([self.perform(node, "TICK"),
                           tree.Assign(node.place, high, self.library_value("TICKSHIGH")),
                           tree.Assign(node.place, low, self.library_value("TICKSLOW"))])

    def integer_variable(self, node):
        location = self.location(node)
        if location.type is not INTEGER:
            self.refuse_type(node, location.type, "an INTEGER")
        return location

    def instruction(self, node, *instruction):
        return tree.Perform(node.place, tree.Operation(None, instruction, []))

    # The heap

    def pointer(self, node):
        location = self.location(node)
        if not isinstance(location.type, Pointer):
            self.refuse_type(node, location.type, "a pointer")
        return location

    def new(self, _name, node):
        """NEW(POINTER); the tags of variants that may follow save nothing."""
        target, *tags = self.take(node, 1, 9)
        for tag in tags:
            self.ordinal(tag)
        location = self.pointer(target)
        if not location.type.target:
            self.refuse_type(target, location.type, "a pointer to a type")
        size = number(max(1, location.type.target.size))
        return tree.Assign(node.place, location, self.call_library("TAKEROOM", size))

    def dispose(self, _name, node):
        """DISPOSE(POINTER), which gives nothing back."""
        target, *tags = self.take(node, 1, 9)
        for tag in tags:
            self.ordinal(tag)
        self.pointer(target)
        self.faults.note("DISPOSE gives no memory back: MARK and RELEASE do", node.place)
        return tree.Block([])

    def mark(self, _name, node):
        location = self.pointer(*self.take(node, 1))
        return tree.Assign(node.place, location, self.call_library("TAKEROOM", number(0)))

    def release(self, _name, node):
        location = self.pointer(*self.take(node, 1))
        return self.perform(node, "GIVEBACK", tree.Load(location.type, location))

    # The end, and the screen

    def exit(self, _name, node):
        name, = self.take(node, 1)
        if not isinstance(name, syntax.Name):
            self.refuse("EXIT has the name of a procedure, or PROGRAM", node.place)
        if name.name == "PROGRAM":
            return tree.Exit(node.place, self.main)
        symbol = self.scopes.find(name)
        if not isinstance(symbol, Routine):
            self.refuse(f"EXIT ends a procedure, and {name.written} is none", name.place)
        return tree.Exit(node.place, symbol)

    def halt(self, _name, node):
        self.take(node, 0)
        return self.instruction(node, "CSP", HALT)

    def gotoxy(self, _name, node):
        return self.perform(node, "SCREENXY", *(self.integer(it) for it in self.take(node, 2)))

    def page(self, _name, node):
        self.take(node, 0, 1)
        file, rest = self.file_of(node.arguments)
        if rest or file == "INPUT":
            self.refuse("PAGE has the file OUTPUT, or none", node.place)
        if file is None or isinstance(file, str):
            return self.perform(node, "CLEARSCREEN")
        return self.perform(node, "PAGEFILE", self.number_of(file))
