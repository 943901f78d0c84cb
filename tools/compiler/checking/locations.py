"""Checks variables, with their indices, fields and targets."""

from ..parsing import syntax
from . import tree
from .context import kind_of, low_bit, number
from .declared_types import TypeMaker
from .symbols import READ_FILES, FileSymbol, OpenedField, Variable
from .types import CHAR, INTEGER, Array, File, Ordinal, Pointer, Record, String, is_ordinal

# The method that makes the location of each node.
LOCATIONS = {syntax.Name: "variable", syntax.Index: "indexed", syntax.Field: "field",
             syntax.Dereference: "target"}


class Locations(TypeMaker):
    def location(self, node):
        """The location of a variable."""
        if type(node) not in LOCATIONS:
            self.refuse("a variable is wanted here", node.place)
        return getattr(self, LOCATIONS[type(node)])(node)

    def variable(self, name):
        symbol = self.scopes.find(name)
        if isinstance(symbol, Variable):
            return tree.VariableAt(symbol.type, symbol)
        if isinstance(symbol, OpenedField):
            opened = tree.Opened(symbol.opening.type, symbol.opening)
            return tree.FieldAt(symbol.field.type, opened, symbol.field)
        return self.refuse(f"{name.written} is {kind_of(symbol)}, and a variable is wanted here",
                           name.place)

    def indexed(self, node):
        base = self.location(node.base)
        if isinstance(base.type, String):
            index = self.value(node.index)
            self.need(node.index, index.type, INTEGER)
            return tree.CharacterAt(CHAR, base, index, node.place.is_checked)
        if not isinstance(base.type, Array):
            self.refuse_type(node.base, base.type, "an ARRAY or a STRING")
        wanted = base.type.index
        index = self.value(node.index)
        self.need(node.index, index.type, wanted.host)
        return tree.ElementAt(base.type.element, base,
                              self.in_range(index, wanted, node.index, node.place.is_checked))

    def field(self, node):
        base = self.location(node.base)
        if not isinstance(base.type, Record):
            self.refuse_type(node.base, base.type, "a RECORD")
        field = base.type.fields.get(node.name.name)
        if not field:
            self.refuse(f"{base.type} has no field {node.name.written}", node.name.place)
        return tree.FieldAt(field.type, base, field)

    def file_named(self, node):
        """INPUT, OUTPUT or KEYBOARD, or the location of a file, if that is what is named; else
        None."""
        symbol = self.scopes.find(node) if isinstance(node, syntax.Name) else None
        if isinstance(symbol, Variable) and isinstance(symbol.type, File):
            return self.location(node)
        return symbol.name if isinstance(symbol, FileSymbol) else None

    def number_of(self, file):
        """The number of a file in the library. A variable has it, if the file is open."""
        if file is None or isinstance(file, str):
            return number(READ_FILES[file or "INPUT"])
        return self.call_library("OPENED", tree.Load(INTEGER, file))

    def window(self, file, node):
        """FILE^: the character that was read last."""
        if file == "OUTPUT":
            self.refuse("OUTPUT is written at once, and has no window: take WRITE", node.place)
        if not isinstance(file, str) and not file.type.is_text:
            if not file.type.element:
                self.refuse("a FILE without a type of records has no window", node.place)
            return self.element_of(file)
        windows = self.library["WINDOW"]
        whole = tree.VariableAt(windows.type, windows)
        number_of = self.number_of(file)
        if self.has_files:
            number_of = self.call_library("PEEKED", number_of)
        return tree.ElementAt(CHAR, whole, number_of)

    def target(self, node):
        file = self.file_named(node.base)
        if file:
            return self.window(file, node)
        pointer = self.location(node.base)
        if not isinstance(pointer.type, Pointer) or not pointer.type.target:
            self.refuse_type(node.base, pointer.type, "a pointer")
        return tree.Target(pointer.type.target, tree.Load(pointer.type, pointer))

    def in_range(self, value, wanted, node, is_checked):
        """A value that has to be in the range of a type: by the compiler, or by CHK."""
        value = low_bit(value)
        if isinstance(value, tree.Constant):
            if not wanted.low <= value.value <= wanted.high:
                shown = wanted.shown
                self.refuse(f"{shown(value.value)} is outside {shown(wanted.low)}.."
                            f"{shown(wanted.high)}", node.place)
            return value
        if not is_checked:
            return value
        bounds = [number(wanted.low), number(wanted.high)]
        return tree.Operation(value.type, ("CHK",), [value] + bounds)

    def fitted(self, value, wanted, node, is_checked):
        """A value of one word that is assigned to a type. Whole types are not checked: a sum may
        be what it likes."""
        if isinstance(wanted, Pointer):
            self.need_pointer(value, wanted, node)
            return value
        self.need(node, value.type, wanted.host)
        if wanted is wanted.host:
            return value
        return self.in_range(value, wanted, node, is_checked)

    def need_pointer(self, value, wanted, node):
        if not isinstance(value.type, Pointer):
            self.refuse_type(node, value.type, "a pointer")
        other = value.type.target
        if other and wanted.target and other is not wanted.target:
            self.refuse(f"this points to another type: {value.type} is no {wanted}", node.place)


def is_packed(location):
    """Whether a location has no address, since it shares its word."""
    if isinstance(location, tree.FieldAt):
        return location.field.is_packed
    return (isinstance(location, tree.CharacterAt)
            or isinstance(location, tree.ElementAt) and location.base.type.per_word > 1)


def is_word(kind):
    """Whether values of a type are one word, and are pushed."""
    return isinstance(kind, (Ordinal, Pointer))


def is_text_literal(value):
    """Whether a value is a text in quotes, which also one character may be."""
    return isinstance(value, tree.TextValue) or (
        isinstance(value, tree.Constant) and is_ordinal(value.type, CHAR))


def literal_text(value):
    """The text that a text in quotes is; of CHR of a number that is known the lowest 8 bits."""
    return value.text if isinstance(value, tree.TextValue) else chr(value.value & 255)
