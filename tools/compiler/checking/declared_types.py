"""Makes types of what is declared."""

from ..faults import Known
from ..parsing import syntax
from .context import Context, kind_of
from .layout import Layout
from .symbols import ConstantSymbol, TypeSymbol
from .types import (CHAR, MOST_DIGITS, MOST_ELEMENT, MOST_WORDS, WORD, Array, File, Long, Ordinal,
                    Pointer, Record, Set, String)

# The method that makes the type of each node.
TYPES = {syntax.Name: "named_type", syntax.StringType: "string_type",
         syntax.Enumeration: "enumeration", syntax.Subrange: "subrange",
         syntax.ArrayType: "array_type", syntax.RecordType: "record_type",
         syntax.SetType: "set_type", syntax.PointerType: "pointer_type",
         syntax.LongType: "long_type", syntax.AbsentType: "absent_type",
         syntax.FileType: "file_type"}


class TypeMaker(Context):
    """Makes types. Pointers wait for their targets until the end of their part."""

    def __init__(self, *words):
        super().__init__(*words)
        self.waiting = []  # pairs of a pointer and the name of its target

    def type_of(self, node):
        return getattr(self, TYPES[type(node)])(node)

    def absent_type(self, node):
        raise Known(node.feature, is_counted=False)  # the parser has told of it

    def named_type(self, node):
        symbol = self.scopes.find(node)
        if not isinstance(symbol, TypeSymbol):
            self.refuse(f"{node.written} is {kind_of(symbol)}, and a type is wanted here",
                        node.place)
        return symbol.type

    def string_type(self, node):
        symbol = self.ordinal_constant(node.length)
        if not 1 <= symbol.value <= 255:
            self.refuse(f"a STRING has room for 1 to 255 characters, and not {symbol.value}",
                        node.length.place)
        return String(symbol.value)

    def long_type(self, node):
        symbol = self.ordinal_constant(node.length)
        if not 1 <= symbol.value <= MOST_DIGITS:
            self.refuse(f"a long integer has 1 to {MOST_DIGITS} digits, and not {symbol.value}",
                        node.length.place)
        return Long(symbol.value)

    def enumeration(self, node):
        kind = Ordinal(None, 0, len(node.names) - 1)
        kind.name = f"({', '.join(name.written for name in node.names)})"
        for value, name in enumerate(node.names):
            self.scopes.declare(name, ConstantSymbol(kind, value))
        return kind

    def subrange(self, node):
        low, high = self.ordinal_constant(node.low), self.ordinal_constant(node.high)
        if low.type.host is not high.type.host:
            self.refuse_type(node.high, high.type, f"{low.type.host}, as the least value,")
        if low.value > high.value:
            shown = low.type.shown
            self.refuse(f"a range begins with its least value: {shown(low.value)} is above "
                        f"{shown(high.value)}", node.low.place)
        return Ordinal(None, low.value, high.value, low.type.host)

    def array_type(self, node):
        index = self.type_of(node.index)
        if not isinstance(index, Ordinal):
            self.refuse_type(node.index, index, "a range, CHAR, BOOLEAN or a list of names")
        element = self.type_of(node.element)
        self.refuse_file(element, node.place)
        if index.high - index.low >= MOST_WORDS * WORD:
            self.refuse(f"the array has more than {MOST_WORDS} words", node.place)
        array = Array(index, element, node.is_packed)
        if array.size > MOST_WORDS:
            self.refuse(f"the array has {array.size} words, and {MOST_WORDS} are all that a "
                        "machine has", node.place)
        return array

    def refuse_file(self, kind, place):
        if isinstance(kind, File):
            self.refuse("a file is a variable of its own, and no part of another", place)

    def record_type(self, node):
        record = Record(node.is_packed)
        self.lay_out(node.fields, Layout(record))
        if record.size > MOST_WORDS:
            self.refuse(f"the record has more than {MOST_WORDS} words", node.place)
        return record

    def lay_out(self, fields, layout):
        for group in fields.groups:
            kind = self.type_of(group.type)
            for name in group.names:
                self.add_field(name, kind, layout)
        if fields.variants:
            self.lay_out_variants(fields.variants, layout)
        else:
            layout.close()

    def lay_out_variants(self, variants, layout):
        kind = self.named_type(variants.type)
        if not isinstance(kind, Ordinal):
            self.refuse_type(variants.type, kind, "CHAR, BOOLEAN, a range or a list of names")
        if variants.tag:
            self.add_field(variants.tag, kind, layout)
        for values, fields in variants.branches:
            for value in values:
                symbol = self.ordinal_constant(value)
                self.need(value, symbol.type, kind.host)
            self.lay_out(fields, layout.copy())

    def add_field(self, name, kind, layout):
        fields = layout.record.fields
        self.refuse_file(kind, name.place)
        if name.name in fields:
            self.refuse(f"the record has a field {name.written} already", name.place)
        fields[name.name] = layout.put(kind)

    def file_type(self, node):
        """FILE OF CHAR is TEXT."""
        element = self.type_of(node.element) if node.element else None
        self.refuse_file(element, node.place)
        return File(None, True) if element is CHAR else File(element)

    def set_type(self, node):
        base = self.type_of(node.base)
        if not isinstance(base, Ordinal):
            self.refuse_type(node.base, base, "a range, CHAR, BOOLEAN or a list of names")
        if base.low < 0 or base.high > MOST_ELEMENT:
            self.refuse(f"the elements of a set are from 0 to {MOST_ELEMENT}, and {base} is not: "
                        "take a range", node.base.place)
        return Set(base, base.high // WORD + 1)

    def pointer_type(self, node):
        pointer = Pointer(None, node.target.written)
        self.waiting.append((pointer, node.target))
        return pointer

    def meet_targets(self, _node):
        """Gives the pointers that wait their targets."""
        waiting, self.waiting = self.waiting, []
        for pointer, name in waiting:
            with self.faults.caught():
                pointer.target = self.named_type(name)
