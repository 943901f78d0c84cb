"""The parser of types."""

from . import syntax
from .statements import StatementParser



class TypeParser(StatementParser):
    def type(self):
        return self.nest(self.one_type)

    def one_type(self):
        place = self.place
        is_packed = bool(self.take("PACKED"))
        if self.kind == "ARRAY":
            return self.array(is_packed)
        if self.take("RECORD"):
            fields = self.field_list()
            self.want("END", " behind the fields of a record")
            return syntax.RecordType(place, is_packed, fields)
        if self.take("SET"):  # PACKED changes nothing there
            self.want("OF")
            return syntax.SetType(place, self.simple_type())
        if self.take("FILE"):
            return syntax.FileType(place, self.type() if self.take("OF") else None)
        if is_packed:
            self.refuse(f"ARRAY, RECORD or SET is wanted behind PACKED, and not {self.now}")
        if self.take("^"):
            return syntax.PointerType(place, self.name(" behind ^"))
        return self.simple_type()

    def array(self, is_packed):
        """ARRAY[A, B] OF T is an array of arrays."""
        place = self.next().place
        self.want("[")
        indices = [self.simple_type()]
        while self.take(","):
            indices.append(self.simple_type())
        self.want("]")
        self.want("OF")
        element = self.type()
        for index in reversed(indices):
            element = syntax.ArrayType(place, is_packed, index, element)
        return element

    def simple_type(self):
        """(NAME, NAME ..), CONSTANT..CONSTANT, STRING[N] or NAME."""
        place = self.place
        if self.take("("):
            names = self.names()
            self.want(")")
            return syntax.Enumeration(place, names)
        if self.kind not in ("name", "number", "long", "real", "text", "+", "-"):
            self.refuse(f"a type is wanted, and not {self.now}")
        low = self.constant()
        if self.take(".."):
            return syntax.Subrange(place, low, self.constant())
        if not isinstance(low, syntax.Name):
            self.refuse(f".. is wanted behind the least value of a range, and not {self.now}")
        return self.sized(low) if self.kind == "[" else low

    def sized(self, name):
        """NAME[N]."""
        kinds = {"INTEGER": syntax.LongType, "STRING": syntax.StringType}
        if name.name not in kinds:
            self.refuse(f"{name.written} has no length: STRING and INTEGER have one")
        self.next()
        length = self.constant()
        self.want("]")
        return kinds[name.name](name.place, length)

    def field_list(self):
        place, groups = self.place, []
        while self.kind == "name":
            at, names = self.place, self.names()
            self.want(":")
            groups.append(syntax.FieldGroup(at, names, self.type()))
            if not self.take(";"):
                break
        variants = self.variants() if self.kind == "CASE" else None
        return syntax.FieldList(place, groups, variants)

    def variants(self):
        place, tag, branches = self.next().place, None, []
        kind = self.name(" behind CASE")
        if self.take(":"):
            tag, kind = kind, self.name()
        self.want("OF")
        while self.kind not in ("END", ")"):
            values = self.constants()
            self.want(":")
            self.want("(")
            branches.append((values, self.nest(self.field_list)))
            self.want(")")
            if not self.take(";"):
                break
        return syntax.Variants(place, tag, kind, branches)
