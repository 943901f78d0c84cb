"""The parser of declarations, and of a whole program."""

from pcode.faults import Fault

from . import syntax
from .lexer import BAD, END
from .types import TypeParser

PARTS = ("LABEL", "CONST", "TYPE", "VAR", "PROCEDUR", "FUNCTION", "SEGMENT", "BEGIN", "USES",
         "IMPLEMEN", END)

OPENINGS, OPEN = {"RESET", "REWRITE"}, {"INPUT", "KEYBOARD", "OUTPUT"}


class Parser(TypeParser):
    """The whole parser. Its entries are `program`, `unit` and `library`."""

    is_interface = False  # whether procedures have headings alone
    used = ()  # the names of the units that are used

    def program(self):
        if self.kind == "UNIT":
            self.refuse("this is a UNIT, which a program uses: give the text that begins with "
                        "PROGRAM")
        place = self.want("PROGRAM", " at the beginning").place
        name = self.name()
        if self.take("("):
            self.names()
            self.want(")")
        self.want(";")
        self.used, units = [], []
        while self.kind == "UNIT":
            units.append(self.unit(";"))
        block = self.block()
        self.want(".", " behind the last END")
        return syntax.Program(place, name, self.used, units, block)

    def unit(self, closing="."):
        """UNIT NAME; INTERFACE .. IMPLEMENTATION .. [BEGIN ..] END."""
        around, self.used = self.used, []
        place = self.want("UNIT", " at the beginning").place
        name = self.name()
        self.want(";")
        if self.kind == "name" and self.now.value == "INTRINSI":  # and the numbers of its segments
            self.skip_to((";",))
            self.take(";")
        self.want("INTERFAC")
        self.is_interface = True
        interface = self.declarations()
        self.is_interface = False
        self.want("IMPLEMEN", " behind the declarations of an INTERFACE")
        implementation = self.declarations()
        body = self.compound() if self.kind == "BEGIN" else self.want("END") and None
        self.want(closing, " behind the END of a UNIT")
        used, self.used = self.used, around
        return syntax.Unit(place, name, used, interface, implementation, body)

    def has_files(self):
        """Whether the text has files of its own, which the library is told of."""
        rows = zip(self.tokens, self.tokens[1:], self.tokens[2:])
        return any(token.kind == "FILE" or token.kind == "name" and token.value in OPENINGS
                   and bracket.kind == "(" and name.value not in OPEN
                   for token, bracket, name in rows)

    def library(self):
        """Declarations alone, as the run-time library has them."""
        declarations = self.declarations()
        self.want(END)
        return declarations

    def block(self):
        place, declarations = self.place, self.declarations()
        if self.kind == "BEGIN":
            return syntax.Block(place, declarations, self.compound())
        if not self.is_statement():
            self.refuse(f"BEGIN or a declaration is wanted, and not {self.now}")
        self.faults.add(Fault("BEGIN is missing in front of this statement", self.place))
        return syntax.Block(place, declarations, self.statements_and_end(place))

    def declarations(self):
        readers = {"LABEL": self.labels, "CONST": self.constants_part, "TYPE": self.types_part,
                   "VAR": self.variables_part}
        found = []
        while True:
            begin = self.at
            try:
                if self.kind in readers:
                    found += readers[self.kind]()
                elif self.kind in ("PROCEDUR", "FUNCTION"):
                    found.append(self.nest(self.routine))
                elif self.kind == "SEGMENT":
                    self.segment()
                elif self.kind == "USES":
                    self.uses()
                else:
                    return found
            except Fault as fault:
                self.faults.add(fault)
                if self.kind in PARTS and self.at == begin:
                    self.next()
                self.skip_to(PARTS)

    def uses(self):
        """USES NAME, NAME .."""
        self.next()
        self.used = list(self.used) + self.names()
        self.want(";")

    def segment(self):
        """SEGMENT in front of a procedure."""
        place = self.next().place
        if self.kind not in ("PROCEDUR", "FUNCTION"):
            self.refuse(f"PROCEDURE or FUNCTION is wanted behind SEGMENT, and not {self.now}")
        self.faults.note("SEGMENT changes nothing: a program is one segment here", place)

    def is_statement_behind(self, part):
        """Whether what comes in a part is a statement. CONST A := 1 is none."""
        is_constant = part == "CONST" and self.tokens[self.at + 1].kind == ":="
        return self.kind == "name" and self.is_statement() and not is_constant

    def each(self, part, read):
        """What stands in a part, each with a ; behind it. A fault costs one of them."""
        found = []
        while self.kind in ("name", BAD) and not self.is_statement_behind(part):
            try:
                found.append(read())
                self.want(";")
            except Fault as fault:
                self.faults.add(fault)
                self.skip_to((";",) + PARTS)
                self.take(";")
        return found

    def labels(self):
        self.next()
        found = []
        while True:
            token = self.want("number", " as a label")
            found.append(syntax.LabelDeclaration(token.place, token.value))
            if not self.take(","):
                self.want(";")
                return found

    def constants_part(self):
        return self.each(self.next().kind, self.constant_declaration)

    def constant_declaration(self):
        name = self.name()
        self.want("=")
        return syntax.ConstDeclaration(name.place, name, self.constant())

    def types_part(self):
        return self.each(self.next().kind, self.type_declaration) + [syntax.TypesEnd(self.place)]

    def type_declaration(self):
        name = self.name()
        self.want("=")
        return syntax.TypeDeclaration(name.place, name, self.type())

    def variables_part(self):
        found = self.each(self.next().kind, self.variable_declaration)
        return found + [syntax.TypesEnd(self.place)]

    def variable_declaration(self):
        place, names = self.place, self.names()
        self.want(":")
        return syntax.VarDeclaration(place, names, self.type())

    def routine(self):
        is_function = self.next().kind == "FUNCTION"
        name, begin = self.name(), self.at
        try:
            parameters, result = self.heading(is_function)
        except Fault as fault:
            self.faults.add(fault)
            self.at = begin
            self.skip_heading()
            absent = syntax.AbsentType(name.place, None)
            result, parameters = None, [syntax.ParameterGroup(name.place, False, [], absent)]
        if self.kind == "EXTERNAL":
            place = self.next().place
            self.lack("there are no external procedures: write it in Pascal", place)
            block = syntax.Block(place, [], syntax.Compound(place, []))
        elif self.is_interface:
            return syntax.RoutineDeclaration(name.place, name, is_function, parameters, result,
                                             None)
        else:
            block = None if self.take("FORWARD") else self.block()
        self.want(";", f" behind {name.written}")
        return syntax.RoutineDeclaration(name.place, name, is_function, parameters, result, block)

    def heading(self, is_function):
        """The parameters, and the type of a function."""
        parameters = self.parameters() if self.take("(") else None
        result = None
        if is_function and self.take(":"):
            result = self.name(" as the type of a function")
        self.want(";")
        return parameters, result

    def skip_heading(self):
        """Leaves out a heading with a fault, to its block."""
        opened = 0
        while self.kind not in (END, "BEGIN", "FORWARD", "EXTERNAL"):
            if not opened and self.kind in (*PARTS, "PROCEDUR", "FUNCTION"):
                return
            opened += {"(": 1, ")": -1}.get(self.kind, 0)
            self.next()

    def parameters(self):
        found = []
        while True:
            place, is_var = self.place, bool(self.take("VAR"))
            if self.kind in ("PROCEDUR", "FUNCTION"):
                self.refuse("UCSD Pascal had no procedures as parameters: take a number, and a "
                            "CASE that calls them")
            names = self.names()
            self.want(":", " behind the names of parameters")
            if self.kind in ("ARRAY", "PACKED"):
                self.refuse("UCSD Pascal had no conformant arrays: declare the array under TYPE, "
                            "and take its name as the type of a parameter")
            if self.kind != "name":
                self.refuse("the type of a parameter is a name: declare it under TYPE")
            found.append(syntax.ParameterGroup(place, is_var, names, self.simple_type()))
            if not self.take(";"):
                self.want(")")
                return found
