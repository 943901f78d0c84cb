"""The parser of statements."""

from pcode.faults import Fault

from . import syntax
from .expressions import ExpressionParser
from .lexer import END

# What may follow a statement, so that nothing is one too.
FOLLOWING = (";", "END", "UNTIL", "ELSE", END)
# Where it goes on behind a fault.
SURE = (";", "END", "UNTIL", "PROCEDUR", "FUNCTION")
MOST_BRANCHES = 250


class StatementParser(ExpressionParser):
    def compound(self):
        return self.statements_and_end(self.want("BEGIN").place)

    def is_statement(self):
        """Whether what comes is a statement, and can be no declaration."""
        if self.kind == "name" and self.at + 1 < len(self.tokens):
            return self.tokens[self.at + 1].kind in (":=", "(", "[", "^", ".")
        return self.kind in ("IF", "WHILE", "REPEAT", "FOR", "CASE", "WITH", "GOTO")

    def statements_and_end(self, place):
        """What follows BEGIN."""
        statements = self.statements("END")
        self.want("END", " behind a statement")
        return syntax.Compound(place, statements)

    def statements(self, closing):
        """STATEMENT; STATEMENT .. up to the word that closes them."""
        found = []
        while True:
            try:
                statement = self.statement()
                if self.kind not in (";", closing):
                    self.refuse_rest(closing)
                if statement:
                    found.append(statement)
            except Fault as fault:
                self.faults.add(fault)
                self.skip_statement()
            if not self.take(";"):
                return found

    def refuse_rest(self, closing):
        if self.kind == "ELSE":
            self.refuse("this ELSE has no IF: does a ; stand in front of it?")
        if self.kind in ("=", ":"):
            self.refuse("an assignment is written with :=")
        self.refuse(f"a ; or {closing} is wanted behind a statement, and not {self.now}")

    def skip_statement(self):
        """Leaves out the rest of a statement, with all that is opened and closed in it."""
        opened = 0
        while self.kind != END and (opened or self.kind not in SURE):
            if self.kind in ("BEGIN", "CASE", "REPEAT", "RECORD"):
                opened += 1
            elif self.kind in ("END", "UNTIL"):
                opened -= 1
            self.next()

    def statement(self):
        return self.nest(self.one_statement)

    def one_statement(self):
        readers = {
            "number": self.labelled, "BEGIN": self.compound, "IF": self.if_statement,
            "WHILE": self.while_statement, "REPEAT": self.repeat, "FOR": self.for_statement,
            "CASE": self.case, "WITH": self.with_statement, "GOTO": self.goto,
            "name": self.assignment_or_call,
        }
        if self.kind in readers:
            return readers[self.kind]()
        if self.kind not in FOLLOWING:
            self.refuse(f"a statement is wanted, and not {self.now}")
        return None

    def labelled(self):
        token = self.next()
        self.want(":", " behind a label")
        return syntax.Labelled(token.place, token.value, self.statement())

    def assignment_or_call(self):
        name = self.name()
        if self.kind == "(":
            return syntax.CallStatement(name.place, self.call(name))
        target = self.selectors(name)
        if self.kind == ":=":
            token = self.next()
            return syntax.Assign(token.place, target, self.expression())
        if target is not name:
            self.refuse(f":= is wanted behind a variable, and not {self.now}")
        return syntax.CallStatement(name.place, name)

    def if_statement(self):
        """IF .. ELSE IF .. ELSE IF .. is read in a loop, so that it may be long."""
        first = last = self.if_part()
        for _ in range(MOST_BRANCHES):
            if not self.take("ELSE"):
                return first
            if self.kind != "IF":
                last.no = self.statement()
                return first
            last.no = self.if_part()
            last = last.no
        self.refuse("too many IFs follow one another")

    def if_part(self):
        place = self.want("IF").place
        test = self.expression()
        self.want("THEN")
        return syntax.If(place, test, self.statement(), None)

    def while_statement(self):
        place, test = self.next().place, self.expression()
        self.want("DO")
        return syntax.While(place, test, self.statement())

    def repeat(self):
        place = self.next().place
        statements = self.statements("UNTIL")
        self.want("UNTIL", " behind a statement")
        return syntax.Repeat(place, statements, self.expression())

    def for_statement(self):
        place, variable = self.next().place, self.name(" behind FOR")
        self.want(":=")
        start = self.expression()
        is_down = self.kind == "DOWNTO"
        if not self.take("DOWNTO"):
            self.want("TO")
        limit = self.expression()
        self.want("DO")
        return syntax.For(place, variable, start, limit, is_down, self.statement())

    def case(self):
        place, selector, branches = self.next().place, self.expression(), []
        self.want("OF")
        while self.kind not in ("END", END):
            if self.take(";"):
                continue
            if self.is_otherwise():
                self.otherwise()
                break
            values = self.constants()
            self.want(":", " behind the constants of a CASE")
            branches.append((values, self.statement()))
            if not self.take(";") and not self.is_otherwise():
                break
        self.want("END", " behind the statements of a CASE")
        return syntax.Case(place, selector, branches)

    def is_otherwise(self):
        is_word = self.kind in ("ELSE", "name")
        return is_word and self.now.written.upper() in ("ELSE", "OTHERWISE")

    def otherwise(self):
        """Tells of statements that a CASE of other Pascals has, and leaves them out."""
        token = self.next()
        self.faults.add(Fault(f"{token.written} is no part of UCSD Pascal's CASE: without a match "
                              "it goes on behind END. Ask with IF in front of it", token.place))
        self.statements("END")

    def with_statement(self):
        place, records = self.next().place, [self.variable()]
        while self.take(","):
            records.append(self.variable())
        self.want("DO")
        return syntax.With(place, records, self.statement())

    def goto(self):
        place = self.next().place
        return syntax.Goto(place, self.want("number", " behind GOTO").value)
