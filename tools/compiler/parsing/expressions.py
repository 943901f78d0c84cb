"""The parser of expressions."""

from . import syntax
from .reader import Reader

COMPARISONS = ("=", "<>", "<", "<=", ">", ">=", "IN")
TRANSFERS = ("UNITREAD", "UNITWRIT")
PARENTHESES = ". AND and OR come before comparisons: write (A = B) AND (C = D)"
MOST_OPERATORS = 500  # in a row, so that the tree does not become too deep


class ExpressionParser(Reader):
    def expression(self):
        return self.nest(self.comparison)

    def comparison(self):
        left = self.sum()
        if self.kind not in COMPARISONS:
            return left
        token = self.next()
        right = self.sum()
        if self.kind in COMPARISONS:
            is_joined = isinstance(right, syntax.Operation) and right.operator in ("AND", "OR")
            hint = PARENTHESES if is_joined else ": put the first one into parentheses"
            self.refuse(f"a comparison is not compared by {self.now}{hint}")
        return syntax.Operation(token.place, token.kind, left, right)

    def sum(self):
        if self.kind in ("+", "-"):
            sign = self.next()
            left = syntax.Unary(sign.place, sign.kind, self.term())
        else:
            left = self.term()
        return self.row(left, ("+", "-", "OR"), self.term)

    def term(self):
        return self.row(self.factor(), ("*", "/", "DIV", "MOD", "AND"), self.factor)

    def row(self, left, operators, operand):
        """LEFT OPERATOR OPERAND OPERATOR OPERAND .., from the left."""
        for _ in range(MOST_OPERATORS):
            if self.kind not in operators:
                return left
            token = self.next()
            left = syntax.Operation(token.place, token.kind, left, operand())
        self.refuse(f"an expression has at most {MOST_OPERATORS} operators in a row")

    def factor(self):
        token = self.now
        if token.kind == "number":
            self.next()
            return syntax.Number(token.place, token.value)
        if token.kind == "long":
            self.next()
            return syntax.LongNumber(token.place, token.value)
        if token.kind == "real":
            self.next()
            return syntax.Real(token.place, token.value)
        if token.kind == "text":
            self.next()
            return syntax.Text(token.place, token.value)
        if token.kind == "NOT":
            self.next()
            return syntax.Unary(token.place, "NOT", self.nest(self.factor))
        if token.kind == "(":
            self.next()
            inner = self.expression()
            self.want(")")
            return inner
        if token.kind == "[":
            return self.set()
        if token.kind != "name":
            self.refuse(f"a value is wanted, and not {token}")
        return self.variable_or_call()

    def set(self):
        place, parts = self.next().place, []
        while self.kind != "]":
            low = self.expression()
            parts.append((low, self.expression() if self.take("..") else None))
            if not self.take(","):
                break
        self.want("]")
        return syntax.SetOf(place, parts)

    def variable_or_call(self):
        name = self.name()
        if self.kind == "(":
            return self.call(name)
        return self.selectors(name)

    def variable(self):
        return self.selectors(self.name())

    def selectors(self, node):
        """What follows a variable: [INDEX], .FIELD and ^."""
        for _ in range(MOST_OPERATORS):
            if self.kind not in ("[", ".", "^"):
                return node
            token = self.next()
            if token.kind == "[":
                node = syntax.Index(token.place, node, self.expression())
                while self.kind == ",":
                    node = syntax.Index(self.next().place, node, self.expression())
                self.want("]")
            elif token.kind == ".":
                node = syntax.Field(token.place, node, self.name(" after a full stop"))
            else:
                node = syntax.Dereference(token.place, node)
        self.refuse("this variable has too many parts")

    def call(self, name):
        """NAME(ARGUMENT, ARGUMENT ..)."""
        self.want("(")
        arguments = [self.argument()]
        while self.take(","):
            if self.kind == "," and name.name in TRANSFERS:  # the block, which may be left out
                arguments.append(syntax.Argument(self.place, syntax.Number(self.place, 0)))
            else:
                arguments.append(self.argument())
        self.want(")")
        return syntax.Call(name.place, name, arguments)

    def argument(self):
        place = self.place
        if self.kind == "PROGRAM":  # of EXIT
            token = self.next()
            return syntax.Argument(place, syntax.Name(place, token.value, token.written))
        if self.kind in ("=", "<>"):  # of SCAN alone
            token = self.next()
            return syntax.Argument(place, syntax.Unary(place, token.kind, self.expression()))
        value = self.expression()
        width = self.expression() if self.take(":") else None
        places = self.expression() if width and self.take(":") else None
        return syntax.Argument(place, value, width, places)

    def constant(self):
        """A number, a character or text in quotes, or a name, with a sign."""
        sign = self.next() if self.kind in ("+", "-") else None
        token = self.now
        if token.kind not in ("number", "long", "real", "text", "name"):
            self.refuse(f"a constant is wanted, and not {token}")
        value = self.name() if token.kind == "name" else self.factor()
        return syntax.Unary(sign.place, sign.kind, value) if sign else value

    def constants(self):
        found = [self.constant()]
        while self.take(","):
            found.append(self.constant())
        return found
