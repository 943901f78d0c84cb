"""What all parts of the parser stand on: the token that is looked at, and how it is taken."""

from pcode.faults import Fault

from ..faults import Follows, Lack
from . import syntax
from .lexer import BAD, END

# How deeply parentheses, statements and types may be nested. Real programs have some ten.
MOST_NESTED = 100
SHOWN = {"name": "a name", "number": "a number", "real": "a REAL", "long": "a number", END: END,
         "INTERFAC": "INTERFACE", "IMPLEMEN": "IMPLEMENTATION"}


class Reader:
    """Reads tokens one after the other."""

    def __init__(self, tokens, faults):
        self.tokens, self.faults = tokens, faults
        self.at = 0
        self.nested = 0
        self.has_bad = any(token.kind == BAD for token in tokens)  # with which an END may be lost

    @property
    def now(self):
        return self.tokens[self.at]

    @property
    def kind(self):
        return self.tokens[self.at].kind

    @property
    def place(self):
        return self.tokens[self.at].place

    def next(self):
        """Takes a token; the last one stays."""
        token = self.now
        if token.kind != END:
            self.at += 1
        return token

    def take(self, kind):
        """Takes a token of a kind, if it is there."""
        return self.next() if self.kind == kind else None

    def want(self, kind, why=""):
        """Takes a token of a kind, which has to be there."""
        if self.kind != kind:
            if kind == ";" and self.at:
                before = self.tokens[self.at - 1]
                column = before.place.column + len(before.written)
                self.refuse(f"; is wanted behind {before}{why}",
                            before.place.at_column(column))
            self.refuse(f"{SHOWN.get(kind, kind)} is wanted{why}, and not {self.now}")
        return self.next()

    def refuse(self, text, place=None):
        if self.kind == BAD or self.kind == END and self.has_bad:
            raise Follows(text, self.place)
        raise Fault(text, place or self.place)

    def lack(self, text, place, feature=None):
        """Notes what is not there, and goes on."""
        self.faults.add(Lack(text, place, feature))

    def name(self, why=""):
        token = self.want("name", why)
        return syntax.Name(token.place, token.value, token.written)

    def names(self):
        """NAME, NAME .."""
        found = [self.name()]
        while self.take(","):
            found.append(self.name())
        return found

    def nest(self, read):
        """What a method reads one level deeper."""
        if self.nested == MOST_NESTED:
            self.refuse(f"this is nested too deeply: {MOST_NESTED} levels are there")
        self.nested += 1
        try:
            return read()
        finally:
            self.nested -= 1

    def skip_to(self, kinds):
        """Leaves out tokens up to one of these kinds."""
        while self.kind != END and self.kind not in kinds:
            self.next()
