"""Random places and expressions, whose values both compilers agree on."""

from .random_types import BOOLEAN, CHAR, INTEGER

COMPARISONS = ["=", "<>", "<", "<=", ">", ">="]
MOST_DEEP = 4
WILD = 0.2  # how often a wild program has an index or a value that may be outside


class Values:
    """The part of the generator for expressions. In the text `@(..)` is a sum of 16 bits, which
    Free Pascal has to be told."""

    def place(self, wanted, variables, is_written=False, is_whole=False, depth=0):
        """A variable, or a part of one, of a type; None where there is none."""
        found = [it for it in variables if it.is_writable or not is_written]
        self.random.shuffle(found)
        for variable in found[:8]:
            text = self.within(variable.name, variable.kind, wanted, variables, is_whole,
                               variable.is_part, depth)
            if text:
                return text
        return None

    def within(self, text, kind, wanted, variables, is_whole, is_part, depth):
        if kind is wanted:
            return None if is_part and is_whole else text
        is_packed = kind.is_packed
        if kind.form == "array":
            inner = self.within("", kind.element, wanted, variables, is_whole,
                                is_packed and kind.element.is_simple, depth + 1)
            return inner and f"{text}[{self.index(kind, variables, depth)}]{inner}"
        for name, part in self.random.sample(kind.fields, len(kind.fields)):
            inner = self.within(f"{text}.{name}", part, wanted, variables, is_whole,
                                is_packed and part.is_simple, depth + 1)
            if inner:
                return inner
        return None

    def index(self, kind, variables, depth):
        if kind.index:
            found = self.place(kind.index, variables, depth=depth + 2) if depth < 2 else None
            return found or self.random.choice(self.types.names)
        if depth >= 2 or self.random.random() < 0.4:
            return str(self.random.randint(kind.low, kind.high))
        is_wild = self.wild == "index" and self.random.random() < WILD
        return self.bounded(kind.low, kind.high + is_wild, variables, depth + 1)

    def bounded(self, low, high, variables, depth):
        """A number from low to high."""
        count = high - low + 1
        some = f"({self.number(variables, depth + 1)} MOD {count} + {count}) MOD {count}"
        return some if low == 0 else f"{some} + {low}" if low > 0 else f"{some} - {-low}"

    def value(self, kind, variables, depth=0):
        makers = {"bool": self.boolean, "char": self.character, "enum": self.name,
                  "string": self.text, "set": lambda it, deep: self.set(kind, it, deep)}
        if kind.form in makers:
            return makers[kind.form](variables, depth)
        if kind is INTEGER:
            return self.number(variables, depth)
        is_wild = self.wild == "index" and self.random.random() < WILD
        return self.bounded(kind.low, kind.high + is_wild, variables, depth)

    def constant(self):
        return str(self.random.choice([0, 1, 2, 3, 5, 7, 10, 100, 127, 128, 255, 256, 1000, 32767,
                                       self.random.randint(0, 32767)]))

    def number(self, variables, depth=0):
        chance = self.random.random()
        if depth >= MOST_DEEP or chance < 0.3:
            kind = self.random.choice([INTEGER] + self.types.ranges)
            return self.place(kind, variables, depth=depth) or "SEED"
        if chance < 0.5:
            return self.from_other(variables, depth + 1)
        if chance < 0.6 and depth < 3:
            called = self.call_of(self.functions, variables, depth)
            if called:
                return called
        left, operator = self.number(variables, depth + 1), self.random.choice("++--*DM")
        if operator in "DM":
            divisor = self.random.choice(["2", "3", "7", "10", "(-3)", "32767"])
            if self.wild == "division" and self.random.random() < WILD:
                divisor = f"({self.number(variables, depth + 2)} MOD 6)"
            return f"@({left} {'DIV' if operator == 'D' else 'MOD'} {divisor})"
        is_known = self.random.random() < 0.4
        right = self.constant() if is_known else self.number(variables, depth + 1)
        return f"@({left} {operator} {right})"

    def from_other(self, variables, depth):
        """A number that is made of something else."""
        return self.random.choice([
            lambda: f"ORD({self.character(variables, depth)})",
            lambda: f"ORD(({self.boolean(variables, depth)}) = TRUE)",
            lambda: f"ORD({self.name(variables, depth)})",
            lambda: f"@(ABS({self.number(variables, depth)}))",
            lambda: f"@(SQR({self.number(variables, depth)}))",
            lambda: f"@(-({self.number(variables, depth)}))",
            lambda: f"@(SUCC({self.number(variables, depth)} DIV 2))",
            lambda: f"LENGTH({self.text(variables, depth)})",
            lambda: f"POS({self.literal()}, {self.text(variables, depth)})",
        ])()

    def boolean(self, variables, depth=0):
        chance = self.random.random()
        if depth >= MOST_DEEP or chance < 0.12:
            return self.place(BOOLEAN, variables, depth=depth) or "TRUE"
        if chance < 0.2:
            return f"NOT ({self.boolean(variables, depth + 1)})"
        if chance < 0.4:
            operator = self.random.choice(["AND", "OR"])
            return (f"(({self.boolean(variables, depth + 1)}) {operator} "
                    f"({self.boolean(variables, depth + 1)}))")
        if chance < 0.45:
            return f"ODD({self.number(variables, depth + 1)})"
        if chance < 0.55:
            return self.membership(variables, depth + 1)
        kind = self.random.choice([INTEGER, INTEGER, CHAR, BOOLEAN, self.types.enum,
                                   self.types.string])
        operators = COMPARISONS
        if self.random.random() < 0.15:
            kind = self.random.choice([self.types.set, self.types.numbers])
            operators = ["=", "<>", "<=", ">="]
        left = self.place(kind, variables, depth=depth) if kind.form in ("string", "set") else None
        left = left or self.value(kind, variables, depth + 1)
        return (f"(({left}) {self.random.choice(operators)} "
                f"({self.value(kind, variables, depth + 1)}))")

    def membership(self, variables, depth):
        if self.random.random() < 0.3:
            low, high = sorted(self.random.randint(40, 120) for _ in range(2))
            return f"({self.character(variables, depth)} IN ['!', CHR({low})..CHR({high})])"
        kind = self.random.choice([self.types.set, self.types.numbers])
        return f"({self.element(kind, variables, depth)} IN {self.set(kind, variables, depth)})"

    def element(self, kind, variables, depth):
        if kind is self.types.set:
            return self.name(variables, depth)
        return self.bounded(0, kind.high, variables, depth)

    def character(self, variables, depth=0):
        found = self.place(CHAR, variables, depth=depth) if self.random.random() < 0.5 else None
        if found:
            return found
        if depth < MOST_DEEP and self.random.random() < 0.5:
            return f"CHR({self.bounded(32, 126, variables, depth + 1)})"
        code = self.random.randint(32, 126)
        return "''''" if code == 39 else f"'{chr(code)}'"

    def name(self, variables, depth=0):
        found = self.place(self.types.enum, variables, depth=depth)
        return found if found and self.random.random() < 0.6 else (
            self.random.choice(self.types.names))

    def literal(self):
        """A text of more than one character, since Free Pascal takes one for a character."""
        length = self.random.choice([2, 2, 3, 5, 9])
        return f"'{''.join(self.random.choice('abcAB .+0') for _ in range(length))}'"

    def text(self, variables, depth=0):
        """A string of at most 20 characters."""
        found = self.place(self.types.string, variables, depth=depth)
        if not found or self.random.random() < 0.3:
            return self.literal()
        return f"COPY({found}, 1, LENGTH({found}))" if self.random.random() < 0.2 else found

    def set(self, kind, variables, depth=0):
        found = self.place(kind, variables, depth=depth)
        if found and (depth > 2 or self.random.random() < 0.4):
            return found
        if depth > 2 or self.random.random() < 0.5:
            some = {self.element(kind, variables, depth + 1)
                    for _ in range(self.random.randint(0, 3))}
            return f"[{', '.join(sorted(some))}]"
        return (f"({self.set(kind, variables, depth + 1)} {self.random.choice('+-*')} "
                f"{self.set(kind, variables, depth + 1)})")
