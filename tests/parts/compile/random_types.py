"""Types for random programs, and where values of a type are found in variables of others."""

from dataclasses import dataclass, field
from typing import List, Optional, Tuple


@dataclass(eq=False)
class Kind:
    """A type. `text` is its name; `form` is int, bool, char, enum, array, record, string or set."""

    text: str
    form: str
    low: int = 0
    high: int = 0
    is_packed: bool = False
    element: Optional["Kind"] = None
    index: Optional["Kind"] = None  # an enumeration, where it is no range of numbers
    fields: List[Tuple[str, "Kind"]] = field(default_factory=list)

    @property
    def is_simple(self):
        return self.form in ("int", "bool", "char", "enum")

    @property
    def size(self):
        """How many simple values it has."""
        if self.form == "array":
            return (self.high - self.low + 1) * self.element.size
        return sum(kind.size for _, kind in self.fields) if self.form == "record" else 1


@dataclass
class Variable:
    """Something that has a name, and may be assigned to or not."""

    name: str
    kind: Kind
    is_writable: bool = True
    is_part: bool = False  # of a packed record, by WITH, so that it is no VAR parameter


INTEGER = Kind("INTEGER", "int", -32768, 32767)
BOOLEAN = Kind("BOOLEAN", "bool", 0, 1)
CHAR = Kind("CHAR", "char", 32, 126)


class Types:
    """The types of one program, with the lines that declare them."""

    def __init__(self, source):
        self.random = source
        count = source.randint(2, 9)
        self.names = [f"E{k}" for k in range(count)]
        self.enum = Kind("ENUM", "enum", 0, count - 1)
        self.ranges, self.blocks = [], []
        self.string, self.set = Kind("TEXT", "string", 0, 20), Kind("ENUMS", "set", 0, count - 1)
        self.numbers = Kind("NUMBERS", "set", 0, source.choice([7, 15, 40, 100]))
        self.lines = [f"  ENUM = ({', '.join(self.names)});", "  ENUMS = SET OF ENUM;",
                      f"  SMALL = 0..{self.numbers.high}; NUMBERS = SET OF SMALL;",
                      "  TEXT = STRING[20];"]
        for k in range(source.randint(1, 4)):
            self.add_range(f"R{k}")
        self.characters = Kind("LETTERS", "array", 1, source.randint(2, 8), True, CHAR)
        self.lines.append(f"  LETTERS = PACKED ARRAY[1..{self.characters.high}] OF CHAR;")
        for k in range(source.randint(2, 6)):
            self.add_block(f"B{k}")
        self.blocks.append(self.characters)

    def add_range(self, name):
        low = self.random.choice([0, 0, 0, 1, -5, 10])
        high = low + self.random.choice([1, 2, 3, 6, 8, 15, 16, 31, 32, 64, 100, 240])
        self.ranges.append(Kind(name, "int", low, high))
        self.lines.append(f"  {name} = {low}..{high};")

    def simple(self):
        return self.random.choice([INTEGER, INTEGER, INTEGER, BOOLEAN, CHAR, self.enum]
                                  + self.ranges)

    def part(self):
        """The type of an element or field."""
        inner = [kind for kind in self.blocks if kind.size < 40]
        return self.random.choice(inner) if inner and self.random.random() < 0.3 else self.simple()

    def add_block(self, name):
        source, is_packed = self.random, self.random.random() < 0.5
        packed = "PACKED " if is_packed else ""
        if source.random() < 0.5:
            element = self.part()
            if source.random() < 0.2:
                kind = Kind(name, "array", 0, self.enum.high, is_packed, element, self.enum)
                bounds = "ENUM"
            else:
                low = source.choice([0, 1, 1, -3, 5])
                kind = Kind(name, "array", low, low + source.randint(1, 9), is_packed, element)
                bounds = f"{low}..{kind.high}"
            self.lines.append(f"  {name} = {packed}ARRAY[{bounds}] OF {element.text};")
        else:
            fields = [(f"F{k}", self.part()) for k in range(source.randint(1, 5))]
            kind = Kind(name, "record", 0, 0, is_packed, None, None, fields)
            some = "; ".join(f"{it}: {part.text}" for it, part in fields)
            self.lines.append(f"  {name} = {packed}RECORD {some} END;")
        self.blocks.append(kind)
