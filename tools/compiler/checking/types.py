"""The types, and how many words their values have.

A word has 16 bits, and an address of a word is that of its low byte. In a packed array or record
values of few bits share a word, the first in the lowest bits; none lies in two words.
"""

from __future__ import annotations

from pcode.fields import Fields

WORD = 16
MOST_WORDS = 16383  # of all variables of a frame
MOST_ELEMENT = 4079  # of a set: 255 words


class Ordinal:
    """INTEGER, BOOLEAN, CHAR or an enumeration; or a subrange of one, its host."""

    size = 1

    def __init__(self, name, low, high, host=None):
        self.name, self.low, self.high = name, low, high
        self.host = host or self

    @property
    def bits(self):
        """How many bits a value takes where it is packed."""
        return WORD if self.low < 0 else max(1, self.high.bit_length())

    def __str__(self):
        return self.name or f"{self.shown(self.low)}..{self.shown(self.high)}"

    def shown(self, value):
        if self.host is CHAR and 32 <= value < 127:
            return f"'{chr(value)}'"
        return str(value)


INTEGER = Ordinal("INTEGER", -32768, 32767)
BOOLEAN = Ordinal("BOOLEAN", 0, 1)
CHAR = Ordinal("CHAR", 0, 255)


class Array:
    """`per_word` elements share a word: 1 where they have whole words, 2 where they are bytes."""

    def __init__(self, index, element, is_packed):
        self.index, self.element, self.is_packed = index, element, is_packed
        self.count = index.high - index.low + 1
        self.bits = element.bits if is_packed and isinstance(element, Ordinal) else WORD
        self.per_word = WORD // self.bits
        if self.per_word > 1:
            self.size = (self.count + self.per_word - 1) // self.per_word
        else:
            self.size = self.count * element.size

    @property
    def is_bytes(self):
        return self.per_word == 2 and self.bits == 8

    @property
    def is_text(self):
        return self.is_bytes and self.element.host is CHAR

    def __str__(self):
        return f"{'PACKED ' * self.is_packed}ARRAY[{self.index}] OF {self.element}"


class Field(Fields):
    """A field: its word in the record, and of a packed one its bits."""

    type: object
    word: int
    bits: int = WORD
    right: int = 0  # the lowest of its bits

    @property
    def is_packed(self):
        return self.bits < WORD


class Record:
    """Its fields are laid out one after the other. Variants begin at the same word and bit."""

    def __init__(self, is_packed):
        self.is_packed = is_packed
        self.fields: dict[str, Field] = {}
        self.size = 0
        self.name = None

    def __str__(self):
        return self.name or "RECORD"


class String:
    """STRING[most]: a byte with the length, and the characters from byte 1 on."""

    def __init__(self, most):
        self.most, self.size = most, (most + 2) // 2

    def __str__(self):
        return f"STRING[{self.most}]"


class Set:
    """Element 0 is the lowest bit of the first word. `base` is None for the empty set."""

    def __init__(self, base, size):
        self.base, self.size = base, size

    def __str__(self):
        return f"SET OF {self.base}" if self.base else "set"


class Pointer:
    """`target` is None for NIL, and until it is known."""

    size = 1

    def __init__(self, target=None, name=None):
        self.target, self.name = target, name

    def __str__(self):
        return f"^{self.name}" if self.name else "pointer"


class File:
    """TEXT, FILE OF an element or FILE: a word, which is 0 or the number of the file in the
    library, and the element that is the file's window."""

    def __init__(self, element=None, is_text=False):
        self.element, self.is_text = element, is_text
        self.size = 1 + (element.size if element else 0)

    def __str__(self):
        return "TEXT" if self.is_text else f"FILE OF {self.element}" if self.element else "FILE"


class Real:
    """REAL: two words, of which the second has the sign and the exponent."""

    size = 2

    def __str__(self):
        return "REAL"


REAL = Real()
MOST_DIGITS = 36  # of a long integer


class Long:
    """INTEGER[most]: a word with the sign, and words with two decimal digits each."""

    def __init__(self, most):
        self.most, self.size = most, 1 + (most + 1) // 2

    def __str__(self):
        return f"INTEGER[{self.most}]"


LONG = Long(MOST_DIGITS)  # what is worked out has this type


class TextType(Fields):
    """The type of a text in quotes that is not one character."""

    length: int
    size = 0

    def __str__(self):
        return "text in quotes"


def wrap(value):
    """A number as the machine has it, in 16 bits."""
    return (value + 32768) % 65536 - 32768


def is_ordinal(kind, host: Ordinal | None = None):
    return isinstance(kind, Ordinal) and (host is None or kind.host is host)


def is_same(left, right):
    """Whether values of the two types may be taken for one another, as a whole."""
    if left is right:
        return True
    if type(left) is not type(right):
        return False
    if isinstance(left, Ordinal):
        return left.host is right.host and left.bits == right.bits
    if isinstance(left, Array):
        return (left.index.host is right.index.host and left.index.low == right.index.low
                and left.count == right.count and left.is_packed == right.is_packed
                and is_same(left.element, right.element))
    if isinstance(left, (String, Long)):
        return left.most == right.most
    if isinstance(left, Set):
        return left.size == right.size and left.base.host is right.base.host
    if isinstance(left, File):
        return left.is_text == right.is_text and (
            left.element is right.element
            or bool(left.element and right.element) and is_same(left.element, right.element))
    return is_pointed(left, right) if isinstance(left, Pointer) else False


def is_pointed(left, right):
    """Whether two pointers may be taken for one another."""
    return left.target is None or right.target is None or left.target is right.target


def with_article(kind):
    text = str(kind)
    return f"{'an' if text[0] in 'AEIOU' else 'a'} {text}"
