"""The checked tree: what a program means.

A node of it says what the machine has to do, so that the generator needs to know no names and no
rules of Pascal. Values, locations and addresses have a type; statements have a place.
"""

from __future__ import annotations

from pcode.fields import Fields

from ..faults import Place


# Values

class Constant(Fields):
    type: object
    value: int


class RealValue(Fields):
    """A REAL that is known, as its bits."""

    type: object
    value: int


class LongValue(Fields):
    """A long integer that is known."""

    type: object
    value: int


class LongOf(Fields):
    """An INTEGER as a long integer."""

    type: object
    value: object


class LongRead(Fields):
    """A long integer that READ takes from a file of this number."""

    type: object
    file: object


class LongNegative(Fields):
    type: object
    value: object


class LongOperation(Fields):
    """`routine` of the library changes the left long integer by the right one."""

    type: object
    routine: object
    left: object
    right: object


class TextValue(Fields):
    """A text in quotes."""

    type: object
    text: str


class Load(Fields):
    """The value at a location."""

    type: object
    location: object


class Operation(Fields):
    """An instruction, with operands of its own, on values that are pushed."""

    type: object
    instruction: tuple
    operands: list[object]


class Call(Fields):
    """A call; of a function its value."""

    type: object
    routine: object
    arguments: list[object]


class Among(Fields):
    """VALUE IN [PARTS]: each part is a value, or two."""

    type: object
    value: object
    parts: list[tuple[object, object | None]]


class Concatenation(Fields):
    type: object
    parts: list[object]


class Copied(Fields):
    """COPY(TEXT, AT, COUNT)."""

    type: object
    text: object
    at: object
    count: object


class SetValue(Fields):
    """[PARTS]: each part is a value, or two."""

    type: object
    parts: list[tuple[object, object | None]]


class SetOperation(Fields):
    """`routine` of the library changes the left set by the right one."""

    type: object
    routine: object
    left: object
    right: object


# Addresses, which are pushed as arguments

class Address(Fields):
    location: object


class ByteAddress(Fields):
    """A base and an index, two words."""

    location: object


class StringAddress(Fields):
    value: object


class LongFitted(Fields):
    """The address of a long integer in a room of its own of a type; `routine` puts it there."""

    routine: object
    value: object
    kind: object


class Select(Fields):
    """Behind the arguments of a call: what it writes goes to a file, whose number this is. It
    pushes nothing."""

    variable: object
    number: object


class LongAddress(Fields):
    """The address of a long integer of all digits."""

    value: object


class SetAddress(Fields):
    """The address of a set of so many words."""

    value: object
    words: int


# Locations

class VariableAt(Fields):
    type: object
    variable: object


class Target(Fields):
    """What a pointer points to."""

    type: object
    pointer: object


class ElementAt(Fields):
    type: object
    base: object
    index: object


class CharacterAt(Fields):
    """A character of a string."""

    type: object
    base: object
    index: object
    is_checked: bool


class FieldAt(Fields):
    type: object
    base: object
    field: object


class WindowAt(Fields):
    """The window of a file: the words behind its number."""

    type: object
    base: object


class Opening(Fields):
    """A record that a WITH opens, once for its whole statement. The generator says where it is:
    at a place of a frame, or where an address is kept."""

    type: object
    base: object
    temporary: object = None
    is_frame: bool = False


class Opened(Fields):
    type: object
    opening: Opening


# Statements

class Block(Fields):
    statements: list[object]


class Assign(Fields):
    """Stores a value of one word, or a REAL."""

    place: Place
    location: object
    value: object


class MoveWords(Fields):
    """Copies words from an address to a location."""

    place: Place
    location: object
    source: object
    words: int


class StoreText(Fields):
    """Stores a text in quotes in an array of characters, or with its length in a string."""

    place: Place
    location: object
    text: str


class WriteText(Fields):
    """Writes a text that is known."""

    place: Place
    text: str


class Perform(Fields):
    """Pushes nothing that stays: a call of a procedure, or an instruction."""

    place: Place
    value: object


class Transfer(Fields):
    """UNITREAD or UNITWRITE: the standard procedure's number and its six words."""

    place: Place
    procedure: int
    values: list[object]


class Exit(Fields):
    """EXIT(ROUTINE)."""

    place: Place
    routine: object


class If(Fields):
    place: Place
    test: object
    yes: object
    no: object


class While(Fields):
    place: Place
    test: object
    body: object


class Repeat(Fields):
    place: Place
    body: object
    test: object
    until: Place


class For(Fields):
    place: Place
    location: object
    start: object
    limit: object
    is_down: bool
    body: object


class Case(Fields):
    place: Place
    selector: object
    branches: list[tuple[list[int], object]]


class With(Fields):
    place: Place
    openings: list[Opening]
    body: object


class Goto(Fields):
    place: Place
    label: int


class Labelled(Fields):
    place: Place
    label: int
    statement: object
