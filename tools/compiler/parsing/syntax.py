"""The syntax tree: what is written, without a look at what names mean.

Each node has the place where it begins, or that of the sign that it is about.
"""

from __future__ import annotations

from pcode.fields import Fields

from ..faults import Place


class Node(Fields):
    place: Place


# Expressions

class Number(Node):
    value: int


class LongNumber(Node):
    """A number that is no INTEGER."""

    value: int


class LongType(Node):
    """INTEGER[LENGTH]."""

    length: Node


class Real(Node):
    written: str


class Text(Node):
    value: str


class Name(Node):
    name: str  # the part that counts
    written: str


class Index(Node):
    """BASE[INDEX]: A[I, J] is an index of an index."""

    base: Node
    index: Node


class Field(Node):
    base: Node
    name: Name


class Dereference(Node):
    base: Node


class Argument(Node):
    """VALUE or, in WRITE, VALUE:WIDTH, and of a REAL VALUE:WIDTH:PLACES."""

    value: Node
    width: Node | None = None
    places: Node | None = None


class Call(Node):
    """NAME(ARGUMENTS). A call without them is a Name."""

    name: Name
    arguments: list[Argument]


class Operation(Node):
    operator: str
    left: Node
    right: Node


class Unary(Node):
    """A sign, or NOT; in SCAN = or <>, too."""

    operator: str
    operand: Node


class SetOf(Node):
    """[PARTS]: each a value, or two for all from the one to the other."""

    parts: list[tuple[Node, Node | None]]


# Statements. An empty one is None.

class Compound(Node):
    statements: list[Node]


class Assign(Node):
    target: Node
    value: Node


class CallStatement(Node):
    call: Node  # a Call or a Name


class If(Node):
    test: Node
    yes: Node | None
    no: Node | None


class While(Node):
    test: Node
    body: Node | None


class Repeat(Node):
    statements: list[Node]
    test: Node


class For(Node):
    variable: Name
    start: Node
    limit: Node
    is_down: bool
    body: Node | None


class Case(Node):
    selector: Node
    branches: list[tuple[list[Node], Node | None]]


class With(Node):
    records: list[Node]
    body: Node | None


class Goto(Node):
    label: int


class Labelled(Node):
    label: int
    statement: Node | None


# Types

class StringType(Node):
    length: Node


class Enumeration(Node):
    names: list[Name]


class Subrange(Node):
    low: Node
    high: Node


class ArrayType(Node):
    is_packed: bool
    index: object
    element: object


class FieldGroup(Node):
    names: list[Name]
    type: object


class Variants(Node):
    """CASE TAG: TYPE OF LABELS: (FIELDS); .."""

    tag: Name | None
    type: Node
    branches: list[tuple[list[Node], FieldList]]


class FieldList(Node):
    groups: list[FieldGroup]
    variants: Variants | None


class RecordType(Node):
    is_packed: bool
    fields: FieldList


class SetType(Node):
    base: Node


class FileType(Node):
    """FILE OF ELEMENT; without one FILE, of blocks."""

    element: object


class PointerType(Node):
    target: Name


class AbsentType(Node):
    """A type that has a fault, or is not there, which has been told."""

    feature: str | None


# Declarations

class LabelDeclaration(Node):
    label: int


class ConstDeclaration(Node):
    name: Name
    value: Node


class TypeDeclaration(Node):
    name: Name
    type: Node


class TypesEnd(Node):
    """The end of a TYPE or VAR part, where the names behind each ^ have to be known."""


class VarDeclaration(Node):
    names: list[Name]
    type: Node


class ParameterGroup(Node):
    is_var: bool
    names: list[Name]
    type: Node


class RoutineDeclaration(Node):
    """A procedure or a function; `block` is None where it is FORWARD."""

    name: Name
    is_function: bool
    parameters: list[ParameterGroup] | None
    result: Node | None
    block: Block | None


class Block(Node):
    declarations: list[Node]
    body: Compound


class Unit(Node):
    """A UNIT. The procedures of its interface have no block there."""

    name: Name
    uses: list[Name]
    interface: list[Node]
    implementation: list[Node]
    body: Compound | None
    has_files: bool = False


class Program(Node):
    name: Name
    uses: list[Name]
    units: list[Unit]  # that stand in its text
    block: Block
    has_files: bool = False
