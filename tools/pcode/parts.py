"""What a code file is made of: procedures, with their instructions and labels."""

from __future__ import annotations

from .fields import Fields


class Line:
    """An instruction, and where it comes from; its offset in the segment as soon as it is known.

    An operand is a number, the name of a label or the number of a procedure; in the assembler it is
    the word of the source that means one of these. A program has thousands of them, so that they
    are no Fields.
    """

    __slots__ = ("place", "name", "operands", "at")

    def __init__(self, place, name, operands, at=0):
        self.place, self.name, self.operands, self.at = place, name, operands, at

    def __str__(self):
        return " ".join([self.name] + [str(operand) for operand in self.operands])


class Label(Fields):
    """Where a label is set, and how many instructions of its procedure stand in front of it."""

    place: object
    index: int


class Procedure(Fields):
    """A procedure: the header, its instructions and its labels, of which `exit` has to be there."""

    place: object
    number: int | None
    name: str
    level: int
    params: int
    data: int
    lines: list[Line] = list
    labels: dict[str, Label] = dict
