"""Decodes the instructions of a procedure that can be reached from its ENTER and EXIT."""

from typing import Any, List

from pcode.faults import Fault
from pcode.fields import Fields

from .reading import TABLE
from .table import BYTES, LAST, OPCODES, TYPES, WORDS

UJP = 185
SELF = "-"  # a word of an XJP that leads to its UJP


class Instruction(Fields):
    """An instruction. Operands that are jumps are offsets in the segment."""

    at: int
    name: str
    operands: List[Any]
    after: int  # the offset behind it

    def targets(self):
        """The offsets that it may jump to."""
        if self.name in ("UJP", "FJP", "EFJ", "NFJ"):
            return self.operands
        return [it for it in self.operands[2:] if it != SELF] if self.name == "XJP" else []

    def following(self):
        """The offsets of the instructions that may come next."""
        return self.targets() + ([] if self.name in LAST else [self.after])


class Decoder:
    """Decodes a procedure of a segment."""

    def __init__(self, segment, procedure):
        self.segment, self.procedure = segment, procedure
        self.end = procedure.jtab - TABLE

    def refuse(self, text, at):
        raise Fault(text, self.segment.place._replace(procedure=self.procedure.number, offset=at))

    def look(self, at, count):
        """Refuses bytes that do not all lie in the procedure."""
        if at < self.procedure.low or at + count > self.end:
            self.refuse("an instruction is cut off by the end of the procedure", self.start)

    def byte(self, at):
        self.look(at, 1)
        return self.segment.code[at]

    def word(self, at, is_signed=False):
        self.look(at, 2)
        return self.segment.signed(at) if is_signed else self.segment.word(at)

    def big(self, at):
        """An operand of one or two bytes, and the offset behind it."""
        first = self.byte(at)
        if first < 128:
            return first, at + 1
        return (first - 128) * 256 + self.byte(at + 1), at + 2

    def within(self, target):
        """A target, which has to lie in the procedure."""
        if not self.procedure.low <= target < self.end:
            self.refuse(f"a jump leads to {target}, out of the procedure", self.start)
        return target

    def target(self, at):
        """Where the jump leads whose operand stands there."""
        distance = self.byte(at)
        if distance < 128:
            return self.within(at + 1 + distance)
        place = self.procedure.jtab + distance - 256
        if distance % 2 or place > self.end - 2 or place < self.procedure.low:
            self.refuse("a jump has no word in the jump table", self.start)
        return self.within(self.segment.pointer(place))

    def case(self, at):
        """W1, W2, where the UJP leads, and where the words lead."""
        at += at % 2
        low, high = self.word(at, True), self.word(at + 2, True)
        if low > high or self.byte(at + 4) != UJP:
            self.refuse("a case jump has wrong bounds, or no jump behind them", self.start)
        other, table = at + 4, at + 6
        count = high - low + 1
        self.look(table, 2 * count)
        found = [low, high, self.target(at + 5)]
        for k in range(count):
            target = self.segment.pointer(table + 2 * k)
            found.append(SELF if target == other else self.within(target))
        return found, table + 2 * count

    def compared(self, at):
        """The type of a comparison, and its size if it has one."""
        kind = self.byte(at)
        if kind not in TYPES:
            self.refuse(f"a comparison has the type {kind}, which is none", self.start)
        if kind in (BYTES, WORDS):
            size, after = self.big(at + 1)
            return [kind, size], after
        return [kind], at + 1

    def constants(self, at):
        """The words of an LDC, in the order in which they are pushed."""
        count, first = self.byte(at), at + 1 + (at + 1) % 2
        return [[self.word(first + 2 * k) for k in range(count)]], first + 2 * count

    def characters(self, at):
        count = self.byte(at)
        self.look(at + 1, count)
        return [bytes(self.segment.code[at + 1:at + 1 + count])], at + 1 + count

    def levels(self, at):
        first = self.byte(at)
        second, after = self.big(at + 1)
        return [first, second], after

    def big_alone(self, at):
        value, after = self.big(at)
        return [value], after

    def instruction(self, at):
        """The instruction at an offset."""
        self.start = at
        opcode = self.byte(at)
        if opcode not in OPCODES:
            self.refuse(f"the opcode {opcode} is none of II.0 or of Apple Pascal 1.1", at)
        name, form, number = OPCODES[opcode]
        readers = {
            "short": lambda place: ([number], place), "plain": lambda place: ([], place),
            "byte": lambda place: ([self.byte(place)], place + 1),
            "call": lambda place: ([self.byte(place)], place + 1),
            "two": lambda place: ([self.byte(place), self.byte(place + 1)], place + 2),
            "word": lambda place: ([self.word(place, True)], place + 2),
            "jump": lambda place: ([self.target(place)], place + 1),
            "big": self.big_alone, "levels": self.levels, "compare": self.compared,
            "text": self.characters, "words": self.constants, "case": self.case,
        }
        operands, after = readers[form](at + 1)
        return Instruction(at, name, operands, after)

    def reached(self):
        """All instructions that can be reached, by their offsets in ascending order."""
        found, waiting = {}, [self.procedure.enter, self.procedure.exit]
        while waiting:
            at = waiting.pop()
            if at not in found:
                found[at] = self.instruction(at)
                waiting += found[at].following()
        return {at: found[at] for at in sorted(found)}
