"""Lists a code file. It reads nothing but the code file, and shares only the table of instructions
with the encoder."""

import struct
from typing import Any, List, NamedTuple

from .faults import Fault
from .instructions import (BIG, BLOCK, BYTE, CALL, COMPARE, JUMP, LAST, LDCI, LEVELS, PACKED, PLAIN,
                           SHORT, XJP)


def names_by_opcode():
    """The name and the form of each opcode, and the number of a short one."""
    table = {}
    forms = {"plain": PLAIN, "byte": BYTE, "big": BIG, "levels": LEVELS, "packed": PACKED,
             "compare": COMPARE, "call": CALL, "jump": JUMP, "word": {"LDCI": LDCI},
             "case": {"XJP": XJP}}
    for form, opcodes in forms.items():
        for name, opcode in opcodes.items():
            table[opcode] = name, form, 0
    for name, (base, least, most) in SHORT.items():
        for number in range(least, most + 1):
            table[base + number] = name, "short", number
    return table


class Instruction(NamedTuple):
    name: str
    operands: List[Any]  # as the listing has them: those of jumps are targets
    targets: List[int]  # the offsets that it may lead to, but for the next one
    after: int  # the offset behind it

    def following(self):
        """The offsets of the instructions that may come next."""
        return self.targets + ([] if self.name in LAST else [self.after])


class Lister:
    """Reads the segment of a code file, and follows the flow of control."""

    def __init__(self, data):
        if len(data) < BLOCK:
            raise Fault(f"a code file has {BLOCK} bytes or more, and this one has {len(data)}")
        entries = [struct.unpack_from("<HH", data, 4 * k) for k in range(16)]
        block, length = next((entry for entry in entries if entry[1] != 0), (0, 0))
        if length < 2:
            raise Fault("block 0 names no segment")
        if block == 0 or block * BLOCK + length > len(data):
            raise Fault(f"the segment has {length} bytes from block {block} on, and the file ends "
                        "before")
        self.code = data[block * BLOCK: block * BLOCK + length]
        self.names = names_by_opcode()
        self.tables = [self.pointer(length - 4 - 2 * k) for k in range(self.code[-1])]

    def bytes_at(self, at, count):
        if at < 0 or at + count > len(self.code):
            raise Fault(f"{at} lies outside the segment")
        return self.code[at: at + count]

    def byte(self, at):
        return self.bytes_at(at, 1)[0]

    def word(self, at):
        return struct.unpack("<H", self.bytes_at(at, 2))[0]

    def pointer(self, at):
        return at - self.word(at)

    def big(self, at):
        """An operand of one or two bytes, and the offset behind it."""
        if self.byte(at) < 128:
            return self.byte(at), at + 1
        return (self.byte(at) - 128) * 256 + self.byte(at + 1), at + 2

    def target(self, at, jtab):
        """Where the jump leads whose operand stands there."""
        distance = struct.unpack("<b", self.bytes_at(at, 1))[0]
        return at + 1 + distance if distance >= 0 else self.pointer(jtab + distance)

    def case(self, after):
        """The operands of an XJP: W1, W2, the offset of its UJP, and where its words lead."""
        after += after % 2
        low, high = struct.unpack("<hh", self.bytes_at(after, 4))
        words = range(after + 6, after + 6 + 2 * (high - low + 1), 2)
        return [low, high, after + 4] + [self.pointer(word) for word in words]

    def instruction(self, at, jtab):
        """The instruction at an offset of the procedure with this table."""
        if self.byte(at) not in self.names:
            raise Fault(f"there is no opcode {self.byte(at)}, which stands at {at}")
        name, form, number = self.names[self.byte(at)]
        operands, targets, after = [], [], at + 1
        if form == "short":
            operands = [number]
        elif form in ("byte", "call", "compare"):
            operands, after = [self.byte(after)], after + 1
        elif form == "word":
            operands, after = [self.word(after)], after + 2
        elif form in ("big", "levels"):
            if form == "levels":
                operands, after = [self.byte(after)], after + 1
            operand, after = self.big(after)
            operands.append(operand)
        elif form == "packed":
            operands, after = [self.byte(after), self.byte(after + 1)], after + 2
        elif form == "jump":
            targets = operands = [self.target(after, jtab)]
            after += 1
        elif form == "case":
            operands = self.case(after)
            targets = operands[2:]
            after += after % 2 + 6 + 2 * (len(targets) - 1)  # W1, W2, UJP, and the table
        return Instruction(name, operands, targets, after)

    def look(self, at, jtab):
        """The text of an instruction, and the offsets that come after it."""
        it = self.instruction(at, jtab)
        return " ".join([it.name] + [str(operand) for operand in it.operands]), it.following()

    def reached(self, jtab):
        """The text at each offset of a procedure that can be reached."""
        texts, waiting = {}, [self.pointer(jtab - 2), self.pointer(jtab - 4)]
        while waiting:
            at = waiting.pop()
            if at not in texts:
                texts[at], following = self.look(at, jtab)
                waiting += following
        return texts

    def lines(self):
        """The lines of the listing."""
        for number, jtab in enumerate(self.tables, 1):
            sizes = f"params {self.word(jtab - 6) // 2} data {self.word(jtab - 8) // 2}"
            offsets = f"enter {self.pointer(jtab - 2)} exit {self.pointer(jtab - 4)}"
            yield f"proc {number} level {self.byte(jtab + 1)} {sizes} {offsets}"
            for at, text in sorted(self.reached(jtab).items()):
                yield f"{at:05} {text}"
