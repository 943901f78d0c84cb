"""Encodes the instructions of one procedure."""

import struct
from itertools import repeat

from .faults import Fault, TooLarge, in_range
from .instructions import (BIG, BYTE, CALL, COMPARE, JUMP, LDCI, LEVELS, MOST_BYTES, MOST_FAR,
                           PACKED, PLAIN, SHORT, XJP)

FORMS = (PLAIN, SHORT, BYTE, BIG, LEVELS, PACKED, COMPARE, CALL, JUMP, {"LDCI": LDCI})
TABLES = {name: table for table in FORMS for name in table}


BYTES = [bytes([it]) for it in range(256)]


def byte(value):
    """A byte, of a number from -128 to 255."""
    return BYTES[value % 256]


def word(value):
    """A word, of a number from -32768 to 65535."""
    return struct.pack("<H", value % 65536)


def big(value):
    """An operand of one byte below 128, or else of two, of a number from 0 to 32767."""
    if value < 128:
        return byte(value)
    return byte(128 + value // 256) + byte(value % 256)


class Encoder:
    """Encodes one procedure behind the code that is there already."""

    def __init__(self, procedure, start):
        self.procedure = procedure
        self.start = start
        self.offsets = {}  # of labels
        self.far = []  # targets of the jump table, the one at JTAB-10 first
        self.known = []  # of each instruction its bytes, or None if they depend on labels

    def number(self, operand):
        """The number that an operand is."""
        return operand

    def callee(self, operand):
        """The number of the procedure that an operand means."""
        return operand

    def value(self, name, operand, least, most):
        """The value of an instruction's operand."""
        return in_range(f"the operand of {name}", self.number(operand), least, most)

    def offset(self, label):
        if label not in self.offsets:
            raise Fault(f"procedure {self.procedure.name} has no label {label}")
        return self.offsets[label]

    def jump(self, target, after):
        """The operand of a jump that ends at `after`: forwards a distance, else a place in the
        jump table."""
        if after <= target <= after + 127:
            return byte(target - after)
        if target not in self.far:
            if len(self.far) == MOST_FAR:
                raise Fault(f"a procedure has at most {MOST_FAR} targets of jumps that lead back "
                            "or more than 127 bytes ahead")
            self.far.append(target)
        return byte(-10 - 2 * self.far.index(target))

    def back(self, place, target):
        """A self-relative word, which leads back alone."""
        if target > place:
            raise Fault("the labels of an XJP's values stand in front of it")
        return word(place - target)

    def case(self, line):
        """XJP W1 W2 OTHER LABEL..: behind a byte that makes the offset even come W1, W2, UJP and
        the table."""
        if len(line.operands) < 4:
            raise Fault("XJP has W1, W2, the label of all other values, and a label for each value")
        low, high = (self.value("XJP", it, -32768, 32767) for it in line.operands[:2])
        if low > high:
            raise Fault(f"W1 is at most W2, and {low} is above {high}")
        labels = line.operands[3:]
        if len(labels) != high - low + 1:
            raise Fault(f"XJP {low} {high} wants labels for {high - low + 1} values, and has "
                        f"{len(labels)}")
        code = bytes([XJP]) + bytes((line.at + 1) % 2) + word(low) + word(high)
        other = line.at + len(code)
        code += bytes([JUMP["UJP"]]) + self.jump(self.offset(line.operands[2]), other + 2)
        for label in labels:
            code += self.back(line.at + len(code), other if label == "-" else self.offset(label))
        return code

    def encode(self, line):
        """The bytes of an instruction."""
        name, operands = line.name, line.operands
        if name == "XJP":
            return self.case(line)
        table = TABLES.get(name)
        if table is None:
            raise Fault(f"there is no instruction {name}")
        wanted = 0 if table is PLAIN else 2 if table in (LEVELS, PACKED) else 1
        if len(operands) != wanted:
            raise Fault(f"{name} has {wanted} operand{'s' * (wanted != 1)}, and not "
                        f"{len(operands)}")
        if table is SHORT:
            base, least, most = SHORT[name]
            return byte(base + self.value(name, operands[0], least, most))
        return byte(table[name]) + self.operand(table, line)

    def operand(self, table, line):
        """The bytes behind the opcode of an instruction of a table."""
        name, operands = line.name, line.operands
        if table is BYTE:
            return byte(self.value(name, operands[0], 0, 255))
        if table is BIG:
            return big(self.value(name, operands[0], 0, 32767))
        if table is LEVELS:
            levels = byte(self.value(name, operands[0], 0, 255))
            return levels + big(self.value(name, operands[1], 0, 32767))
        if table is PACKED:
            return self.packed(name, operands)
        if table is COMPARE:
            return byte(self.value(name, operands[0], 6, 6))
        if table is CALL:
            return byte(self.callee(operands[0]))
        if table is JUMP:
            return self.jump(self.offset(operands[0]), line.at + 2)
        return b"" if table is PLAIN else word(self.value(name, operands[0], -32768, 65535))

    def packed(self, name, operands):
        elements = self.value(name, operands[0], 1, 16)
        width = self.value(name, operands[1], 1, 16)
        if elements * width > 16:
            raise Fault(f"{elements} elements of {width} bits do not fit a word")
        return byte(elements) + byte(width)

    def code(self):
        """The bytes of all instructions, and the offsets of the labels."""
        code, places, known = bytearray(), [], []
        for line, coded in zip(self.procedure.lines, self.known or repeat(None)):
            line.at = self.start + len(code)
            places.append(line.at)
            try:
                part = coded or self.encode(line)
                code += part
                if self.start + len(code) > MOST_BYTES:
                    raise TooLarge(f"the segment has more than {MOST_BYTES} bytes")
            except Fault as fault:  # `at` would take time for each line
                fault.place = fault.place or line.place
                raise
            known.append(None if line.name in JUMP or line.name == "XJP" else part)
        self.known = known
        labels = self.procedure.labels.items()
        return bytes(code), {name: places[label.index] for name, label in labels}

    def part(self):
        """The part of the segment, and the offset of its attribute table's highest word."""
        # The length of an instruction does not depend on where labels are, so that a first pass,
        # which takes all of them to be at the start, finds out where they are.
        self.offsets = dict.fromkeys(self.procedure.labels, 0)
        _, self.offsets = self.code()
        self.far = []
        part, _ = self.code()
        part += bytes(len(part) % 2)
        if self.start + len(part) + 2 * len(self.far) + 10 > MOST_BYTES:
            raise TooLarge(f"the segment has more than {MOST_BYTES} bytes", self.procedure.place)
        for target in reversed(self.far):
            part += word(self.start + len(part) - target)
        part += word(2 * self.procedure.data) + word(2 * self.procedure.params)
        part += word(self.start + len(part) - self.offsets["exit"])
        part += word(self.start + len(part) - self.offsets.get("enter", self.start))
        jtab = self.start + len(part)
        return part + byte(self.procedure.number) + byte(self.procedure.level), jtab
