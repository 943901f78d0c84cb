"""What the freezer reads of a code file that pgroup accepts: its procedures and instructions."""

import struct
from typing import NamedTuple

from pcode.instructions import BLOCK
from pcode.listing import Lister

# Instructions whose operand may be a word of the jump table.
JUMPS = ("UJP", "FJP", "EFJ", "NFJ")


class Procedure(NamedTuple):
    number: int
    level: int
    enter: int
    exit: int
    jtab: int
    low: int  # where its part of the segment begins
    params: int  # in words
    data: int


class Code(Lister):
    """A code file of the profile."""

    def __init__(self, data):
        super().__init__(data)
        self.first_block = data[:BLOCK]
        lengths = [struct.unpack_from("<H", data, 4 * k + 2)[0] for k in range(16)]
        self.entry = next(k for k, length in enumerate(lengths) if length)
        block, length = struct.unpack_from("<HH", data, 4 * self.entry)
        self.end = block * BLOCK + length
        self.number, self.count = self.code[-2], self.code[-1]
        self.procedures = {i: self.procedure(i, it) for i, it in enumerate(self.tables, 1)}

    def procedure(self, number, jtab):
        low = max((it + 2 for it in self.tables if it < jtab), default=0)
        return Procedure(number, self.byte(jtab + 1), self.pointer(jtab - 2),
                         self.pointer(jtab - 4), jtab, low, self.word(jtab - 6) // 2,
                         self.word(jtab - 8) // 2)

    def at(self, procedure, offset):
        """The instruction at an offset of a procedure."""
        return self.instruction(offset, procedure.jtab)

    def slot(self, offset):
        """The operand of a jump that leads by the jump table, or None: it leads ahead."""
        distance = struct.unpack("<b", self.bytes_at(offset + 1, 1))[0]
        return distance if distance < 0 else None

    def instructions(self, procedure):
        """The instructions of a procedure that can be reached, by their offsets."""
        found, waiting = {}, [procedure.enter, procedure.exit]
        while waiting:
            offset = waiting.pop()
            if offset not in found:
                found[offset] = self.at(procedure, offset)
                waiting += found[offset].following()
        return found
