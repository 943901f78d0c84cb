"""The copy of a procedure that is under way. It has the body byte for byte, then the sites, where
the frames of the procedure begin, and then a jump table with room for what the sites need."""

from pcode.encoder import byte, word
from pcode.instructions import JUMP, MOST_FAR, XJP

from .code import JUMPS
from .frozen import Row
from .refused import Refused

FIRST_SLOT = -10
UJP = byte(JUMP["UJP"])


class Copy:
    """The copy of a procedure of the original, from an offset of the new segment on."""

    def __init__(self, code, procedure, number, start):
        self.code, self.procedure, self.number, self.start = code, procedure, number, start
        reached = code.instructions(procedure)
        self.slots = {}  # by the operand of a jump: the target in the original
        for offset, it in reached.items():
            slot = code.slot(offset) if it.name in JUMPS else None
            if slot is not None:
                self.slots[slot] = it.targets[0]
        first, last = min(reached), max(it.after for it in reached.values())
        lowest = min([procedure.jtab + it for it in self.slots], default=procedure.jtab - 8)
        if last > min(lowest, procedure.jtab - 8):
            raise Refused("overlap", f"the code and the jump table of procedure "
                          f"{procedure.number} overlap, which no compiler writes")
        self.first = first - first % 2  # the operands of an XJP begin at an even offset
        self.shift = start - self.first
        self.out = bytearray(code.code[self.first:last])
        self.rows = [self.row(start, start + len(self.out), self.first)]
        self.added = {}  # by the operand of a jump: the target here
        self.blocks = []

    def row(self, begin, end, back):
        return Row(self.number, begin, end, self.procedure.number, back)

    def here(self):
        return self.start + len(self.out)

    def slot_to(self, target):
        """The operand of a jump to an offset of the body. None if the jump table is full."""
        there = target + self.shift
        for table, wanted in ((self.slots, target), (self.added, there)):
            for slot, it in table.items():
                if it == wanted:
                    return slot
        for slot in range(FIRST_SLOT, FIRST_SLOT - 2 * MOST_FAR, -2):
            if slot not in self.slots and slot not in self.added:
                self.added[slot] = there
                return slot
        return None

    def ahead(self, back):
        """The instructions from an offset of the original on that no table leads to."""
        found, waiting = {}, [back]
        while waiting:
            offset = waiting.pop()
            if offset in found:
                continue
            it = found[offset] = self.code.at(self.procedure, offset)
            if it.name == "XJP":
                waiting.append(it.targets[0])
            elif it.name in JUMPS:
                waiting += it.targets if self.code.slot(offset) is None else []
            if it.name not in ("UJP", "XJP", "RNP", "RBP"):
                waiting.append(it.after)
        return found

    def add_tail(self, back):
        """A copy of the code from an offset on, as far as it goes on without the jump table."""
        found = self.ahead(back)
        end, move = max(it.after for it in found.values()), self.here() - back
        made = bytearray(self.code.code[back:end])
        for it in found.values():
            if it.name == "XJP":
                at = it.after - 2 * len(it.targets[1:]) - back
                for k, target in enumerate(it.targets[1:]):
                    place = at + 2 * k
                    made[place:place + 2] = word(place + back + move - target - self.shift)
        self.rows.append(self.row(self.here(), self.here() + len(made), back))
        self.out += made

    def add_site(self, code, back):
        """A block: this code, and then the original from an offset on. Whoever returns behind the
        code is at that offset."""
        slot = self.slot_to(back)
        if slot is None and (self.here() + len(code) - back) % 2:
            self.out += b"\0"
        self.blocks.append(self.here())
        self.out += code
        if slot is None:
            self.add_tail(back)
        else:
            self.rows.append(self.row(self.here(), self.here() + 1, back))
            self.out += UJP + byte(slot)

    def case(self):
        """Leads to the block whose number is on the stack."""
        if not self.slots and not self.added:
            self.added[FIRST_SLOT] = self.blocks[0]
        other = next(iter([*self.slots, *self.added]))  # no other number comes
        self.out += byte(XJP)
        self.out += bytes(self.here() % 2) + word(0) + word(len(self.blocks) - 1)
        self.out += UJP + byte(other)
        for it in self.blocks:
            self.out += word(self.here() - it)

    def table(self):
        """The words of the jump table, and the offset of JTAB."""
        lowest = min([*self.slots, *self.added], default=-8)
        jtab = self.here() - lowest
        words = b""
        for slot in range(lowest, -8, 2):
            target = self.slots[slot] + self.shift if slot in self.slots else self.added.get(slot)
            words += word(0 if target is None else jtab + slot - target)
        return words, jtab

    def finished(self):
        """The bytes of the part, and its JTAB."""
        enter = self.blocks[0]
        if len(self.blocks) > 1:
            enter = self.here()
            self.case()
        self.out += bytes(len(self.out) % 2)
        words, jtab = self.table()
        it = self.procedure
        self.out += words + word(2 * it.data) + word(2 * it.params)
        self.out += word(self.here() - it.exit - self.shift)
        self.out += word(self.here() - enter)
        return bytes(self.out) + byte(self.number) + byte(it.level), jtab
