"""Makes the frozen file of a program in a configuration in which it waits.

The original segment stays byte for byte. For each procedure under way a copy comes behind it, or in
its place if it is the last one, as procedure 1 of a compiled file is. The site of a frame calls the
next frame's copy, and leads to where the original goes on. The site of the last frame fills memory,
pushes the stack and the operands of UNITREAD, and leads to that. docs/DECISIONS.md says why that
comes to the same configuration."""

from collections import Counter

from pcode.encoder import byte, word
from pcode.instructions import BLOCK, CALL, MOST_BYTES, PLAIN

from . import filling, packed
from .code import Code
from .copies import Copy
from .frozen import Frozen, Places, frozen_in
from .refused import Refused
from .state import original_state

MOST_PROCEDURES, MOST_FRAMES, STACK = 255, 1024, 1024


class Freezing:
    """The original program, and its configuration."""

    def __init__(self, original, state):
        self.code, self.state, frames = Code(original), state, state.frames
        self.original = original
        self.counts = Counter(it.procedure for it in frames)
        under_way = sorted(set(self.counts) - {1})
        self.numbers = {1: 1}
        self.numbers.update((it, self.code.count + k) for k, it in enumerate(under_way, 1))
        if self.code.count + len(under_way) > MOST_PROCEDURES:
            raise Refused("procedures", f"its {self.code.count} procedures and {len(under_way)} "
                          f"that are under way are more than {MOST_PROCEDURES}")
        for it in under_way:
            if self.code.procedures[it].params + (self.counts[it] > 1) > STACK:
                raise Refused("parameters", f"procedure {it} has {STACK} words of parameters and "
                              "several frames: there is no room to say which one comes")
        self.unpacker = self.code.count + len(under_way) + 1

    def push_number(self, index):
        """Pushes which frame of its procedure one is, if there are several."""
        number = self.state.frames[index].procedure
        before = sum(it.procedure == number for it in self.state.frames[:index])
        return filling.push(before) if self.counts[number] > 1 else b""

    def call(self, index):
        """Calls the copy for the frame with this index. Its parameters are zero until memory is
        filled."""
        number = self.state.frames[index].procedure
        zeros = byte(PLAIN["LDCN"]) * self.code.procedures[number].params
        return (self.push_number(index) + zeros + byte(CALL["CIP"])
                + byte(self.numbers[number]))

    def last_site(self, filled):
        """Comes to the configuration, and to the UNITREAD that waits."""
        it = self.state.pending
        words = [*reversed(self.state.stack), it.unit, it.address, 0, it.left, 0, 0]
        return filled + b"".join(map(filling.push, words))

    def copy(self, number, segment, filled):
        """Adds the copy of a procedure to the segment. Returns it and its JTAB."""
        made = Copy(self.code, self.code.procedures[number], self.numbers[number], len(segment))
        frames = self.state.frames
        for index, it in enumerate(frames):
            if it.procedure == number and index + 1 < len(frames):
                made.add_site(self.call(index + 1), frames[index + 1].back)
            elif it.procedure == number:
                made.add_site(self.last_site(filled), self.state.pending.at)
        part, jtab = made.finished()
        segment += part
        return made, jtab

    def begun(self):
        """The segment as far as it stays. What procedure 1 has before its code stays too, so that
        its code does, if it is the last one."""
        main = self.code.procedures[1]
        if main.jtab < max(self.code.tables):
            return bytearray(self.code.code[:-2 - 2 * self.code.count])
        first = min(self.code.instructions(main))
        return bytearray(self.code.code[:first - first % 2])

    def segment(self, filled, is_packed=False):
        """The new segment, and its rows."""
        segment, rows = self.begun(), []
        jtabs = {i: it.jtab for i, it in self.code.procedures.items()}
        for number, new in self.numbers.items():
            made, jtabs[new] = self.copy(number, segment, filled)
            rows += made.rows
        if is_packed:
            part, jtabs[self.unpacker] = packed.unpacking(len(segment), self.unpacker)
            segment += part
        for number in sorted(jtabs, reverse=True):
            segment += word(len(segment) - jtabs[number])
        return bytes(segment) + byte(self.code.number) + byte(len(jtabs)), rows

    def fitting(self):
        """The new segment and its rows, if there is one that is not too large."""
        memory = self.state.memory
        made = self.segment(filling.filling(memory))
        can_pack = packed.is_possible(memory, len(self.state.frames), MOST_FRAMES)
        if len(made[0]) > MOST_BYTES and can_pack and self.unpacker <= MOST_PROCEDURES:
            other = self.segment(packed.filling(memory, self.unpacker), True)
            made = min(made, other, key=lambda it: len(it[0]))
        if len(made[0]) > MOST_BYTES:
            raise Refused("bytes", f"its segment would have {len(made[0]):,} bytes, and at most "
                          f"{MOST_BYTES:,} are possible: its code, its memory and its frames are "
                          "too much together")
        return made

    def made(self):
        """The bytes up to the trailer, and the rows."""
        segment, rows = self.fitting()
        block = bytearray(self.code.first_block)
        at = 4 * self.code.entry
        block[at:at + 4] = word(1) + word(len(segment))
        return bytes(block) + segment + bytes(-len(segment) % BLOCK), rows


def check_waits(state):
    if state.ends != "waits" or state.pending is None:
        how = "normally" if state.ends == "normal" else f"by {state.ends.replace(' p', ' in p')}"
        raise Refused("ended", f"the program has ended {how}: there is nothing to continue")


def freeze(data, state):
    """The frozen file of a code file in this configuration. If the file is frozen itself, its
    original is frozen, so that no file grows by being frozen again."""
    check_waits(state)
    before = frozen_in(data)
    if before:
        state = original_state(Places(before.rows), state)
    original = before.original if before else data
    read, wrote, times = (before.read, before.wrote, before.times) if before else (0, 0, 0)
    made, rows = Freezing(original, state).made()
    return made + Frozen(rows, original, read + state.read, wrote + state.wrote,
                         times + 1).trailer()
