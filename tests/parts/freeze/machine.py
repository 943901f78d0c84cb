"""The machine once more, for `pgroup state`: the interpreter of tests/parts/translate, with frames
in one memory of 16,384 words, a stack of 1,024, transfers and each check, as docs/FORMATS.md has
them."""

from ..translate.calls import Calls, Halt
from ..translate.interpreter import COMPARE, JUMPS, Frame, Machine
from ..translate.oldfiles import segments_of

WORDS, STACK, FRAMES = 16384, 1024, 1024
CALLS = ("CLP", "CGP", "CIP")
# The words that an instruction takes. Those that are not here take as many as POPPED says.
POPS = {
    **dict.fromkeys("SLDC LDCN LDCI SLDL LDL LLA SLDO LDO LAO LOD LDA UJP RNP RBP NOP".split(), 0),
    **dict.fromkeys("STL SRO STR SIND IND INC LDM FJP XJP ABI NGI SQI LNOT".split(), 1),
    **dict.fromkeys("STO IXA MOV LDB IXP ADI SBI MPI DVI MODI LAND LOR EFJ NFJ".split(), 2),
    **dict.fromkeys([*COMPARE, *(f"{it}I" for it in COMPARE)], 2),
    **dict.fromkeys(("STB", "LDP", "CHK"), 3), "STP": 4,
}
STANDARD = {0: 0, 5: 6, 6: 6, 34: 0, 39: 0}


class Stop(Exception):
    """An execution error, by its number."""


class OneFrame(Frame):
    """A frame that knows its words, its index and where its caller goes on."""

    def __init__(self, segment, procedure, words, link, index, back):
        super().__init__(segment, procedure, 2 * (words + 1), link)
        self.words, self.index, self.back = words, index, back
        self.size = procedure.params + procedure.data


class Profile(Machine):
    """`ends` and the rest of it are what `pgroup state` prints."""

    def __init__(self, data, given):
        Calls.__init__(self, given)
        self.segment = next(iter(segments_of(data)[0].values()))
        self.memory, self.stack, self.top = bytearray(2 * WORDS), [], 0
        self.frames, self.pending, self.outcome = [], None, 0
        main = self.segment.procedures[1]
        self.make_frame(main, None, 0)
        self.frame, self.main, self.next = self.frames[0], self.frames[0], main.enter

    def make_frame(self, procedure, link, back):
        """A frame above the others. Its words are zero but for the parameters."""
        frame = OneFrame(self.segment, procedure, self.top, link, len(self.frames), back)
        if self.top + frame.size >= WORDS or len(self.frames) >= FRAMES:
            raise Stop(4)
        self.memory[frame.base:frame.base + 2 * frame.size] = bytes(2 * frame.size)
        self.top += frame.size
        self.frames.append(frame)

    # Memory

    def live(self, at):
        if at % 2 or not 1 <= at // 2 <= self.top:
            raise Stop(7)
        return at

    def word(self, at):
        at = self.live(at & 65535)
        return self.memory[at] | self.memory[at + 1] << 8

    def store(self, at, value):
        at = self.live(at & 65535)
        self.memory[at:at + 2] = (value & 65535).to_bytes(2, "little")

    def own(self, frame, offset):
        """The address of a frame's word, which does not wrap."""
        return self.live(frame.address(offset))

    def byte_at(self, index):
        at = self.address() + index
        if not 2 <= at < 2 * self.top + 2:
            raise Stop(7)
        return at

    def do_sldl(self, offset):
        self.push(self.word(self.own(self.frame, offset)))

    do_ldl = do_sldl

    def do_sldo(self, offset):
        self.push(self.word(self.own(self.main, offset)))

    do_ldo = do_sldo

    def do_stl(self, offset):
        self.store(self.own(self.frame, offset), self.pop())

    def do_sro(self, offset):
        self.store(self.own(self.main, offset), self.pop())

    def do_lod(self, levels, offset):
        self.push(self.word(self.own(self.frame.up(levels), offset)))

    def do_str(self, levels, offset):
        self.store(self.own(self.frame.up(levels), offset), self.pop())

    def do_mov(self, count):
        source, target = self.address(), self.address()
        words = [self.word(source + 2 * it) for it in range(count)]
        places = [self.live(target + 2 * it & 65535) for it in range(count)]
        for at, value in zip(places, words):
            self.store(at, value)

    def do_stm(self, count):
        values = [self.pop() for _ in range(count)]
        at = self.address()
        places = [self.live(at + 2 * it & 65535) for it in range(count)]
        for place, value in zip(places, values):
            self.store(place, value)

    def do_ldb(self):
        self.push(self.memory[self.byte_at(self.pop())])

    def do_stb(self):
        value, index = self.pop(), self.pop()
        self.memory[self.byte_at(index)] = value & 255

    def do_ixp(self, count, width):
        if self.stack[-1] < 0:
            raise Stop(1)
        super().do_ixp(count, width)

    def check_field(self, right, width):
        if not 1 <= width <= 16 or not 0 <= right <= 15 or right + width > 16:
            raise Stop(1)

    def do_ldp(self):
        self.check_field(self.stack[-1], self.stack[-2])
        super().do_ldp()

    def do_stp(self):
        self.check_field(self.stack[-2], self.stack[-3])
        super().do_stp()

    # Steps

    def popped(self, name, operands):
        """The words that an instruction takes."""
        if name in CALLS:
            return self.segment.procedures[operands[0]].params
        if name == "CSP":
            return STANDARD[operands[0]]
        return operands[0] + 1 if name == "STM" else POPS[name]

    def call(self, name, number, after):
        caller, procedure = self.frame, self.segment.procedures[number]
        link = caller if name == "CLP" else self.link_of(caller, procedure.level)
        self.make_frame(procedure, self.main if name == "CGP" else link, after)
        self.frame = self.frames[-1]
        for offset in range(1, procedure.params + 1):
            self.store(self.frame.address(offset), self.pop())
        return procedure.enter

    def leave(self, count):
        frame = self.frame
        for offset in range(1, count + 1):
            self.own(frame, offset)
        self.give(frame, count)
        if len(self.stack) > STACK:
            raise Stop(4)
        self.top -= frame.size
        self.frames.pop()
        self.frame = self.frames[-1]
        return frame.back

    def transfer(self, direction, at):
        self.pop()
        self.pop()
        left, index, base, unit = self.pop(), self.pop(), self.address(), self.address()
        self.outcome = 0 if unit in (1, 2) else 2
        if self.outcome == 0 and left > 0:
            self.pending = [direction, unit, base + index, left, at]

    def standard_call(self, number, at):
        if number == 0 and self.outcome:
            raise Stop(10)
        if number == 39:
            raise Stop(14)
        if number == 34:
            self.push(self.outcome)
        elif number in (5, 6):
            self.transfer("reading" if number == 5 else "writing", at)

    def instruction(self):
        """One instruction. Raises Halt where the program ends."""
        at = self.next
        name, operands, after = self.segment.at(self.frame.procedure, at)
        if len(self.stack) < self.popped(name, operands):
            raise Stop(0)
        if name == "RBP":
            raise Halt("normal")
        if name in CALLS:
            after = self.call(name, operands[0], after)
        elif name == "RNP":
            after = self.leave(operands[0])
        elif name == "CSP":
            self.standard_call(operands[0], at)
        elif name in JUMPS:
            after = JUMPS[name](self, operands, after)
        else:
            self.step(name, operands, after)
        if len(self.stack) > STACK:
            raise Stop(4)
        self.next = after

    def byte(self):
        """A byte of a transfer."""
        direction, unit, address, left, _ = self.pending
        if not 2 <= address < 2 * self.top + 2:
            raise Stop(7)
        if direction == "writing":
            self.output.append(self.memory[address])
        elif self.at == len(self.given):
            raise Halt("waits")
        else:
            self.memory[address] = self.given[self.at]
            self.at += 1
            if unit == 1:
                self.output.append(self.memory[address])
        self.pending[2:4] = address + 1, left - 1
        if left == 1:
            self.pending = None

    def one_step(self):
        """A step. An error changes nothing."""
        kept = list(self.stack), self.frame, list(self.frames), self.top
        try:
            if self.pending:
                self.byte()
            else:
                self.instruction()
        except (Stop, Halt) as why:
            self.stack, self.frame, self.frames, self.top = kept
            number = {"error 1": 1, "error 6": 6}.get(str(why), why.args[0])
            at = self.pending[4] if self.pending else self.next
            if isinstance(number, str):
                return number
            return f"error {number} procedure {self.frame.procedure.number} at {at}"
        return None

    def text(self, ends):
        """What `pgroup state` prints."""
        lines = ["state 1", f"ends {ends}", f"read {self.at}", f"wrote {len(self.output)}",
                 f"ioresult {self.outcome}", f"next {self.next}"]
        if self.pending:
            lines.append(" ".join(map(str, ["pending", *self.pending])))
        for it in self.frames:
            link = it.link.index if it.link else 0
            lines.append(f"frame {it.procedure.number} {it.words} {it.size} {link} {it.back}")
        words = [self.memory[2 * it] | self.memory[2 * it + 1] << 8
                 for it in range(1, self.top + 1)]
        lines.append(" ".join(["stack", *(str(it & 65535) for it in reversed(self.stack))]))
        lines.append(" ".join(["memory", *map(str, words)]))
        return "\n".join(lines) + "\n"


def state_text(data, given, most):
    """What `pgroup state` has to print of a file after this input. None: it takes more steps."""
    machine = Profile(data, given)
    for _ in range(most):
        ends = machine.one_step()
        if ends:
            return machine.text(ends)
    return None


