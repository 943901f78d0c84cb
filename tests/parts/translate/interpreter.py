"""An interpreter of the whole II.0, with several segments, written from the manual. What the system
does stands in `calls.py`."""

import struct
import sys

from .calls import HEAP, Calls, Halt
from .oldfiles import segments_of

STACK, LITERALS, DATA = 0x1000, 0xD000, 0xF000
DEEPEST = 5000  # of Python's own calls
CONSOLES = {2: 1, 3: 1, 4: 2}  # offsets of the system's frame, with what is pushed for a file


def signed(value):
    value &= 65535
    return value - 65536 if value > 32767 else value


class Left(Exception):
    """An EXIT, with the segment and the procedure that it names."""


class Frame:
    def __init__(self, segment, procedure, base, link):
        self.segment, self.procedure, self.base, self.link = segment, procedure, base, link

    def address(self, offset):
        return self.base + 2 * (offset - 1)

    def up(self, count):
        frame = self
        for _ in range(count):
            frame = frame.link
        return frame


COMPARE = {
    "EQU": lambda a, b: a == b, "NEQ": lambda a, b: a != b, "LEQ": lambda a, b: a <= b,
    "LES": lambda a, b: a < b, "GEQ": lambda a, b: a >= b, "GRT": lambda a, b: a > b,
}
SETS = {"EQU": lambda a, b: a == b, "NEQ": lambda a, b: a != b, "LEQ": lambda a, b: not a & ~b,
        "GEQ": lambda a, b: not b & ~a}


def quotient(a, b):
    if b == 0:
        raise Halt("error 6")
    size = abs(a) // abs(b)
    return size if (a < 0) == (b < 0) else -size


NUMBERS = {
    "ADI": lambda a, b: a + b, "SBI": lambda a, b: a - b, "MPI": lambda a, b: a * b,
    "LAND": lambda a, b: a & b, "LOR": lambda a, b: a | b, "DVI": quotient,
    "MODI": lambda a, b: a - b * quotient(a, b),
    **{name + "I": how for name, how in COMPARE.items()},
}
ALONE = {"ABI": abs, "NGI": lambda a: -a, "SQI": lambda a: a * a, "LNOT": lambda a: ~a}
REALS = {"ADR": lambda a, b: a + b, "SBR": lambda a, b: a - b, "MPR": lambda a, b: a * b}
REAL_ALONE = {"ABR": abs, "NGR": lambda a: -a, "SQR": lambda a: a * a}
UNITED = {"UNI": lambda a, b: a | b, "INT": lambda a, b: a & b, "DIF": lambda a, b: a & ~b}


class Machine(Calls):
    def __init__(self, data, given, most, order):
        super().__init__(given)
        self.segments, words = segments_of(data, order)
        self.memory, self.stack, self.most, self.steps = bytearray(1 << 16), [], most, 0
        self.top, self.heap, self.free = STACK, HEAP, LITERALS
        self.literals, self.bases, at = {}, {}, DATA
        for number, count in words.items():
            self.bases[number] = at
            at += 2 * count

    # Memory and the stack

    def word(self, at):
        at &= 65535
        return self.memory[at] | self.memory[at + 1 & 65535] << 8

    def store(self, at, value):
        at &= 65535
        self.memory[at], self.memory[at + 1 & 65535] = value & 255, value >> 8 & 255

    def push(self, value):
        self.stack.append(signed(int(value)))

    def pop(self):
        return self.stack.pop()

    def address(self):
        return self.stack.pop() & 65535

    def string(self, at):
        return bytes(self.memory[at + 1:at + 1 + self.memory[at]])

    def put_string(self, at, text):
        self.memory[at:at + 1 + len(text)] = bytes([len(text)]) + text

    def pop_set(self):
        count, value = self.pop(), 0
        for k in range(count):
            value |= (self.pop() & 65535) << 16 * k
        return value, count

    def push_set(self, value, count):
        for k in reversed(range(count)):
            self.push(value >> 16 * k)
        self.push(count)

    def pop_real(self):
        low, high = self.pop() & 65535, self.pop() & 65535
        return struct.unpack("<f", struct.pack("<HH", low, high))[0]

    def push_real(self, value):
        try:
            low, high = struct.unpack("<HH", struct.pack("<f", value))
        except OverflowError:
            raise Halt("error 12") from None
        if high & 0x7F80 == 0:  # there is no number with the exponent 0 but 0 itself
            low = high = 0
        self.push(high)
        self.push(low)

    def literal(self, data):
        if data not in self.literals:
            self.memory[self.free:self.free + len(data)] = data
            self.literals[data] = self.free
            self.free += len(data) + len(data) % 2
        return self.literals[data]

    # Calls

    def link_of(self, frame, level):
        """The static link of a frame one level further out."""
        while frame is not None and frame.procedure.level >= level:
            frame = frame.link
        return frame

    def enter(self, caller, segment, number):
        procedure = self.segments[segment].procedures[number]
        base, words = self.top, procedure.params + procedure.data
        self.top += 2 * words
        self.memory[base:self.top] = bytes(2 * words)
        frame = Frame(self.segments[segment], procedure, base,
                      self.link_of(caller, procedure.level))
        for offset in range(1, procedure.params + 1):
            self.store(frame.address(offset), self.pop() if caller else 0)
        depth = len(self.stack)
        try:
            self.run(frame)
        except Left as left:
            if left.args != (segment, number):
                raise
            del self.stack[depth:]
            name, operands, _ = frame.segment.at(procedure, procedure.exit)
            if name == "RNP":
                self.give(frame, operands[0])
        self.top = base

    def give(self, frame, count):
        for offset in range(count, 0, -1):
            self.push(self.word(frame.address(offset)))

    def run(self, frame):
        procedure, segment = frame.procedure, frame.segment
        at, self.main = procedure.enter, frame.up(procedure.level)
        while at is not None:
            name, operands, after = segment.at(procedure, at)
            self.steps += 1
            if self.steps > self.most:
                raise Halt("steps")
            self.frame = frame
            at = self.step(name, operands, after)
            self.main = frame.up(procedure.level)

    def step(self, name, operands, after):
        """One instruction: the offset of the next one, or None behind the last."""
        if name in NUMBERS:
            b, a = self.pop(), self.pop()
            self.push(NUMBERS[name](a, b))
        elif name in ALONE:
            self.push(ALONE[name](self.pop()))
        elif name in REALS:
            b, a = self.pop_real(), self.pop_real()
            self.push_real(REALS[name](a, b))
        elif name in REAL_ALONE:
            self.push_real(REAL_ALONE[name](self.pop_real()))
        elif name in UNITED:
            (b, y), (a, x) = self.pop_set(), self.pop_set()
            self.push_set(UNITED[name](a, b), max(x, y))
        elif name in COMPARE:
            self.push(self.compared(name, *operands))
        elif name in JUMPS:
            return JUMPS[name](self, operands, after)
        else:
            getattr(self, "do_" + name.lower())(*operands)
        return after

    # Words

    def do_sldc(self, value):
        self.push(value)

    do_ldci = do_sldc

    def do_ldcn(self):
        self.push(0)

    def do_sldl(self, offset):
        self.push(self.word(self.frame.address(offset)))

    do_ldl = do_sldl

    def do_sldo(self, offset):
        self.push(self.word(self.main.address(offset)))

    do_ldo = do_sldo

    def do_stl(self, offset):
        self.store(self.frame.address(offset), self.pop())

    def do_sro(self, offset):
        self.store(self.main.address(offset), self.pop())

    def do_lla(self, offset):
        self.push(self.frame.address(offset))

    def do_lao(self, offset):
        self.push(self.main.address(offset))

    def do_lod(self, levels, offset):
        if levels > self.frame.procedure.level:
            self.push(CONSOLES[offset])
        else:
            self.push(self.word(self.frame.up(levels).address(offset)))

    def do_lda(self, levels, offset):
        self.push(self.frame.up(levels).address(offset))

    def do_str(self, levels, offset):
        self.store(self.frame.up(levels).address(offset), self.pop())

    def do_lde(self, number, offset):
        self.push(self.word(self.bases[number] + 2 * (offset - 1)))

    def do_lae(self, number, offset):
        self.push(self.bases[number] + 2 * (offset - 1))

    def do_ste(self, number, offset):
        self.store(self.bases[number] + 2 * (offset - 1), self.pop())

    def do_sto(self):
        value = self.pop()
        self.store(self.pop(), value)

    def do_ind(self, offset):
        self.push(self.word(self.pop() + 2 * offset))

    do_sind = do_ind

    def do_inc(self, offset):
        self.push(self.pop() + 2 * offset)

    def do_ixa(self, size):
        index = self.pop()
        self.push(self.pop() + 2 * index * size)

    def do_mov(self, count):
        source, target = self.address(), self.address()
        self.memory[target:target + 2 * count] = self.memory[source:source + 2 * count]

    def do_ldm(self, count):
        at = self.address()
        for k in reversed(range(count)):
            self.push(self.word(at + 2 * k))

    def do_stm(self, count):
        values = [self.pop() for _ in range(count)]
        at = self.address()
        for k, value in enumerate(values):
            self.store(at + 2 * k, value)

    def do_ldb(self):
        index = self.pop()
        self.push(self.memory[self.address() + index & 65535])

    def do_stb(self):
        value, index = self.pop(), self.pop()
        self.memory[self.address() + index & 65535] = value & 255

    def do_ixp(self, count, width):
        index, at = self.pop(), self.pop()
        self.push(at + 2 * (index // count))
        self.push(width)
        self.push(index % count * width)

    def do_ldp(self):
        right, width = self.pop(), self.pop()
        self.push(self.word(self.pop()) >> right & (1 << width) - 1)

    def do_stp(self):
        value, right, width, at = self.pop(), self.pop(), self.pop(), self.pop()
        mask = (1 << width) - 1 << right
        self.store(at, self.word(at) & ~mask | value << right & mask)

    def do_ldc(self, words):
        for word in words:
            self.push(word)

    def do_chk(self):
        high, low = self.pop(), self.pop()
        if not low <= self.stack[-1] <= high:
            raise Halt("error 1")

    # Strings

    def do_lsa(self, text):
        self.push(self.literal(bytes([len(text)]) + text))

    def do_lpa(self, text):
        self.push(self.literal(text))

    def do_sas(self, most):
        source, target = self.address(), self.address()
        text = bytes([source]) if source < 256 else self.string(source)
        if len(text) > most:
            raise Halt("error 13")
        self.put_string(target, text)

    def do_ixs(self):
        if not 1 <= self.stack[-1] <= self.memory[self.stack[-2] & 65535]:
            raise Halt("error 1")

    # Sets and reals

    def do_adj(self, count):
        value, _ = self.pop_set()
        self.push_set(value & (1 << 16 * count) - 1, count)
        self.pop()

    def element(self, value):
        if not 0 <= value <= 4079:
            raise Halt("error 1")
        return value

    def do_sgs(self):
        value = self.element(self.pop())
        self.push_set(1 << value, value // 16 + 1)

    def do_srs(self):
        high, low = self.pop(), self.pop()
        if low > high:
            self.push_set(0, 0)
        else:
            bits = (1 << self.element(high) + 1) - (1 << self.element(low))
            self.push_set(bits, high // 16 + 1)

    def do_inn(self):
        value, _ = self.pop_set()
        element = self.pop()
        self.push(element >= 0 and value >> element & 1)

    def do_flt(self):
        self.push_real(float(self.pop()))

    def do_flo(self):
        value = self.pop_real()
        self.push_real(float(self.pop()))
        self.push_real(value)

    def do_dvr(self):
        b, a = self.pop_real(), self.pop_real()
        if b == 0:
            raise Halt("error 6")
        self.push_real(a / b)

    def compared(self, name, kind, size=0):
        if kind == 8:
            (b, _), (a, _) = self.pop_set(), self.pop_set()
            return SETS[name](a, b)
        if kind == 2:
            b, a = self.pop_real(), self.pop_real()
        elif kind == 6:
            b, a = self.pop() & 1, self.pop() & 1
        elif kind == 4:
            b, a = self.string(self.address()), self.string(self.address())
        else:
            y, x = self.address(), self.address()
            size *= 1 if kind == 10 else 2
            b, a = bytes(self.memory[y:y + size]), bytes(self.memory[x:x + size])
        return COMPARE[name](a, b)

    # Calls and what does nothing

    def do_clp(self, number):
        self.enter(self.frame, self.frame.segment.number, number)

    do_cgp = do_cip = do_clp

    def do_cxp(self, segment, number):
        if segment:
            self.enter(self.frame, segment, number)
        else:
            self.system(number)

    def do_csp(self, number):
        if number == 4:
            procedure = self.pop()
            raise Left(self.pop(), procedure)
        self.standard(number)

    def do_nop(self):
        pass

    def do_bpt(self, _line):
        pass


def case(machine, operands, _after):
    low, high, other, ways = operands
    index = machine.pop()
    return ways[index - low] if low <= index <= high else other


def returned(machine, operands, _after):
    machine.give(machine.frame, operands[0])


def unequal(machine):
    b, a = machine.pop(), machine.pop()
    return a != b


# Each answers the offset of the next instruction, or None.
JUMPS = {
    "UJP": lambda machine, to, after: to[0],
    "FJP": lambda machine, to, after: after if machine.pop() & 1 else to[0],
    "EFJ": lambda machine, to, after: to[0] if unequal(machine) else after,
    "NFJ": lambda machine, to, after: after if unequal(machine) else to[0],
    "XJP": case, "RNP": returned, "RBP": lambda machine, to, after: None,
    "XIT": lambda machine, to, after: None,
}


def interpreted(data, given=b"", most=10 ** 9, order="little"):
    """What a file writes on an input, and how it ends: `normal`, `waits`, `steps` or an error."""
    sys.setrecursionlimit(max(sys.getrecursionlimit(), DEEPEST))
    machine = Machine(data, given, most, order)
    try:
        machine.enter(None, 1, 1)
        ending = "normal"
    except Halt as halt:
        ending = str(halt)
    except Left:
        ending = "error 3"
    return bytes(machine.output), ending
