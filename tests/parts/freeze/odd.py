"""Random p-code that no compiler writes: words that stay on the stack, odd addresses, jumps into
loops, calls at all levels, transfers of several bytes, and now and then an instruction for which
nothing is prepared. The loader accepts nearly all of it."""

import random

from ..translate.oldfiles import LINKED, Assembler, code_file

MATHS = ("ADI SBI MPI DVI MODI LAND LOR EQUI NEQI LEQI LESI GEQI GRTI").split()
ALONE = "ABI NGI SQI LNOT NOP LDCN".split()
BARE = MATHS + ALONE + "STO LDB STB LDP STP CHK".split() + ["CSP 0", "CSP 34", "STM 3", "LDM 2"]
TYPED = "EQU NEQ LEQ LES GEQ GRT".split()
EDGES = (0, 1, 2, 3, 5, 7, 16, 127, 128, 255, 256, 32767, 32768, 65534, 65535)


class Odd:
    """A random file: its procedures with their levels, parameters and data."""

    def __init__(self, seed):
        self.random = random.Random(f"odd/{seed}")
        self.is_wild = self.random.random() < 0.3
        self.sizes = {1: (0, 2, self.number(30, 50))}
        level = 1
        for number in range(2, self.number(2, 7)):
            self.sizes[number] = level, self.number(0, 3), self.number(0, 9)
            level = self.number(1, level + 1)

    def number(self, low, high):
        return self.random.randint(low, high)

    def push(self):
        """A line that pushes a word."""
        words = self.words()
        return self.random.choice([
            f"SLDC {self.number(0, 127)}", f"SLDC {self.number(0, 3)}",
            f"LDCI {self.random.choice(EDGES)}", f"LAO {self.number(1, 12)}",
            f"LLA {self.number(1, words + 1)}", f"SLDO {self.number(1, 6)}", "LDCN",
            f"LDL {self.number(1, words)}" if words else "SLDC 3",
            f"LOD {self.sizes[self.own][0]} {self.number(1, 9)}",
            f"LOD {self.number(0, self.sizes[self.own][0])} {self.number(0, 2)}"
            if self.is_wild else f"LOD {self.sizes[self.own][0]} 2",
        ])

    def words(self):
        return self.sizes[self.own][1] + self.sizes[self.own][2]

    def pushes(self, count):
        return [self.push() for _ in range(count)]

    def address(self):
        some = [f"LAO {self.number(1, 9)}", f"LAO {self.number(1, 22)}"]
        some += [f"LLA {self.number(1, self.words())}"] if self.words() > 12 else []
        if self.is_wild and self.random.random() < 0.2:
            some = [f"LLA {self.number(1, 4)}", self.push()]
        return self.random.choice(some)

    def transfer(self):
        unit = self.random.choice([1, 2, 2, 2, 3])
        length = self.random.choice([0, 1, 1, 2, 3, 7, 12])
        call = self.random.choice(["CSP 5", "CSP 5", "CSP 6"])
        return [f"SLDC {unit}", self.address(), f"SLDC {self.number(0, 3)}", f"SLDC {length}",
                "SLDC 0", "SLDC 0", call]

    def field(self, more):
        width = self.number(1, 16)
        right = self.number(0, 16 - width)
        return [self.address(), f"SLDC {width}", f"SLDC {right}"] + more

    def call(self):
        level = self.sizes[self.own][0]
        some = [it for it, (other, _, _) in self.sizes.items() if 1 <= other <= level + 1]
        if not some:
            return []
        number = self.random.choice(some)
        names = ["CIP"] + ["CGP"] * (self.sizes[number][0] == 1)
        names += ["CLP"] * (self.sizes[number][0] == level + 1)
        return self.pushes(self.sizes[number][1]) + [f"{self.random.choice(names)} {number}"]

    def statement(self):
        count = self.number(1, 5)
        choice = self.random.choice
        return choice([
            lambda: self.pushes(count), lambda: [self.push(), "SLDC 7", choice(MATHS)],
            lambda: self.pushes(2) + [choice(MATHS if self.is_wild else MATHS[:3])],
            lambda: [self.push(), choice(ALONE)], lambda: [self.push(), f"SRO {self.number(1, 6)}"],
            lambda: [self.push(), f"STL {self.number(1, max(self.words(), 1 + self.is_wild))}"]
            if self.words() or self.is_wild else [],
            lambda: [self.address(), self.push(), "STO"],
            lambda: [self.address(), f"SIND {self.number(0, 7)}"],
            lambda: [self.address(), f"IND {self.number(0, 5)}"],
            lambda: [self.address(), f"INC {self.number(0, 9)}"],
            lambda: [self.address(), self.push(), f"IXA {self.number(0, 4)}"],
            lambda: [self.address(), self.address(), f"MOV {self.number(0, 4)}"],
            lambda: [self.address(), f"LDM {self.number(0, 3)}"],
            lambda: [self.address()] + self.pushes(count) + [f"STM {count}"],
            lambda: [self.address(), f"SLDC {self.number(0, 9)}", "LDB"],
            lambda: [self.address(), f"SLDC {self.number(0, 9)}", self.push(), "STB"],
            lambda: [self.address(), f"SLDC {self.number(0, 9)}", "IXP 4 4"],
            lambda: self.field(["LDP"]), lambda: self.field([self.push(), "STP"]),
            lambda: self.pushes(2) + [f"{choice(TYPED)} 6"],
            lambda: [self.push(), "LDCI 32768", "LDCI 32767", "CHK"],
            lambda: [self.push(), f"STR {self.sizes[self.own][0]} {self.number(1, 9)}"],
            lambda: [f"LDA {self.number(0, self.sizes[self.own][0])} {self.number(1, 3)}"],
            self.transfer, self.transfer, self.call, self.call,
        ])()

    def leave(self, block, blocks):
        """How a block ends: mostly it leads on to the next one."""
        is_back = self.random.random() < 0.15
        target = self.number(0 if is_back else block + 1, blocks)
        label = "exit" if target == blocks else f"b{target}"
        cases = [f"b{self.number(0, block)}" if is_back else "-" for _ in range(3)]
        return self.random.choice([
            [], [], [], [self.push(), f"FJP {label}"], self.pushes(2) + [f"EFJ {label}"],
            self.pushes(2) + [f"NFJ {label}"], [f"UJP {label}"],
            [f"SLDC {self.number(0, 4)}", " ".join([f"XJP 1 3 {label}", *cases])],
        ])

    def text(self, number):
        self.own, lines = number, []
        blocks = self.number(1, 6)
        for block in range(blocks):
            lines.append(f"b{block}:")
            for _ in range(self.number(1, 6)):
                lines += self.statement()
            if self.is_wild and self.random.random() < 0.1:
                lines.append(self.random.choice(BARE))
            lines += self.leave(block, blocks)
        end = "RBP 0" if number == 1 else f"RNP {self.number(0, min(2, self.words()))}"
        return lines + ["exit:", end]

    def file(self):
        made, numbers = Assembler(), list(self.sizes)
        self.random.shuffle(numbers)
        for number in numbers:
            made.procedure(number, *self.sizes[number], self.text(number))
        return code_file([(1, "ODD", LINKED, made.finished(1))])

    def given(self):
        return self.random.randbytes(self.random.choice([0, 1, 3, 10, 40]))


def odd_file(seed):
    """A file and its input."""
    made = Odd(seed)
    return made.file(), made.given()
