"""Random code files of two segments, of UCSD Pascal II.0 and of Apple Pascal 1.1, in both orders of
bytes: statements of each kind, calls between the segments, and EXITs."""

import random
from typing import NamedTuple

from .oldfiles import DATASEG, LINKED, SEGPROC, Assembler, code_file
from .random_values import (ARRAY, CHARACTER, DATA_SEGMENT, FEATURES, FILE, LOOPS, MARKED, NUMBERS,
                            PACKED, POINTER, REALS, RECORD, SCRATCH, SETS, STRINGS, TEXT, WORDS,
                            Values, pushed_real)

DATA_WORDS = 4
LINES = (b"12 x\n", b"-7\n", b"HELLO\n", b"\n", b"3 4 5\n", b"A\n")


class RandomFile(NamedTuple):
    data: bytes
    order: str
    given: bytes


class Maker(Values):
    """Makes the procedures. `exits` has what an EXIT may name here, and `calls` the calls."""

    def __init__(self, source, features):
        super().__init__(source, features)
        self.exits, self.calls = [], []

    def block(self, level, depth):
        return "".join(self.statement(level, depth)
                       for _ in range(self.random.randrange(1, 4)))

    def statement(self, level, depth):
        makers = [(None, self.assign), (None, self.assign), ("strings", self.assign_string),
                  ("strings", self.assign_character), ("strings", self.concatenate),
                  ("sets", self.assign_set), ("sets", self.assign_set), (None, self.write),
                  ("strings", self.change_string), (None, self.store_element),
                  ("reals", self.assign_real), ("reals", self.assign_real),
                  ("packed", self.store_packed), ("heap", self.heap), ("moves", self.move),
                  ("reads", self.read), ("strings", self.indexed), (None, self.copy_words),
                  ("files", self.use_text), ("files", self.use_records)]
        if self.calls:
            makers += [(None, self.call)] * 3
        if self.exits:
            makers += [("exits", self.leave)] * 2
        if depth > 0:
            makers += [(None, it) for it in (self.choose, self.loop, self.case, self.choose)]
        return self.chosen(makers)(level, depth - 1)

    # Assignments

    def store(self, level, offset):
        if level and self.random.random() < 0.2:
            return f"STR {level} {offset}\n"
        return f"SRO {offset}\n"

    def assign(self, level, _depth):
        if self.has("data") and self.random.random() < 0.2:
            return self.number(level) + f"STE {DATA_SEGMENT} {self.random.randrange(1, 5)}\n"
        return self.number(level) + self.store(level, self.choice(NUMBERS))

    def target(self, level):
        offset = self.choice(STRINGS)
        if level and self.random.random() < 0.3:
            return f"LDA {level} {offset}\n"
        return f"LAO {offset}\n"

    def assign_string(self, level, _depth):
        return self.target(level) + self.string() + "SAS 80\n"

    def assign_character(self, level, _depth):
        return self.target(level) + self.choice(["SLDC 65\n", f"LDO {CHARACTER}\n"]) + "SAS 80\n" \
            + f"LDCI {self.random.randrange(65, 70)}\nSRO {CHARACTER}\n"

    def concatenate(self, _level, _depth):
        text = f"LAO {SCRATCH}\nSLDC 0\nSLDC 0\nSTB\n"
        for _ in range(self.random.randrange(1, 4)):
            text += f"LAO {SCRATCH}\n" + self.string() + "SLDC 80\nCXP 0 23\n"
        return text + f"LAO {self.choice(STRINGS)}\nLAO {SCRATCH}\nSAS 80\n"

    def change_string(self, level, _depth):
        at, count = self.random.randrange(6), self.random.randrange(6)
        return self.choice([
            f"LAO {self.choice(STRINGS)}\n" + self.number(level) + self.number(level)
            + "CXP 0 26\n",
            self.string() + f"LAO {self.choice(STRINGS)}\nSLDC 80\n" + self.number(level)
            + "CXP 0 24\n",
            f"LAO {self.choice(STRINGS)}\nLAO {SCRATCH}\nSLDC {at}\nSLDC {count}\nCXP 0 25\n"
            f"LAO {self.choice(STRINGS)}\nLAO {SCRATCH}\nSAS 80\n"])

    def indexed(self, _level, _depth):
        """A character of a string is stored, if there is one."""
        out, offset = self.label(), self.choice(STRINGS)
        return (f"LAO {offset}\nSLDC 0\nLDB\nSLDC 0\nGRTI\nFJP {out}\nLAO {offset}\nSLDC 1\nIXS\n"
                f"SLDC {self.random.randrange(65, 70)}\nSTB\n{out}:\nNOP\n")

    def assign_set(self, level, _depth):
        return f"LAO {self.choice(SETS)}\n" + self.a_set(level) + "ADJ 16\nSTM 16\n"

    def assign_real(self, level, _depth):
        return f"LAO {self.choice(REALS)}\n" + self.real(level) + "STM 2\n"

    def store_element(self, level, _depth):
        return f"LAO {ARRAY}\n" + self.index(level, 6) + "IXA 1\n" + self.number(level) + "STO\n"

    def store_packed(self, level, _depth):
        return (f"LAO {PACKED}\n" + self.index(level, 16) + "IXP 4 4\n" + self.number(level)
                + "STP\n")

    def copy_words(self, _level, _depth):
        one, two = self.choice(SETS), self.choice(SETS)
        return f"LAO {one}\nLAO {two}\nMOV {self.random.randrange(17)}\n"

    def heap(self, level, _depth):
        """A record is made, and given back again."""
        return (f"LAO {MARKED}\nCSP 32\nLAO {POINTER}\nSLDC 2\nCSP 1\nLDO {POINTER}\n"
                + self.number(level, 1) + f"STO\nLDO {POINTER}\nINC 1\n" + self.number(level, 1)
                + "STO\n" + self.choice(["", f"LAO {MARKED}\nCSP 33\n"]))

    def move(self, _level, _depth):
        one, two = self.choice(STRINGS), self.choice(STRINGS)
        at, to, count = (self.random.randrange(1, 9) for _ in range(3))
        return self.choice([
            f"LAO {one}\nSLDC {at}\nLAO {two}\nSLDC {to}\nSLDC {count}\nCSP 2\n",
            f"LAO {one}\nSLDC {at}\nLAO {one}\nSLDC {to}\nSLDC {count}\nCSP 3\n",
            f"LAO {one}\nSLDC {at}\nSLDC {count}\nLDCI {self.random.randrange(65, 91)}\nCSP 10\n"])

    # The console and files

    def out(self, level):
        return f"LOD {level + 1} 3\n"

    def write(self, level, _depth):
        width, out = self.random.randrange(7), self.out(level)
        written = self.number(level) + f"SLDC {width}\nCXP 0 13\n"
        if not self.has("strings"):
            return out + written + out + "CXP 0 22\n"
        return out + self.choice([
            written, self.string() + f"SLDC {width}\nCXP 0 19\n",
            f"LDCI {self.random.randrange(65, 91)}\nSLDC {width}\nCXP 0 17\n",
            f"LPA 'abcd'\nSLDC {width}\nSLDC 4\nCXP 0 20\n"]) + out + "CXP 0 22\n"

    def read(self, level, _depth):
        keys = f"LOD {level + 1} {self.choice([2, 2, 4])}\n"
        return self.choice([
            keys + f"LAO {self.choice(NUMBERS)}\nCXP 0 12\nCSP 0\n" + keys + "CXP 0 21\n",
            keys + f"LAO {self.choice(STRINGS)}\nSLDC 80\nCXP 0 18\n" + keys + "CXP 0 21\nCSP 0\n",
            keys + f"LAO {CHARACTER}\nCXP 0 16\n",
            keys + "SLDC 0\nSLDC 0\nCXP 0 11\n" + f"SRO {self.choice(NUMBERS)}\n"])

    def named(self):
        return f"LSA '{self.choice('AB')}'\n"

    def use_text(self, level, _depth):
        """A text is written and read again; CSP 34 tells how it went."""
        file, name, text = f"LAO {TEXT}\n", self.named(), self.string()
        return (file + name + "SLDC 0\nLDCN\nCXP 0 5\n" + file + self.number(level)
                + "SLDC 4\nCXP 0 13\n" + file + "CXP 0 22\n" + file + text + "SLDC 0\nCXP 0 19\n"
                + file + "CXP 0 22\n" + file + f"SLDC {self.choice([0, 1, 1])}\nCXP 0 6\n"
                + file + self.named() + "SLDC 1\nLDCN\nCXP 0 5\nCSP 34\n"
                + f"SRO {NUMBERS[3]}\n" + self.if_it_is(NUMBERS[3], 0, file
                + f"LAO {NUMBERS[0]}\nCXP 0 12\n" + file + "CXP 0 21\n" + file
                + f"LAO {STRINGS[0]}\nSLDC 80\nCXP 0 18\n" + file + "SLDC 0\nSLDC 0\nCXP 0 10\n"
                + f"SRO {NUMBERS[1]}\n" + file + "SLDC 0\nCXP 0 6\n"))

    def use_records(self, level, _depth):
        """Records of two words are put, sought and got."""
        file, put = f"LAO {FILE}\n", ""
        for _ in range(self.random.randrange(1, 4)):
            put += (f"LDO {FILE}\n" + self.number(level, 1) + f"STO\nLDO {FILE}\nINC 1\n"
                    + self.number(level, 1) + "STO\n" + file + "CXP 0 8\n")
        get = (file + f"SLDC {self.random.randrange(4)}\nCXP 0 9\n" + file + "CXP 0 7\n" + file
               + f"SLDC 0\nSLDC 0\nCXP 0 10\nSRO {NUMBERS[2]}\nLDO {RECORD}\nSRO {NUMBERS[0]}\n")
        return (file + self.named() + "SLDC 0\nLDCN\nCXP 0 5\nCSP 0\n" + put + get + get + file
                + f"SLDC {self.choice([0, 1, 2])}\nCXP 0 6\nCSP 34\nSRO {NUMBERS[3]}\n")

    # Statements of statements

    def if_it_is(self, offset, value, text):
        out = self.label()
        return f"LDO {offset}\nSLDC {value}\nEFJ {out}\n{text}{out}:\nNOP\n"

    def choose(self, level, depth):
        one, two = self.label(), self.label()
        return (self.boolean(level) + f"FJP {one}\n" + self.block(level, depth)
                + f"UJP {two}\n{one}:\n" + self.block(level, depth) + f"{two}:\nNOP\n")

    def loop(self, level, depth):
        again, out, offset = self.label(), self.label(), LOOPS[depth % len(LOOPS)]
        limit = self.random.randrange(1, 4)
        return (f"SLDC 1\nSRO {offset}\n{again}:\nLDO {offset}\nSLDC {limit}\n"
                f"LEQI\nFJP {out}\n" + self.block(level, depth)
                + f"LDO {offset}\nSLDC 1\nADI\nSRO {offset}\nUJP {again}\n{out}:\nNOP\n")

    def case(self, level, depth):
        one, two, table, out = (self.label() for _ in range(4))
        return (self.number(level) + f"UJP {table}\n{one}:\n" + self.block(level, depth)
                + f"UJP {out}\n{two}:\n" + self.statement(level, 0) + f"UJP {out}\n{table}:\n"
                + f"XJP 0 3 {out} {one} {two} - {two}\n{out}:\nNOP\n")

    def call(self, level, _depth):
        made = self.choice(self.calls)
        if made == "string":  # with a string or a character, which nobody can tell but at run time
            given = self.choice([self.string(), f"LDCI {self.random.randrange(65, 91)}\n"])
            return f"LAO {self.choice(STRINGS)}\n" + given + "CXP 7 4\n"
        return made + "\n"

    def leave(self, level, _depth):
        out = self.label()
        return (f"LDO {self.choice(NUMBERS)}\nSLDC 3\nMODI\nSLDC {self.random.randrange(3)}\nEQUI\n"
                f"FJP {out}\n{self.choice(self.exits)}CSP 4\n{out}:\nNOP\n")


def exit_of(segment, procedure):
    return f"SLDC {segment}\nSLDC {procedure}\n"


def first(maker):
    """What the program begins with."""
    text = "".join(f"SLDC {7 * k}\nSRO {offset}\n" for k, offset in enumerate(NUMBERS))
    text += f"LDCI 66\nSRO {CHARACTER}\n"
    if maker.has("heap"):
        text += f"LAO {POINTER}\nSLDC 2\nCSP 1\n"
    if maker.has("reals"):
        text += f"LAO {REALS[0]}\n{pushed_real(1.25)}STM 2\n"
    if maker.has("files"):
        text += f"LAO {TEXT}\nLAO {CHARACTER}\nLDCI -2\nCXP 0 3\n"
        text += f"LAO {FILE}\nLAO {RECORD}\nSLDC 2\nCXP 0 3\n"
    return text


def last(maker):
    """What the program ends with: it writes its variables."""
    offsets = [*NUMBERS, PACKED, PACKED + 3, *(offset + k for offset in REALS for k in (0, 1)),
               *(offset + k for offset in SETS for k in (0, 1, 6, 15)), ARRAY, ARRAY + 5]
    text = "".join(f"LOD 1 3\nLDO {offset}\nSLDC 7\nCXP 0 13\n" for offset in offsets)
    if not maker.has("strings"):
        return text
    return text + "".join(f"LOD 1 3\nLAO {offset}\nSLDC 0\nCXP 0 19\nLOD 1 3\nSLDC 59\nSLDC 0\n"
                          "CXP 0 17\n" for offset in STRINGS)


def segment_one(maker, order):
    """The program; a procedure; a function that gives a REAL; and one that takes a set."""
    made = Assembler(order)
    maker.calls = ["CGP 2", "CXP 7 1"] + ["string"] * maker.has("either")
    maker.has_calls = True
    program = first(maker) + "".join(maker.statement(0, 3) for _ in range(10)) + last(maker)
    made.procedure(1, 0, 2, WORDS - 2, program + "exit:\nRBP 0\n")
    maker.calls, maker.exits, maker.has_calls = [], [exit_of(1, 2), exit_of(1, 1)], False
    made.procedure(2, 1, 0, 0, maker.block(1, 2) + "exit:\nRNP 0\n")
    maker.exits = []
    doubled = "LLA 1\nLLA 3\nLDM 2\n" + maker.real(1, 1) + "ADR\nSTM 2\n"
    made.procedure(3, 1, 4, 0, doubled * maker.has("reals") + "exit:\nRNP 2\n")
    tested = "SLDL 3\nLLA 4\nLDM 16\nSLDC 16\nINN\nSTL 1\n"
    made.procedure(4, 1, 19, 0, tested * maker.has("sets") + "exit:\nRNP 1\n")
    return made.finished(1)


def segment_seven(maker, order):
    """A segment procedure with two in it, and one that takes a string or a character."""
    made = Assembler(order)
    maker.segment, maker.has_calls = 7, True
    maker.calls = ["CLP 2", "CXP 1 2", "CXP 7 2"] + ["string"] * maker.has("either")
    maker.exits = [exit_of(7, 1)]
    made.procedure(1, 1, 0, 0, maker.block(1, 2) + maker.block(1, 1) + "exit:\nRNP 0\n")
    maker.calls, maker.has_calls = [], False
    maker.exits = [exit_of(7, 1), exit_of(7, 2)]
    made.procedure(2, 2, 0, 0, maker.block(2, 1) + "exit:\nRNP 0\n")
    maker.exits = [exit_of(7, 1), exit_of(7, 3)]
    made.procedure(3, 2, 4, 0, "SLDL 3\nSLDL 4\nADI\nSTL 1\n" + maker.block(2, 0)
                   + "exit:\nRNP 1\n")
    maker.exits = []
    stored = "SLDL 2\nSLDL 1\nSAS 80\n"
    made.procedure(4, 1, 2, 0, stored * maker.has("either") + "exit:\nRNP 0\n")
    return made.finished(7)


def random_file(seed):
    """A random code file, its order of bytes, and an input."""
    source = random.Random(seed)
    order = source.choice(["little", "little", "big"])
    features = {it for it in FEATURES if source.random() < (0.15 if it == "files" else 0.35)}
    is_apple = "data" in features
    maker = Maker(source, features)
    one = segment_one(maker, order)
    segments = [(1, "RANDOM", LINKED, one), (7, "SEVEN", SEGPROC, segment_seven(maker, order))]
    if is_apple:
        segments.append((DATA_SEGMENT, "DATA", DATASEG, 2 * DATA_WORDS))
    given = b"".join(source.choice(LINES) for _ in range(source.randrange(9)))
    return RandomFile(code_file(segments, order, is_apple), order, given)
