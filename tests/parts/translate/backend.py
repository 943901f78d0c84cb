"""A back end of the compiler that makes old code files: of the same checked tree it makes what the
p-System's compiler made, with calls of segment 0, strings and sets on the stack, and segment
procedures. What it knows no old code for is called in the compiler's library, as in a unit that was
linked in."""

import contextlib

from compiler.checking import tree
from compiler.checking.symbols import TEXT
from compiler.checking.types import File, String
from compiler.generating.code import Code
from compiler.generating.exits import nodes_of
from compiler.generating.generator import Generator, RoutineGenerator
from compiler.generating.places import Bytes, Frame, Pointer
from compiler.program import Options, checked
from pcode.parts import Line, Procedure

from .backend_calls import OldCalls
from .oldfiles import LINKED, SEGPROC, Assembler, code_file

FILE_WORDS = 40  # of a file variable, in front of its window
FIRST_SEGMENT, MOST_SEGMENTS, MOST_NUMBERS = 7, 6, 250
LETTERS = 255  # of a text


class NoOldCode(Exception):
    """A program has what no old code is made for here."""


class OldLines(Code):
    """Instructions that are not followed on the stack."""

    depth = property(lambda self: 0, lambda self, _words: None)

    def emit(self, name, *operands):
        self.lines.append(Line(self.place, name, list(operands)))


class OldRoutine(OldCalls, RoutineGenerator):
    """Makes one procedure."""

    to = None  # the file that is written to; None for OUTPUT

    def __init__(self, program, routine):
        super().__init__(program, routine)
        self.code = OldLines(routine)

    def procedure(self):
        routine, code = self.routine, self.code
        for copy in routine.copies:
            self.with_temporaries(self.copy_parameter, copy)
        for variable in self.program.files.get(id(routine), ()):
            self.begin_file(variable)
        self.statement(routine.body)
        code.set("exit")
        for ending in routine.endings:
            self.statement(ending)
        code.emit("RNP" if routine.level else "RBP", routine.result.size if routine.result else 0)
        params = routine.parameter_words
        return Procedure(routine.place, 0, routine.name, routine.level, params, self.most - params,
                         code.lines, code.labels)

    def begin_file(self, variable):
        """FINIT, with the window and the words of a record, -2 for a text and -1 for blocks."""
        frame, kind = Frame(self.routine, variable.offset), variable.type
        self.push_address(frame)
        if kind.element:
            self.push_address(frame.moved(FILE_WORDS))
        else:
            self.code.emit("LDCN")
        self.code.number(-2 if kind.is_text else kind.element.size if kind.element else -1)
        self.system(3)

    # Calls and EXIT

    def enter(self, routine):
        if routine.result:
            self.code.number(0)
            self.code.number(0)
        segment, number = self.program.place_of(routine)
        if segment != self.program.place_of(self.routine)[0]:
            self.code.emit("CXP", segment, number)
        elif routine.level == 1:
            self.code.emit("CGP", number)
        else:
            self.code.emit("CLP" if routine.parent is self.routine else "CIP", number)

    def exit(self, node):
        segment, number = self.program.place_of(node.routine)
        self.code.number(segment)
        self.code.number(number)
        self.code.emit("CSP", 4)

    # Places

    def place(self, location):
        if isinstance(location, tree.WindowAt):  # the first word of a file variable leads there
            self.push_address(self.place(location.base))
            self.code.emit("SIND", 0)
            return Pointer()
        return super().place(location)

    def character_place(self, location):
        self.push_address(self.place(location.base))
        self.push(location.index)
        if location.is_checked:
            self.code.emit("IXS")
        return Bytes()

    # Strings and constants

    def letters(self, name, text):
        self.code.emit(name, f"'{text}'")

    def known_string(self, value):
        self.letters("LSA", value.text)

    def text(self, text):
        self.letters("LPA", text + "\0" * (len(text) % 2))

    def real_value(self, node):
        self.code.emit("LDC", node.value >> 16 & 65535, node.value & 65535)

    def store_text(self, node):
        self.push_address(self.place(node.location))
        if isinstance(node.location.type, String):
            self.letters("LSA", node.text[1:])
            self.code.emit("SAS", node.location.type.most)
        else:
            self.text(node.text)
            self.code.emit("MOV", len(node.text) + 1 >> 1)

    def concatenation(self, value):
        room = self.temporary(value.type.size)
        self.push_address(room)
        for name in (("SLDC", 0), ("SLDC", 0), ("STB",)):
            self.code.emit(*name)
        for part in value.parts:
            self.push_address(room)
            self.string(part)
            self.code.number(value.type.most)
            self.system(23)
        self.push_address(room)

    def copied(self, value):
        room = self.temporary(value.type.size)
        self.string(value.text)
        self.push_address(room)
        self.push(value.at)
        self.push(value.count)
        self.system(25)
        self.push_address(room)

    # Sets

    def push_set(self, value):
        """A set on the stack: its words, and their number."""
        if isinstance(value, tree.SetOperation):
            self.push_set(value.left)
            self.push_set(value.right)
            self.code.emit({"UNITE": "UNI", "REMOVE": "DIF", "MEET": "INT"}[value.routine.name])
        elif isinstance(value, tree.SetValue):
            self.push_parts(value.parts)
        else:
            self.push_address(self.place(value.location))
            self.code.emit("LDM", value.type.size)
            self.code.number(value.type.size)

    def push_parts(self, parts):
        bits, rest = 0, []
        for low, high in parts:
            if isinstance(low, tree.Constant) and isinstance(high or low, tree.Constant):
                for element in range(low.value, (high or low).value + 1):
                    bits |= 1 << element
            else:
                rest.append((low, high))
        words = [bits >> 16 * k & 65535 for k in range(bits.bit_length() // 16 + 1)] if bits else []
        if words:
            self.code.emit("LDC", *reversed(words))
        if words or not rest:
            self.code.number(len(words))
        for number, (low, high) in enumerate(rest):
            self.push(low)
            if high:
                self.push(high)
            self.code.emit("SRS" if high else "SGS")
            if words or number:
                self.code.emit("UNI")

    def fit_set(self, value, words):
        self.push_set(value)
        self.code.emit("ADJ", words)
        self.code.emit("STM", words)

    def make_set(self, value, room, words):
        self.push_address(room)
        self.fit_set(value, words)

    def move_words(self, node):
        if not isinstance(node.source, tree.SetAddress):
            super().move_words(node)
            return
        self.push_address(self.place(node.location))
        self.fit_set(node.source.value, node.words)

    def among(self, node):
        bounds = [it for part in node.parts for it in part if it]
        host = getattr(node.value.type, "host", None)
        is_known = all(isinstance(it, tree.Constant) and 0 <= it.value < 4080 for it in bounds)
        if not is_known and getattr(host, "name", "") == "INTEGER":
            super().among(node)  # the elements may be such as no set has
            return
        self.push(node.value)
        self.push_parts(node.parts)
        self.code.emit("INN")


class OldGenerator(Generator):
    """Makes all procedures, in their segments."""

    def __init__(self, routines, library):
        super().__init__(routines, library)
        self.exits, self.places, self.counts = {}, {}, {}
        self.roots, self.made, self.files = [], {}, {}
        bodies = [it.body for it in routines]
        for node in nodes_of(bodies):
            if isinstance(node, tree.VariableAt) and isinstance(node.type, File):
                variable = node.variable
                known = self.files.setdefault(id(variable.routine), [])
                if not variable.is_address and variable not in known:
                    known.append(variable)
        self.place_of(self.main)

    def segment_of(self, routine):
        """Each second procedure that is not in another one is a segment procedure, with all that is
        in it."""
        while routine.level > 1:
            routine = routine.parent
        if routine.is_library or routine.level == 0 or routine.number % 2:
            return 1, None
        if routine not in self.roots:
            if len(self.roots) == MOST_SEGMENTS:
                return 1, None
            self.roots.append(routine)
        return FIRST_SEGMENT + self.roots.index(routine), routine

    def place_of(self, routine):
        """The segment and the number of a routine."""
        if routine not in self.places:
            segment, root = self.segment_of(routine)
            if root and root is not routine:
                self.place_of(root)
            self.counts[segment] = self.counts.get(segment, 0) + 1
            if self.counts[segment] > MOST_NUMBERS:
                raise NoOldCode("too many procedures")
            self.places[routine] = segment, self.counts[segment]
            self.number_of(routine)
        return self.places[routine]

    def refuse(self, text):
        raise NoOldCode(text)

    def make(self, routine):
        self.library.complete(routine)
        self.made[routine] = OldRoutine(self, routine).procedure()
        return self.made[routine]


def assembled(generator):
    """The segments of a program."""
    assemblers = {}
    placed = sorted(generator.places.items(), key=lambda it: it[1])
    for routine, (segment, number) in placed:
        made = generator.made[routine]
        text = []
        for index, line in enumerate(made.lines):
            text += [f"{name}:" for name, label in made.labels.items() if label.index == index]
            text.append(str(line))
        text += [f"{name}:" for name, it in made.labels.items() if it.index == len(made.lines)]
        assembler = assemblers.setdefault(segment, Assembler())
        try:
            assembler.procedure(number, made.level, made.params, made.data, text)
        except ValueError:  # a jump table has no room, or the words of a CASE are too far
            raise NoOldCode("too many jumps") from None
    return [(number, "PROGRAM" if number == 1 else f"SEG{number}",
             LINKED if number == 1 else SEGPROC, assembler.finished(number))
            for number, assembler in sorted(assemblers.items())]


@contextlib.contextmanager
def old_files():
    """File variables have as many words as the p-System's, with the window behind them."""
    begin = File.__init__

    def sized(file, element=None, is_text=False):
        begin(file, element, is_text)
        file.size += FILE_WORDS - 1

    File.__init__, TEXT.size = sized, FILE_WORDS
    try:
        yield
    finally:
        File.__init__, TEXT.size = begin, 1


def old_code(text, file, options=None):
    """The old code file of a program."""
    with old_files():
        checker, _ = checked(text, file, options or Options())
        generator = OldGenerator(checker.routines, checker.library)
        generator.procedures()
    for routine, _ in list(generator.places.items()):
        if routine not in generator.made:
            generator.make(routine)
    return code_file(assembled(generator))
