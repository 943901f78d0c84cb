"""From an old code file to a new one."""

import re
from typing import Any, List

from compiler.generating.far import spread
from compiler.program import HEAP, SEGMENT, Options
from pcode.codefile import code_file
from pcode.faults import Fault
from pcode.fields import Fields
from pcode.parts import Label, Line

from . import reals
from .decoding import Decoder
from .exits import spread_of
from .runtime import Machine
from .shapes import WORD, Flow
from .system import NEEDING_FILES
from .table import LIBRARY
from .writing import Writer

MAIN = (1, 1)
MOST_PROCEDURES = 255
# What the offsets of the main frame grow by where a string's address has to be told from a
# character: its third word, the first that a program uses, is then at 258.
APART = 126
MOST_STORED = 200  # words of a constant that are stored at once


class Choices(Fields):
    """How a program is translated."""

    line_end: str = "lf"
    heap: int = HEAP
    is_echoed: bool = True
    reals: str = "low"


class Translated(Fields):
    """A program that was translated."""

    segment: str
    procedures: List[Any]
    data: bytes


class Translation:
    """What is known of the whole program while its procedures are written."""

    def __init__(self, found, choices=None):
        self.found, self.choices = found, choices or Choices()
        if 1 not in found.segments or 1 not in found.segments[1].procedures:
            self.refuse("no segment has the number 1: it is no program, but a library or a part of "
                        "the system")
        main = found.segments[1].procedures[1]
        if main.level:
            self.refuse(f"procedure 1 of segment 1 has the lex level {main.level}, and that of a "
                        "program is 0")
        keys = sorted((number, it) for number, segment in found.segments.items()
                      for it in segment.procedures)
        keys.remove(MAIN)
        for key in keys:
            self.refuse_program(key)
        self.numbers = {key: number for number, key in enumerate([MAIN] + keys, 1)}
        if len(self.numbers) > MOST_PROCEDURES:
            self.refuse(f"it has {len(self.numbers)} procedures, and {MOST_PROCEDURES} are the most"
                        " that one segment has")
        self.main = main
        self.code = {key: Decoder(*self.parts(key)).reached() for key in self.numbers}
        self.flows()
        self.prepare()

    def refuse(self, text, place=None):
        raise Fault(text, place or self.found.file)

    def parts(self, key):
        segment = self.found.segments[key[0]]
        return segment, segment.procedures[key[1]]

    def refuse_program(self, key):
        """Refuses a procedure at level 0, called or not: the loader takes procedure 1 alone."""
        segment, procedure = self.parts(key)
        if not procedure.level:
            self.refuse("it has the lex level 0, and that is procedure 1 of segment 1 alone",
                        segment.place._replace(procedure=procedure.number))

    def flows(self):
        """The shapes of the stack in each procedure, and what EXITs may end."""
        self.notes = {}
        for key in self.numbers:
            segment, procedure = self.parts(key)
            place = segment.place._replace(procedure=procedure.number)
            flow = Flow(place, procedure.level, self.code[key],
                        lambda it, key=key: self.effect(key, it))
            self.notes[key] = flow.follow(procedure.enter, procedure.exit)
        own = {key: set(notes.exits.values()) for key, notes in self.notes.items()}
        calls = {key: {self.callee(key, it) for it in code.values() if self.callee(key, it)}
                 for key, code in self.code.items()}
        self.leaves = spread_of(own, calls)
        self.asked = set().union(*own.values()) - {MAIN}

    def prepare(self):
        is_mixed = any(WORD in notes.sources.values() for notes in self.notes.values())
        self.shift = APART if is_mixed else 0
        self.has_files = any(it.name == "CXP" and it.operands[0] == 0
                             and it.operands[1] in NEEDING_FILES
                             for code in self.code.values() for it in code.values())
        options = Options(self.choices.line_end, self.choices.heap, self.choices.is_echoed)
        words = self.shift + self.main.params + self.main.data
        self.machine = Machine(len(self.numbers), words, self.has_files, options, self.found.file)
        self.bases = {}

    # What the writer asks

    def callee(self, key, it):
        """The procedure of the file that an instruction calls, if it is a call."""
        if it.name in ("CLP", "CGP", "CIP"):
            return key[0], it.operands[0]
        if it.name == "CXP" and it.operands[0]:
            return tuple(it.operands)
        return None

    def checked_callee(self, key, it):
        place = self.found.segments[key[0]].place._replace(procedure=key[1], offset=it.at)
        callee = self.callee(key, it)
        if callee is None:
            self.refuse("it calls a program of the system (CBP)", place)
        if callee not in self.numbers:
            if callee[0] not in self.found.segments:
                unit = LIBRARY.get(callee[0])
                self.refuse(f"it calls procedure {callee[1]} of segment {callee[0]}, which is not "
                            "in the file: an intrinsic unit of the library"
                            + f" ({unit} in Apple Pascal)" * bool(unit), place)
            self.refuse(f"it calls procedure {callee[1]} of segment {callee[0]}, which has no such "
                        "procedure", place)
        return callee, place

    def call_of(self, key, it):
        """The instruction that calls a procedure of the file."""
        callee, place = self.checked_callee(key, it)
        level, here = self.parts(callee)[1].level, self.parts(key)[1].level
        is_right = {"CLP": level == here + 1, "CGP": level == 1}
        if not is_right.get(it.name, 1 <= level <= here + 1):
            self.refuse(f"{it.name} leads from lex level {here} to a procedure at level {level}",
                        place)
        if it.name == "CLP":
            return "CLP", self.numbers[callee]
        return "CGP" if level == 1 else "CIP", self.numbers[callee]

    def effect(self, key, it):
        """The words that a call takes, and those that it gives."""
        self.call_of(key, it)
        callee = self.callee(key, it)
        returned = [it.operands[0] for it in self.code[callee].values() if it.name == "RNP"]
        return self.parts(callee)[1].params, returned[0] if returned else 0

    def data_base(self, number, offset):
        """Where a data segment's word 0 is in the main frame. None if there is no such word."""
        segment = self.found.segments.get(number)
        if segment is None or not 1 <= offset <= segment.words:
            return None
        if number not in self.bases:
            self.bases[number] = self.machine.room(segment.words) - 1
        return self.bases[number]

    def real_words(self, words):
        return reals.WORDS[self.choices.reals](words)

    # The new program

    def made(self):
        procedures = [Writer(self, *self.parts(key)).written() for key in self.numbers]
        library = self.machine.procedures()
        main, *others = procedures
        self.begin(main)
        main.params = min(self.main.params, self.machine.main.words)
        main.data = self.machine.main.words - main.params
        name = re.sub(r"[^A-Z0-9]", "", self.found.segments[1].name.upper())[:8] or "PROGRAM"
        made = library + [spread(it) for it in others + [main]]
        return Translated(name, made, code_file(name, SEGMENT, made, self.found.file))

    def begin(self, main):
        """The program stores its constants first."""
        lines = []
        for text in self.machine.texts.values():
            for k in range(0, len(text.words), MOST_STORED):
                part = text.words[k:k + MOST_STORED]
                lines.append(Line(None, "LAO", [text.offset + k]))
                lines += [number_line(word) for word in reversed(part)]
                lines.append(Line(None, "STM", [len(part)]))
        enter = main.labels.pop("enter")
        if enter.index:
            lines.append(Line(None, "UJP", ["enter"]))
        main.labels = {name: Label(it.place, it.index + len(lines))
                       for name, it in main.labels.items()}
        if enter.index:
            main.labels["first"] = Label(None, 0)
            main.labels["begin"] = Label(None, enter.index + len(lines))
            lines[-1].operands = ["begin"]
        main.lines = lines + main.lines


def number_line(word):
    value = word - 65536 * (word > 32767)
    return Line(None, *(("SLDC", [value]) if 0 <= value <= 127 else ("LDCI", [value])))


def translate(found, choices=None):
    """Translates a code file that was read. What cannot be is told as a Fault."""
    return Translation(found, choices).made()
