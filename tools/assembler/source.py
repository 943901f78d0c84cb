"""Reads a source, with the files that it includes."""

import os
import re
from dataclasses import dataclass, field
from typing import Dict, List, Optional

from pcode import parts
from pcode.faults import Fault, at, in_range
from pcode.instructions import CALL
from pcode.parts import Label, Line

# Files that are included are looked for beside the file that includes them, and then here.
HERE = os.path.join(os.path.dirname(os.path.abspath(__file__)), "include")
MOST_DEEP = 20  # files that include one another

NAME = r"[A-Za-z_][A-Za-z_0-9]*"
WORD = re.compile(r"""('.'|"[^"]*"|[^\s;'"]+)(?=[\s;]|$)""")
BLANKS = re.compile(r"\s*")
HEADER = "a procedure is written: proc [NUMBER] NAME level L params P data D"


@dataclass(frozen=True)
class Place:
    """A line of a file."""

    file: str
    number: int

    def __str__(self):
        return f"{self.file}:{self.number}"


@dataclass
class Constant:
    """A name's number, and where that is said."""

    value: int
    place: Place


class Procedure(parts.Procedure):
    """A procedure, with the names of its own."""

    names: Dict[str, Constant] = dict


@dataclass
class Source:
    """A whole source, its procedures in the order in which their code stands in the segment."""

    file: str
    name: Optional[str] = None
    segment: int = 1
    names: Dict[str, Constant] = field(default_factory=dict)
    procedures: List[Procedure] = field(default_factory=list)


def number_of(word, *scopes):
    """The value of a number, of a character in quotes, or of a name."""
    if re.fullmatch(r"-?[0-9]+", word):
        # Python refuses to convert thousands of digits.
        if len(word) > 20 or not -32768 <= int(word) <= 65535:
            raise Fault(f"{word[:20]} is not from -32768 to 65535")
        return int(word)
    if re.fullmatch(r"'.'", word):
        return ord(word[1])
    for scope in scopes:
        if word in scope:
            return scope[word].value
    raise Fault(f"{word} is no number, no character in quotes, and no name of a number")


def words_of(line):
    """The words of a line in bytes, without its comment."""
    line = line.rstrip(b"\r")
    for byte in line:
        if not (byte == 9 or 32 <= byte <= 126):
            raise Fault(f"the line has the byte {byte}, which is no character of ASCII")
    text, words, place = line.decode("ascii"), [], 0
    while True:
        place = BLANKS.match(text, place).end()
        if place == len(text) or text[place] == ";":
            return words
        found = WORD.match(text, place)
        if not found:
            raise Fault(f"{text[place:].rstrip()} begins with no word: a quote lacks its other "
                        "one, or a blank is missing")
        words.append(found[0])
        place = found.end()


def characters(words):
    """The operands of the SLDCs that push a text: each character of the strings, and all other
    words."""
    for word in words:
        if word[0] == '"':
            yield from (f"'{character}'" for character in word[1:-1])
        else:
            yield word


class FileReader:
    """Adds what the lines of one file say to a source."""

    def __init__(self, source, file, seen, depth):
        self.source, self.file, self.seen, self.depth = source, file, seen, depth
        self.procedure = None  # the one whose lines are read
        self.place = Place(file, 1)

    def read(self):
        """Reads the file to its end. A fault of the file system is left to the caller, who knows
        who asked for it."""
        with open(self.file, "rb") as file:
            lines = file.read().split(b"\n")
        self.seen.add(os.path.realpath(self.file))
        for number, line in enumerate(lines, 1):
            self.place = Place(self.file, number)
            with at(self.place):
                words = words_of(line)
                if words:
                    self.take(words)

    def take(self, words):
        """What one line says."""
        if words[0] == "program":
            self.take_program(words)
        elif words[0] == "include":
            self.include(words)
        elif words[0] == "proc":
            self.take_header(words)
        elif len(words) > 1 and words[1] == "=":
            self.take_constant(words)
        else:
            self.take_instruction(words)

    def take_program(self, words):
        if len(words) != 4 or words[2] != "segment" or not re.fullmatch(NAME, words[1]):
            raise Fault("a program is written: program NAME segment N")
        if self.procedure:
            raise Fault("program stands in front of the first procedure")
        if self.source.name is not None:
            raise Fault("a program has one name, and this is a second one")
        if len(words[1]) > 8:
            raise Fault(f"the name of a program has at most 8 characters, and {words[1]} has "
                        f"{len(words[1])}")
        self.source.name = words[1]
        number = number_of(words[3], self.source.names)
        self.source.segment = in_range("the number of a segment", number, 0, 255)

    def include(self, words):
        if len(words) != 2:
            raise Fault("a file is included by: include FILE")
        if self.procedure:
            raise Fault("include stands in front of the first procedure of its file")
        if self.depth == MOST_DEEP:
            raise Fault(f"more than {MOST_DEEP} files include one another")
        paths = [os.path.join(folder, words[1]) for folder in (os.path.dirname(self.file), HERE)]
        path = next((path for path in paths if os.path.exists(path)), None)
        if path is None:
            raise Fault(f"there is no file {words[1]}, beside this one or in {HERE}")
        if os.path.realpath(path) not in self.seen:
            try:
                FileReader(self.source, path, self.seen, self.depth + 1).read()
            except OSError as fault:
                raise Fault(f"{path} cannot be read: {fault.strerror}") from None

    def take_header(self, words):
        words = words[1:]
        number = words.pop(0) if len(words) == 8 else None
        is_header = len(words) == 7 and words[1::2] == ["level", "params", "data"]
        if not is_header or not re.fullmatch(NAME, words[0]):
            raise Fault(HEADER)
        name = words[0]
        level, params, data = (number_of(word, self.source.names) for word in words[2::2])
        if number is not None:
            number = number_of(number, self.source.names)
            number = in_range("the number of a procedure", number, 1, 255)
        in_range("a lex level", level, 0, 127)
        if (number == 1) != (level == 0):
            raise Fault("procedure 1 is at level 0, and no other is")
        in_range("the number of parameter words", params, 0, 32767)
        in_range("the number of data words", data, 0, 32767)
        for other in self.source.procedures:
            if other.name == name:
                raise Fault(f"there is a procedure {name} already, at {other.place}")
            if number is not None and other.number == number:
                raise Fault(f"there is a procedure {number} already, at {other.place}")
        self.procedure = Procedure(self.place, number, name, level, params, data)
        self.source.procedures.append(self.procedure)

    def take_constant(self, words):
        names = self.procedure.names if self.procedure else self.source.names
        if len(words) != 3 or not re.fullmatch(NAME, words[0]):
            raise Fault("a number is named by: NAME = NUMBER")
        if words[0] in names:
            raise Fault(f"{words[0]} has a number already, at {names[words[0]].place}")
        names[words[0]] = Constant(number_of(words[2], names, self.source.names), self.place)

    def take_instruction(self, words):
        """Labels, and an instruction or a text, each of which may be missing."""
        if self.procedure is None:
            raise Fault(f"{words[0]} stands in front of the first procedure of its file")
        while words and words[0].endswith(":"):
            self.take_label(words[0][:-1])
            words = words[1:]
        if words and words[0] == "text":
            self.take_text(words)
        elif words:
            self.procedure.lines.append(Line(self.place, words[0], words[1:]))

    def take_label(self, name):
        labels = self.procedure.labels
        if not re.fullmatch(NAME, name):
            raise Fault(f"{name}: is no label")
        if name in labels:
            raise Fault(f"the label {name} stands already at {labels[name].place}")
        labels[name] = Label(self.place, len(self.procedure.lines))

    def take_text(self, words):
        """`text CGP put "BYE" lf`: an SLDC and the call for each character."""
        if len(words) < 4 or words[1] not in CALL:
            raise Fault("a text is written: text CALL PROCEDURE CHARACTER.., "
                        'as in text CGP put "BYE" 10')
        for operand in characters(words[3:]):
            self.procedure.lines.append(Line(self.place, "SLDC", [operand]))
            self.procedure.lines.append(Line(self.place, words[1], [words[2]]))


def give_numbers(source):
    """Gives the procedures without a number the lowest ones above 1 that are free, and looks
    whether none is missing."""
    taken = {procedure.number for procedure in source.procedures}
    free = (number for number in range(2, 256) if number not in taken)
    for procedure in source.procedures:
        if procedure.number is None:
            procedure.number = next(free, None)
            if procedure.number is None:
                raise Fault("there are more than 255 procedures", procedure.place)
    by_number = {procedure.number: procedure for procedure in source.procedures}
    if 1 not in by_number:
        raise Fault("there is no procedure 1, at which the program begins", source.file)
    for number in sorted(by_number):
        if number > 1 and number - 1 not in by_number:
            raise Fault(f"there is no procedure {number - 1}, and this one has the number {number}",
                        by_number[number].place)


def look_through(procedure):
    """Looks whether a procedure has instructions, the label exit, and an instruction behind each
    label."""
    if not procedure.lines:
        raise Fault(f"procedure {procedure.name} has no instruction", procedure.place)
    if "exit" not in procedure.labels:
        raise Fault(f"procedure {procedure.name} has no label exit", procedure.place)
    for name, label in procedure.labels.items():
        if label.index == len(procedure.lines):
            raise Fault(f"no instruction of the procedure stands behind the label {name}",
                        label.place)


def read_source(file):
    """The source that a file is."""
    source = Source(file)
    try:
        FileReader(source, file, set(), 0).read()
    except OSError as fault:
        raise Fault(f"it cannot be read: {fault.strerror}", file) from None
    give_numbers(source)
    for procedure in source.procedures:
        look_through(procedure)
    return source
