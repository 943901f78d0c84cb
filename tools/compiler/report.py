"""What is printed of a program that was compiled: its assembly, its listing, and lines of it."""

import os

from pcode.faults import Fault
from pcode.listing import Lister

from .parsing.texts import read_text
from .program import Compiled
from .runtime import FOLDER

MARGIN = 8  # of an instruction in the assembly


class Source:
    """The lines of the texts that a program is made of."""

    def __init__(self):
        self.texts = {}

    def line(self, place):
        """`FILE:LINE: what stands there`."""
        if place.file not in self.texts:
            self.texts[place.file] = read_text(place.file).split("\n")
        file = place.file
        if os.path.dirname(file) == FOLDER:
            file = os.path.join("library", os.path.basename(file))
        return f"{file}:{place.line}: {self.texts[place.file][place.line - 1].strip()}"


def names_of(procedures):
    """The name of each procedure in the assembly: two that have the same get their numbers."""
    found = [procedure.name.upper() for procedure in procedures]
    return [name if found.count(name) == 1 else f"{name}_{procedure.number}"
            for name, procedure in zip(found, procedures)]


def assembly(program: Compiled):
    """The lines of the assembly, of which the assembler makes the same code file."""
    source = Source()
    yield f"program {program.segment} segment 1"
    for name, procedure in zip(names_of(program.procedures), program.procedures):
        yield ""
        yield (f"proc {procedure.number} {name} level {procedure.level} "
               f"params {procedure.params} data {procedure.data}")
        shown = None
        for index, line in enumerate(procedure.lines):
            labels = [it for it, label in procedure.labels.items() if label.index == index]
            if (line.place.file, line.place.line) != shown:
                shown = line.place.file, line.place.line
                yield f"; {ascii_of(source.line(line.place))}"
            for label in labels[:-1]:
                yield f"{label}:"
            head = f"{labels[-1]}:" if labels else ""
            yield f"{head.ljust(MARGIN - 1)} {line}"


def ascii_of(text):
    """The assembler's sources are ASCII."""
    return "".join(it if " " <= it <= "~" else " " if it == "\t" else "?" for it in text)


def listing(program: Compiled):
    """The listing of the code file, with the lines of the text in front of what they became."""
    source = Source()
    places = {it.number: {line.at: line.place for line in it.lines} for it in program.procedures}
    number = shown = None
    for text in Lister(program.data).lines():
        words = text.split()
        if words[0] == "proc":
            number, shown = int(words[1]), None
        else:
            place = places[number].get(int(words[0]))
            if place and (place.file, place.line) != shown:
                shown = place.file, place.line
                yield f"; {source.line(place)}"
        yield text


def line_at(program: Compiled, number, offset, file):
    """The line that an instruction of a procedure comes from."""
    for procedure in program.procedures:
        for line in procedure.lines:
            if (procedure.number, line.at) == (number, offset):
                return Source().line(line.place)
    raise Fault(f"no instruction of procedure {number} begins at {offset}", file)
