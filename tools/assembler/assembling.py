"""Makes the code file of a source."""

from dataclasses import dataclass

from pcode.codefile import code_file
from pcode.encoder import Encoder
from pcode.faults import Fault
from pcode.parts import Line

from .source import number_of


def encoder_of(source):
    """The encoder of a source's procedures: an operand is a word, which may be a name."""

    class WordEncoder(Encoder):
        def number(self, operand):
            return number_of(operand, self.procedure.names, source.names)

        def callee(self, operand):
            for procedure in source.procedures:
                if operand in (procedure.name, str(procedure.number)):
                    return procedure.number
            raise Fault(f"there is no procedure {operand}")

    return WordEncoder


def assemble(source):
    """The code file of a source."""
    name = source.name or "PROGRAM"
    return code_file(name, source.segment, source.procedures, source.file, encoder_of(source))


@dataclass
class Mapped:
    """An instruction of the segment, and the line of the source that it comes of."""

    procedure: int
    at: int
    line: Line

    def __str__(self):
        return f"procedure {self.procedure} at {self.at} {self.line.place} {self.line}"


def map_of(source):
    """Each instruction of a source that was assembled, in the order of the offsets."""
    for procedure in source.procedures:
        for line in procedure.lines:
            yield Mapped(procedure.number, line.at, line)
            if line.name == "XJP":
                # Its UJP is an instruction too, behind the byte that makes the offset even, W1 and
                # W2.
                yield Mapped(procedure.number, line.at + 1 + (line.at + 1) % 2 + 4, line)
