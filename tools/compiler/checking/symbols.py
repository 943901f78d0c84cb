"""What names mean, and where they are looked for."""

from __future__ import annotations

from pcode.faults import Fault
from pcode.fields import Fields

from ..faults import Known, Lack, Place
from .types import BOOLEAN, CHAR, INTEGER, MOST_WORDS, REAL, File, Pointer, String

STANDARD_PROCEDURES = (
    "CLOSE DELETE DISPOSE EXIT FILLCHAR GET GOTOXY HALT INSERT MARK MOVELEFT MOVERIGHT NEW "
    "PAGE PUT READ READLN RELEASE RESET REWRITE SEEK STR TIME UNITCLEAR UNITREAD UNITWAIT "
    "UNITWRITE WRITE WRITELN").split()
STANDARD_FUNCTIONS = (
    "ABS ARCTAN ATAN BLOCKREAD BLOCKWRITE CHR CONCAT COPY COS EOF EOLN EXP IORESULT LENGTH LN LOG "
    "MEMAVAIL ODD ORD POS PRED PWROFTEN ROUND SCAN SIN SIZEOF SQR SQRT SUCC TRUNC UNITBUSY"
).split()
READ_FILES = {"INPUT": 1, "KEYBOARD": 2}  # with their numbers in the library
TEXT = File(is_text=True)
STANDARD_FILES = ("INPUT", "OUTPUT", "KEYBOARD")


class ConstantSymbol(Fields):
    """`value` is a number, of a text in quotes a string, and of a REAL its bits."""

    type: object
    value: object


class TypeSymbol(Fields):
    type: object


class Variable(Fields):
    """A variable at an offset of its routine's frame, or one whose address is there."""

    type: object
    routine: Routine
    offset: int
    is_address: bool = False


class Standard(Fields):
    """A procedure or function of the language."""

    name: str


class FileSymbol(Fields):
    """INPUT, OUTPUT or KEYBOARD."""

    name: str


class OpenedField(Fields):
    """A field of a record that a WITH has opened."""

    opening: object
    field: object


class Broken(Fields):
    """A name whose declaration has a fault, which has been told; or that needs what is not there,
    which is counted."""

    feature: str | None = None


class Parameter(Fields):
    name: str
    type: object
    is_var: bool
    place: Place


class Copy(Fields):
    """A value parameter of several words: its address comes, and its words are copied."""

    offset: int
    address: int
    type: object


class Routine(Fields):
    """A procedure or function; at level 0 the program."""

    name: str
    level: int
    parent: Routine | None
    place: Place | None
    is_library: bool = False
    number: int = 0
    parameters: list[Parameter] = list
    result: object = None
    is_forward: bool = False
    words: int = 0  # of the frame so far
    parameter_words: int = 0
    copies: list[Copy] = list
    labels: dict[int, object] = dict  # declared, set, or where it is used
    files: list[object] = list  # variables that are closed at its end
    endings: list[object] = list  # what is done then
    body: object = None  # the checked tree

    def allocate(self, words, place) -> int:
        """The offset of words of the frame that are free."""
        offset = self.words + 1
        self.words += words
        if self.words > MOST_WORDS:
            raise Fault(f"the variables of {self.name} have more than {MOST_WORDS} words: all of a "
                        "machine's memory", place)
        return offset


def standard_scope():
    """What is known without a declaration."""
    scope = {"INTEGER": TypeSymbol(INTEGER), "BOOLEAN": TypeSymbol(BOOLEAN),
             "TEXT": TypeSymbol(TEXT), "INTERACT": TypeSymbol(TEXT),
             "CHAR": TypeSymbol(CHAR), "REAL": TypeSymbol(REAL), "STRING": TypeSymbol(String(80)),
             "FALSE": ConstantSymbol(BOOLEAN, 0), "TRUE": ConstantSymbol(BOOLEAN, 1),
             "MAXINT": ConstantSymbol(INTEGER, 32767), "NIL": ConstantSymbol(Pointer(), 0)}
    for name in STANDARD_PROCEDURES + STANDARD_FUNCTIONS:
        scope[name[:8]] = Standard(name)
    for name in STANDARD_FILES:
        scope[name] = FileSymbol(name)
    return scope


STANDARD_SCOPE = standard_scope()  # nothing is ever added to it


class Scopes:
    """The names that are known, the innermost last."""

    def __init__(self):
        self.scopes = [STANDARD_SCOPE]
        self.units = None  # the feature that names which are not declared are taken for

    def open(self, names=None):
        self.scopes.append({} if names is None else names)

    def close(self):
        return self.scopes.pop()

    def declare(self, name, symbol, is_again=False):
        """Adds a name of the syntax tree."""
        innermost = self.scopes[-1]
        if name.name in innermost and not is_again:
            if isinstance(innermost[name.name], Broken):
                raise Known
            raise Fault(f"{name.written} is declared twice{hint_of(name)}", name.place)
        innermost[name.name] = symbol

    def local(self, name):
        return self.scopes[-1].get(name.name)

    def find(self, name):
        """What a name means. One that means nothing is told once."""
        for scope in reversed(self.scopes):
            if name.name in scope:
                symbol = scope[name.name]
                if isinstance(symbol, Broken):
                    raise Known(symbol.feature)
                return symbol
        fault = refusal_of(name)
        feature = fault.feature if isinstance(fault, Lack) else self.units
        self.scopes[-1][name.name] = Broken(feature)
        if feature and feature == self.units:
            raise Known(feature)
        raise fault


def hint_of(name):
    return " (of a name the first 8 characters count)" if len(name.written) > 8 else ""


ABSENT = {
    "there are no paddles, buttons or sounds": "PADDLE BUTTON TTLOUT",
    "it is of the p-System's own programs": "IDSEARCH TREESEARCH UNITSTATUS MEMLOCK MEMSWAP",
}


def refusal_of(name):
    for feature, names in ABSENT.items():
        if name.name in [it[:8] for it in names.split()]:
            return Lack(f"{name.written}: {feature}", name.place, feature)
    return Fault(f"{name.written} is not declared", name.place)
