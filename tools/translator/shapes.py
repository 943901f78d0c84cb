"""What is on the evaluation stack in front of each instruction of a procedure.

The elements of a shape, the top last:

  WORD         a word of which nothing is known
  ADDRESS      a word that is an address
  CHARACTER    a word that is a byte
  Known(n)     the word n, which the instruction at `at` has pushed
  Console(n)   a file of the system, 1 for INPUT and OUTPUT and 2 for KEYBOARD
  Words(n)     n words
  Group(n)     a set of n words, with its length on top of them
  LONGEST      a set of a length that is known at run time alone
"""

from typing import NamedTuple

from pcode.faults import Fault

from .table import (EXIT, REALS, SETS, STANDARD, SYSTEM, standard_name,
                    system_name)

WORD, ADDRESS, CHARACTER, LONGEST = "word", "address", "character", "set"
MOST_WORDS = 1024  # of the evaluation stack


class Known(NamedTuple):
    value: int
    at: int


class Console(NamedTuple):
    number: int
    at: int


class Words(NamedTuple):
    count: int


class Group(NamedTuple):
    count: int


SINGLES = (WORD, ADDRESS, CHARACTER)
# Of the system's frame, the files that are pushed by an offset.
CONSOLES = {2: 1, 3: 1, 4: 2}
# Procedures of the system whose calls need no file on the stack, if it is one of the system.
WITHOUT_FILE = (12, 13, 14, 15, 16, 17, 19, 20, 22)
# What instructions pop and push, in words.
EFFECTS = {
    "STL": (1, 0), "SRO": (1, 0), "STR": (1, 0), "STE": (1, 0), "FJP": (1, 0), "XJP": (1, 0),
    "EFJ": (2, 0), "NFJ": (2, 0), "STO": (2, 0), "STB": (3, 0), "CHK": (3, 1), "MOV": (2, 0),
    "SAS": (2, 0), "IXP": (2, 3), "LDP": (3, 1), "STP": (4, 0), "LDB": (2, 1), "SIND": (1, 1),
    "IND": (1, 1), "UJP": (0, 0), "RBP": (0, 0), "NOP": (0, 0), "BPT": (0, 0), "XIT": (0, 0),
    "ABI": (1, 1), "NGI": (1, 1), "SQI": (1, 1), "LNOT": (1, 1), "FLT": (1, 2), "FLO": (3, 4),
    "ABR": (2, 2), "NGR": (2, 2), "SQR": (2, 2), "ADR": (4, 2), "SBR": (4, 2), "MPR": (4, 2),
    "DVR": (4, 2), "SLDL": (0, 1), "LDL": (0, 1), "SLDO": (0, 1), "LDO": (0, 1), "LOD": (0, 1),
    "LDE": (0, 1), "LDCN": (0, 1), "IXS": (0, 0), "RNP": (0, 0),
}
TWO_TO_ONE = (2, 1)  # arithmetic and comparisons of words
OF_ADDRESSES = ("SIND", "IND", "INC", "LDM")  # of an address that is on the top
ADDRESSES = {"LLA": 0, "LAO": 0, "LDA": 0, "LAE": 0, "LSA": 0, "LPA": 0, "INC": 1, "IXA": 2}


def size_of(element):
    """How many words an element is; None if that is not known."""
    if isinstance(element, Words):
        return element.count
    if isinstance(element, Group):
        return element.count + 1
    return None if element == LONGEST else 1


def size_of_all(shape):
    sizes = [size_of(it) for it in shape]
    return None if None in sizes else sum(sizes)


class Notes(NamedTuple):
    """What the shapes say of a procedure. Keys are offsets of instructions."""

    before: dict  # the shape in front of an instruction
    sets: dict  # the lengths of the sets that it takes, the lower one first; None if not known
    exits: dict  # the procedure that an EXIT ends
    sources: dict  # of a SAS what it stores: ADDRESS, CHARACTER or WORD
    files: dict  # of a call of the system the file of the system that it takes, if it is one
    windows: dict  # of a SIND 0 the number of the file of the system whose window it leads to
    pushed: set  # the files of the system that have to be pushed as numbers


class Flow:
    """Follows the flow of a procedure. `call` says what a call takes and gives, in words, or None
    where the callee is no procedure of the file."""

    def __init__(self, place, level, code, call):
        self.place, self.level, self.code, self.call = place, level, code, call
        self.notes = Notes({}, {}, {}, {}, {}, {}, set())

    def refuse(self, text, at):
        raise Fault(text, self.place._replace(offset=at))

    def follow(self, enter, leave):
        waiting = [(enter, ())]
        while True:
            while waiting:
                at, shape = waiting.pop()
                known = self.notes.before.get(at)
                joined = shape if known is None else self.joined(known, shape, at)
                if joined != known:
                    self.notes.before[at] = joined
                    waiting += self.followed(self.code[at], joined)
            if leave in self.notes.before:
                return self.notes
            waiting = [(leave, ())]  # which only an EXIT leads to

    def followed(self, it, shape):
        """What comes behind an instruction, each with its shape."""
        self.at, self.stack = it.at, list(shape)
        self.step(it)
        if sum(size_of(element) or 0 for element in self.stack) > MOST_WORDS:
            self.refuse("more words are pushed than the stack has", it.at)
        after = tuple(self.stack)
        if it.targets():
            self.push_consoles(after)
        return [(at, after) for at in it.following()]

    def push_consoles(self, elements):
        """Files of the system that are to be there as words."""
        self.notes.pushed.update(it.at for it in elements if isinstance(it, Console))

    def joined(self, one, other, at):
        """The shape at a place to which two ways lead."""
        if one == other:
            return one
        self.push_consoles(one + other)
        if len(one) == len(other):
            pairs = [a if a == b else WORD if size_of(a) == size_of(b) == 1 else None
                     for a, b in zip(one, other)]
            if None not in pairs:
                return tuple(pairs)
        self.refuse("two ways lead there that leave another number of words on the stack", at)

    # The stack

    def pop(self, count):
        """Takes words."""
        while count > 0:
            if not self.stack:
                self.refuse("it takes more words than the stack has", self.at)
            element = self.stack.pop()
            self.push_consoles([element])
            size = size_of(element)
            if size is None:
                self.refuse("it takes words of a set whose length is not known", self.at)
            if size > count:
                self.stack.append(Words(size - count))
            count -= size

    def top(self):
        return self.stack[-1] if self.stack else None

    def push(self, count, element=WORD):
        if count == 1:
            self.stack.append(element)
        elif count:
            self.stack.append(Words(count))

    def pop_set(self):
        """Takes a set, and answers its length; None if that is not known."""
        top = self.top()
        if top == LONGEST:
            self.stack.pop()
            return None
        if isinstance(top, Group):
            self.stack.pop()
            return top.count
        if not isinstance(top, Known):
            self.refuse("the length of a set is not known", self.at)
        if not 0 <= top.value <= 255:
            self.refuse(f"a set has {top.value} words", self.at)
        self.stack.pop()
        self.pop(top.value)
        return top.value

    def pop_sets(self, count):
        found = [self.pop_set() for _ in range(count)][::-1]
        self.notes.sets[self.at] = found
        return found

    def push_set(self, count):
        self.stack.append(LONGEST if count is None else Group(count))

    # Instructions

    def step(self, it):
        name, operands = it.name, it.operands
        if name in ("SLDC", "LDCI"):
            self.stack.append(Known(operands[0], it.at))
        elif name == "LOD" and operands[0] == self.level + 1 and operands[1] in CONSOLES:
            self.stack.append(Console(CONSOLES[operands[1]], it.at))
        elif name in OF_ADDRESSES and isinstance(self.top(), Console):
            self.window(it)
        elif name in ADDRESSES:
            self.pop(ADDRESSES[name])
            self.stack.append(ADDRESS)
        elif hasattr(self, name.lower()):
            getattr(self, name.lower())(operands)
        elif name in ("EQU", "NEQ", "LEQ", "LES", "GEQ", "GRT"):
            self.compare(*operands)
        elif name in ("CLP", "CGP", "CIP", "CBP", "CXP"):
            self.called(it)
        else:
            if name == "SAS":
                self.source()
            taken, given = EFFECTS.get(name, TWO_TO_ONE)
            self.pop(taken)
            self.push(given, CHARACTER if name in ("LDB", "LDP") else WORD)

    def window(self, it):
        """SIND 0 of a file of the system leads to its window."""
        console = self.stack.pop()
        if it.name != "SIND" or it.operands[0]:
            self.refuse(f"{it.name} uses a file of the system", it.at)
        self.notes.windows[it.at] = console.number
        self.stack.append(ADDRESS)

    def source(self):
        """What a SAS stores."""
        top = self.top()
        kind = top if top in (ADDRESS, CHARACTER) else WORD
        if isinstance(top, Known) and 0 <= top.value <= 255:
            kind = CHARACTER
        self.notes.sources[self.at] = kind

    def compare(self, kind, size=None):
        if kind == SETS:
            self.pop_sets(2)
        else:
            self.pop({REALS: 4}.get(kind, 2))
        self.push(1)

    def ldm(self, operands):
        self.pop(1)
        self.push(operands[0])

    def ldc(self, operands):
        self.push(len(operands[0]))

    def stm(self, operands):
        self.pop(operands[0] + 1)

    def uni(self, _operands):
        lower, upper = self.pop_sets(2)
        self.push_set(None if None in (lower, upper) else max(lower, upper))

    def int(self, _operands):
        self.push_set(self.pop_sets(2)[0])

    dif = int

    def adj(self, operands):
        self.pop_sets(1)
        self.push(operands[0])

    def sgs(self, _operands):
        self.pop(1)
        self.push_set(None)

    def srs(self, _operands):
        self.pop(2)
        self.push_set(None)

    def inn(self, _operands):
        self.pop_sets(1)
        self.pop(1)
        self.push(1)

    def ixs(self, _operands):
        if size_of_all(self.stack) is not None and size_of_all(self.stack) < 2:
            self.refuse("it takes more words than the stack has", self.at)

    def csp(self, operands):
        number = operands[0]
        if not standard_name(number):
            self.refuse(f"there is no standard procedure {number}", self.at)
        if number == EXIT:
            self.exited()
            return
        _, taken, given = STANDARD[number]
        self.pop(taken)
        self.push(given)

    def exited(self):
        top = self.stack[-2:]
        if len(top) < 2 or not all(isinstance(it, Known) for it in top):
            self.refuse("an EXIT names a procedure that is not known", self.at)
        self.notes.exits[self.at] = tuple(it.value for it in top)
        del self.stack[-2:]

    def called(self, it):
        name, operands = it.name, it.operands
        if name == "CXP" and operands[0] == 0:
            self.of_system(operands[1])
            return
        taken, given = self.call(it)
        self.pop(taken)
        self.push(given)

    def of_system(self, number):
        if number not in SYSTEM:
            told = system_name(number)
            self.refuse(f"it calls procedure {number} of the system" + f" ({told})" * bool(told),
                        self.at)
        _, kinds, given = SYSTEM[number]
        file = kinds[0] == "f"
        self.pop(len(kinds) - file)
        if file and isinstance(self.top(), Console):
            self.notes.files[self.at] = console = self.stack.pop()
            if number not in WITHOUT_FILE:
                self.notes.pushed.add(console.at)
        elif file:
            self.pop(1)
        self.push(given)
