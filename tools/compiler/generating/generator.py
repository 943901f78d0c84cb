"""The procedures of a code file, of the routines of a checked program."""

from pcode.faults import Fault
from pcode.parts import Procedure

from ..checking.types import MOST_WORDS, String
from .code import Code
from .exits import exits_of, nodes_of
from .far import spread
from .places import Frame
from .statements import Statements
from .texts import Texts, stored_texts

MOST_ROUTINES = 255


class RoutineGenerator(Statements):
    """Makes the procedure of one routine."""

    def __init__(self, program, routine):
        self.program, self.routine = program, routine
        self.code = Code(routine)
        self.top = self.most = routine.words

    def offset_of(self, variable):
        return self.program.offset_of(variable)

    def procedure(self):
        routine, code = self.routine, self.code
        for copy in routine.copies:
            self.with_temporaries(self.copy_parameter, copy)
        self.statement(routine.body)
        code.set("exit")
        for ending in routine.endings:
            self.statement(ending)
        self.end_exit()
        code.emit("RNP" if routine.level else "RBP", routine.result.size if routine.result else 0)
        if self.most > MOST_WORDS:
            raise Fault(f"the variables of {routine.name} have {self.most} words, and {MOST_WORDS} "
                        "are all that a machine has", routine.place)
        params = routine.parameter_words
        return spread(Procedure(routine.place, self.program.number_of(routine), routine.name,
                                routine.level, params, self.most - params, code.lines,
                                code.labels))

    def copy_parameter(self, copy):
        """A value parameter of several words comes as an address."""
        self.push_address(Frame(self.routine, copy.offset))
        self.load(Frame(self.routine, copy.address))
        if isinstance(copy.type, String):
            self.code.number(copy.type.most)
            self.call_library("ASSIGN")
        else:
            self.code.emit("MOV", copy.type.size)

    def end_exit(self):
        """An EXIT that names this routine is over here. In the program one that is still under way
        names a procedure that nobody called."""
        routine, asked = self.routine, self.program.asked[self.routine]
        if routine.level == 0 and asked - {routine}:
            done = self.code.label()
            self.load(self.leaving())
            self.code.number(1)
            self.code.emit("GRTI")
            self.code.emit("FJP", done)
            self.code.emit("CSP", 39)
            self.code.set(done)
        elif routine.level and routine in asked:
            over = self.code.label()
            self.load(self.leaving())
            self.code.number(routine.number)
            self.code.emit("EFJ", over)
            self.code.number(0)
            self.store(self.leaving())
            self.code.set(over)


class Generator:
    """Makes all procedures: those of the program, and what they use of the library."""

    def __init__(self, routines, library, texts=None, line_end=10, is_packed=False):
        self.routines, self.library = list(routines), library
        self.line_end, self.is_packed = line_end, is_packed
        self.main = routines[0]
        self.waiting = []  # routines of the library that are called, and not made yet
        nodes = {routine: list(nodes_of(routine.body)) for routine in self.routines}
        self.exits, self.asked = exits_of(nodes)
        stored = stored_texts(it for own in nodes.values() for it in own)
        self.texts = Texts(texts or {}, stored)

    def procedures(self):
        """The procedures, in the order of their numbers."""
        made = [self.make(routine) for routine in self.routines[1:]]
        # The program is made twice: the library's variables have to be in its frame before its
        # temporaries are.
        self.make(self.main)
        while self.waiting:
            made.append(self.make(self.waiting.pop(0)))
        return [self.make(self.main)] + made

    def make(self, routine):
        self.library.complete(routine)
        return RoutineGenerator(self, routine).procedure()

    def number_of(self, routine):
        """The number of a routine. One of the library gets it where it is called first."""
        if not routine.number:
            if len(self.routines) == MOST_ROUTINES:
                raise Fault(f"there are {MOST_ROUTINES} procedures at most, and those of the "
                            "library are too many", self.main.place)
            self.routines.append(routine)
            routine.number = len(self.routines)
            self.waiting.append(routine)
            self.asked[routine] = set()
        return routine.number

    def offset_of(self, variable):
        """The offset of a variable. One of the library gets it where it is used first."""
        if not variable.offset:
            size = variable.type.size
            if self.main.words + size > MOST_WORDS:
                raise Fault(f"the variables of {self.main.name} leave no room for {size} words of "
                            "the library (for NEW it takes as many as --heap says)",
                            self.main.place)
            variable.offset = self.main.allocate(size, self.main.place)
        return variable.offset
