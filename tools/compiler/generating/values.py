"""Values, and calls."""

from ..checking import tree
from ..checking.reals import words_of as words_of_real
from ..checking.types import REAL
from .places import Frame, Places
from .texts import words_of

EQUAL_JUMPS = {"EQUI": "EFJ", "NEQI": "NFJ"}  # they jump where it does not hold

# The method for each value, and for what is pushed as an argument.
PUSHED = {tree.Constant: "constant", tree.Load: "load_value", tree.RealValue: "real_value",
          tree.Operation: "operation", tree.Call: "call", tree.Among: "among",
          tree.Address: "address", tree.ByteAddress: "byte_address",
          tree.StringAddress: "string_value", tree.SetAddress: "set_value",
          tree.TextValue: "text_value", tree.Select: "select",
          tree.LongAddress: "long_value", tree.LongFitted: "long_fitted"}


class Values(Places):
    def push(self, node):
        """Pushes a value, or the address that an argument is."""
        getattr(self, PUSHED[type(node)])(node)

    def constant(self, node):
        self.code.number(node.value)

    def address(self, node):
        self.push_address(self.place(node.location))

    def byte_address(self, node):
        self.push_bytes(node.location)

    def string_value(self, node):
        self.string(node.value)

    def set_value(self, node):
        self.set_address(node.value, node.words)

    def long_value(self, node):
        self.long_address(node.value)

    def text_value(self, node):
        self.text(node.text)

    def load_value(self, node):
        place = self.place(node.location)
        if node.type is REAL:
            self.load_words(place, REAL.size)
        else:
            self.load(place)

    def real_value(self, node):
        for word in reversed(words_of_real(node.value)):
            self.code.number(word)

    def operation(self, node):
        for operand in node.operands:
            self.push(operand)
        if node.instruction:
            self.code.emit(*node.instruction)

    def select(self, node):
        self.push(node.number)
        self.store(Frame(node.variable.routine, self.offset_of(node.variable)))

    def text(self, text):
        """A text that is known: it is put into a temporary, and its address is pushed."""
        place = self.temporary(len(words_of(text)))
        self.push_address(place)
        self.put_text(text)
        self.push_address(place)

    def put_text(self, text):
        """Stores a text that is known at an address that is pushed."""
        words, program = words_of(text), self.program
        routine = program.texts.storer(text, words, self.code.place, len(program.routines))
        if routine and routine is not self.routine:
            self.enter(routine)
        else:
            self.put_words(words)

    def store_words(self, place, words):
        self.push_address(place)
        self.put_words(words)

    def put_words(self, words):
        """Stores words that are known at an address that is pushed."""
        for word in reversed(words):
            self.code.number(word - 65536 * (word > 32767))
        self.code.emit("STM", len(words))

    def jump_unless(self, test, label):
        """Jumps where a Boolean does not hold."""
        if isinstance(test, tree.Constant):
            if not test.value & 1:
                self.code.emit("UJP", label)
            return
        if isinstance(test, tree.Operation) and test.instruction[:1] in (("EQUI",), ("NEQI",)):
            for operand in test.operands:
                self.push(operand)
            self.code.emit(EQUAL_JUMPS[test.instruction[0]], label)
            return
        self.push(test)
        self.code.emit("FJP", label)

    # Membership in brackets: comparisons, joined by OR

    def among(self, node):
        if not node.parts:
            self.code.number(0)
            return
        bounds = [bound for part in node.parts for bound in part if bound]
        again = self.repeated(node.value, all(isinstance(it, tree.Constant) for it in bounds))
        for k, (low, high) in enumerate(node.parts):
            again()
            self.push(low)
            if high:
                self.code.emit("GEQI")
                again()
                self.push(high)
                self.code.emit("LEQI")
                self.code.emit("LAND")
            else:
                self.code.emit("EQUI")
            if k:
                self.code.emit("LOR")

    def repeated(self, value, is_calm):
        """What pushes a value again, which is worked out once: a variable is pushed as it stands,
        if nothing that comes between can change it."""
        is_variable = isinstance(value, tree.Load) and isinstance(value.location, tree.VariableAt)
        if is_variable and is_calm:
            return lambda: self.push(value)
        kept = self.temporary(1)
        self.push(value)
        self.store(kept)
        return lambda: self.load(kept)

    # Calls

    def call(self, node):
        for argument in node.arguments:
            self.push(argument)
        self.enter(node.routine)

    def enter(self, routine):
        """Calls a routine whose parameters are pushed."""
        if routine.result:  # two words, of which the first is to be its value
            self.code.number(0)
            self.code.number(0)
        number = self.program.number_of(routine)
        if routine.level == 1:
            self.code.emit("CGP", number)
        else:
            self.code.emit("CLP" if routine.parent is self.routine else "CIP", number)
        self.code.depth -= routine.parameter_words
        if routine.result:
            self.code.depth += routine.result.size
        if self.program.exits.get(routine):
            self.leave_if_asked()

    def call_library(self, name):
        """Calls a procedure of the library whose parameters are pushed."""
        self.enter(self.program.library[name])

    def leave_if_asked(self):
        """Behind a call that may end more than itself: goes to the end of this routine if it
        did. Words that are pushed go first."""
        self.load(self.leaving())
        self.code.number(0)
        if self.code.depth == 2:
            self.code.emit("EFJ", "exit")
            return
        goes_on = self.code.label()
        self.code.emit("NFJ", goes_on)
        depth, kept = self.code.depth, self.temporary(1)
        while self.code.depth:
            self.store(kept)
        self.code.emit("UJP", "exit")
        self.code.depth = depth
        self.code.set(goes_on)

    def leaving(self):
        """Where the number of the routine is that EXIT ends."""
        variable = self.program.library["LEAVING"]
        return Frame(variable.routine, self.offset_of(variable))
