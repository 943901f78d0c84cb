"""What the back end makes of calls of the compiler's library."""

from compiler.checking import tree
from compiler.checking.types import REAL, File
from compiler.generating.places import Bytes, Packed

COMPARED = {"COMPARE": 4, "COMPAREBYTES": 10, "COMPAREREALS": 2}
INSTRUCTIONS = {"ADDREALS": "ADR", "SUBREALS": "SBR", "MULREALS": "MPR", "DIVREALS": "DVR",
                "NEGATED": "NGR", "WITHOUTSIGN": "ABR", "SQUARED": "SQR", "FLOATED": "FLT"}
STANDARD = {"SINE": 25, "COSINE": 26, "LOGTEN": 27, "ARCTANGENT": 28, "LOGARITHM": 29,
            "EXPONENTIAL": 30, "ROOT": 31, "TENPOWER": 36, "MEMORY": 40, "MOVELEFT": 2,
            "MOVERIGHT": 3, "FILL": 10, "CHECKIO": 0}
WRITTEN = {"WRITEINT": 13, "WRITECHAR": 17, "WRITESTRING": 19}
READ = {"READINT": 12, "READREAL": 14, "READCHAR": 16}
OF_FILES = {"READSTR": 18, "ENDLINE": 21, "NEXTKEY": 7, "GETTEXT": 7, "RESETFILE": 4,
            "PUTTEXTWINDOW": 8}


class OldCalls:
    """The part of the back end for calls of the library."""

    def system(self, number):
        self.code.emit("CXP", 0, number)

    def call(self, node):
        routine, arguments = node.routine, node.arguments
        name = routine.name.upper()
        special = getattr(self, "of_" + name.lower(), None)
        if not routine.is_library:
            super().call(node)
        elif name in INSTRUCTIONS or name in STANDARD:
            for it in arguments:
                self.push(it)
            if name in STANDARD:
                self.code.emit("CSP", STANDARD[name])
            else:
                self.code.emit(INSTRUCTIONS[name])
        elif name in WRITTEN:
            self.written(arguments, WRITTEN[name])
        elif name in READ:
            self.read(node, READ[name])
        elif name in OF_FILES:
            self.push_file(arguments[0])
            for it in arguments[1:]:
                self.push(it)
            self.system(OF_FILES[name])
        elif special:
            special(*arguments)
        elif any(isinstance(it, tree.Select) for it in arguments):
            self.program.refuse(f"{name} to a file")
        else:
            super().call(node)

    # Files

    def push_file(self, number):
        """A file, by what the tree has for its number."""
        if isinstance(number, tree.Constant):
            self.code.emit("LOD", self.routine.level + 1, {1: 2, 2: 4}[number.value])
        else:
            self.push_address(self.place(self.file_at(number)))

    def file_at(self, number):
        """The location of a file variable. In the library itself a file is a number."""
        location = location_of(number)
        if not isinstance(location.type, File) and self.routine.is_library:
            self.program.refuse(f"{self.routine.name} of the library")
        return location

    def push_output(self):
        if self.to:
            self.push_address(self.place(self.to))
        else:
            self.code.emit("LOD", self.routine.level + 1, 3)

    def select(self, node):
        self.to = None if isinstance(node.number, tree.Constant) else location_of(node.number)

    def written(self, arguments, number, order=None):
        """A value is written to a file or to OUTPUT."""
        for it in arguments:
            if isinstance(it, tree.Select):
                self.select(it)
        values = [it for it in arguments if not isinstance(it, tree.Select)]
        self.push_output()
        for k in order or range(len(values)):
            self.push(values[k])
        self.system(number)

    def of_pagefile(self, number):
        self.push_file(number)
        self.code.number(12)
        self.code.number(0)
        self.system(17)

    def of_opened(self, _number):
        self.program.refuse("the number of a file")

    def of_putchar(self, *arguments):
        self.written([arguments[0], tree.Constant(None, 0), *arguments[1:]], 17)

    def of_writearray(self, *arguments):
        self.written(arguments, 20, (0, 2, 1))

    def of_writereal(self, value, width, places, *rest):
        if isinstance(places, tree.Constant) and places.value <= 0:
            if places.value == 0:
                self.program.refuse("no places of a REAL")
            places = tree.Constant(None, 0)
        self.written([value, width, places, *rest], 15)

    def write_text(self, node):
        for number, part in enumerate(node.text.split("\n")):
            if number:
                self.push_output()
                self.system(22)
            for k in range(0, len(part), 255):
                piece = part[k:k + 255]
                self.push_output()
                if len(piece) == 1:
                    self.code.number(ord(piece))
                else:
                    self.letters("LSA", piece)
                self.code.number(0)
                self.system(17 if len(piece) == 1 else 19)

    def read(self, node, number):
        """A value is read into a temporary, and pushed."""
        size = 2 if node.routine.result is REAL else 1
        kept = self.temporary(size)
        self.push_file(node.arguments[0])
        self.push_address(kept)
        self.system(number)
        self.load_words(kept, size)

    def ended(self, number, file):
        self.push_file(file)
        self.code.number(0)
        self.code.number(0)
        self.system(number)

    def of_ateof(self, file):
        self.ended(10, file)

    of_fileeof = of_ateof

    def of_ateoln(self, file):
        self.ended(11, file)

    def of_ioutcome(self, _machines):
        self.code.emit("CSP", 34)

    of_iooutcome = of_ioutcome

    def of_getrecord(self, file, _window, _size):
        self.push_file(file)
        self.system(7)

    def of_putrecord(self, file, _window, _size):
        self.push_file(file)
        self.system(8)

    def of_seekrecord(self, file, number, _size):
        self.push_file(file)
        self.push(number)
        self.system(9)

    def of_closefile(self, file, how, _is_text):
        self.push_file(file)
        self.push(how)
        self.system(6)

    def of_blocks(self, file, target, count, start, is_put):
        self.push_file(file)
        for it in (target, count, start):
            self.push(it)
        for value in (1 - is_put.value, 0, 0):
            self.code.number(value)
        self.system(28)

    def element_place(self, location):
        """F^ of a text: the character to which the first word of the file variable leads."""
        variable = getattr(location.base, "variable", None)
        if variable is None or variable is not self.program.library.get("WINDOW"):
            return super().element_place(location)
        self.push_file(location.index)
        self.code.emit("SIND", 0)
        self.code.number(0)
        return Bytes()

    def assign(self, node):
        """A file variable is opened by a call; IORESULT begins anew with each."""
        location, value = node.location, node.value
        if isinstance(location.type, File):
            if isinstance(value, tree.Call):
                self.opened(location, value)
            return
        iocode = self.program.library.get("IOCODE")
        if isinstance(location, tree.VariableAt) and location.variable is iocode:
            return
        if isinstance(value, tree.Call) and value.routine.name == "TAKEROOM":
            place = self.place(location)
            if not isinstance(place, Packed):
                self.push_address(place)
                self.take_room(*value.arguments)
                return
        super().assign(node)

    def opened(self, location, value):
        self.push_address(self.place(location))
        fresh = value.arguments[-1].value
        if value.routine.name == "OPENTITLE":
            self.push(value.arguments[1])
            self.code.number(1 - fresh)
            self.code.emit("LDCN")
            self.system(5)
        elif fresh:
            self.program.refuse("REWRITE without a name")
        else:
            self.system(4)

    def if_statement(self, node):
        """RESET gets the first record itself."""
        call = getattr(node.yes, "value", None)
        if isinstance(call, tree.Call) and call.routine.name == "GETRECORD":
            loaded = node.test.operands[0] if isinstance(node.test, tree.Operation) else None
            variable = getattr(getattr(loaded, "location", None), "variable", None)
            if variable is not None and variable is self.program.library.get("IOCODE"):
                return
        super().if_statement(node)

    # Strings, bytes and the heap

    def of_assign(self, target, source, most):
        self.push(target)
        self.push(source)
        self.code.emit("SAS", most.value)

    def of_deletetext(self, *values):
        for it in values:
            self.push(it)
        self.system(26)

    def of_inserttext(self, part, text, at, most):
        for it in (part, text, most, at):
            self.push(it)
        self.system(24)

    def of_position(self, wanted, text):
        self.push(wanted)
        self.push(text)
        self.code.number(0)
        self.code.number(0)
        self.system(27)

    def of_screenxy(self, column, line):
        self.push(column)
        self.push(line)
        self.system(29)

    def of_scanbytes(self, count, wanted, is_equal, target):
        self.push(count)
        self.code.number(1 - is_equal.value)
        self.push(wanted)
        self.push(target)
        self.code.number(0)
        self.code.emit("CSP", 11)

    def take_room(self, size):
        is_mark = isinstance(size, tree.Constant) and size.value == 0
        if not is_mark:
            self.push(size)
        self.code.emit("CSP", 32 if is_mark else 1)

    def of_takeroom(self, size):
        kept = self.temporary(1)
        self.push_address(kept)
        self.take_room(size)
        self.load(kept)

    def of_giveback(self, value):
        kept = self.temporary(1)
        self.push(value)
        self.store(kept)
        self.push_address(kept)
        self.code.emit("CSP", 33)

    def of_whole(self, value, is_rounded):
        self.push(value)
        self.code.emit("CSP", 23 + is_rounded.value)

    # Sets and comparisons

    def of_putelement(self, target, element, last, is_in):
        words = (last.value + 1) // 16
        self.push(target)
        self.push(target)
        self.code.emit("LDM", words)
        self.code.number(words)
        self.push(element)
        for name in (("SGS",), ("UNI" if is_in.value else "DIF",), ("ADJ", words),
                     ("STM", words)):
            self.code.emit(*name)

    def of_has(self, group, element, _last):
        self.push(element)
        self.push_set(group.value)
        self.code.emit("INN")

    def of_within(self, one, other, _words):
        self.push_set(one.value)
        self.push_set(other.value)
        self.code.emit("LEQ", 8)

    def of_samewords(self, one, other, words):
        if isinstance(one, tree.SetAddress):
            self.push_set(one.value)
            self.push_set(other.value)
            self.code.emit("EQU", 8)
        else:
            self.push(one)
            self.push(other)
            self.code.emit("EQU", 12, words.value)

    def of_sametext(self, one, other):
        self.push(one)
        self.push(other)
        self.code.emit("EQU", 4)

    def typed(self, node):
        """The type of a comparison that the library's order is compared with 0 for."""
        if not isinstance(node, tree.Operation) or len(node.operands) != 2:
            return None
        call, zero = node.operands
        is_order = isinstance(call, tree.Call) and call.routine.is_library
        return COMPARED.get(call.routine.name.upper()) if is_order and isinstance(
            zero, tree.Constant) and zero.value == 0 else None

    def operation(self, node):
        kind = self.typed(node)
        if kind is None:
            super().operation(node)
            return
        arguments = node.operands[0].arguments
        for it in arguments[:2]:
            self.push(it)
        size = [arguments[2].value] if kind == 10 else []
        self.code.emit(node.instruction[0][:3], kind, *size)

    def jump_unless(self, test, label):
        if self.typed(test) is None:
            super().jump_unless(test, label)
        else:
            self.operation(test)
            self.code.emit("FJP", label)


def location_of(number):
    """The file variable that a number is of."""
    while isinstance(number, tree.Call):  # OPENED or PEEKED
        number = number.arguments[0]
    return number.location
