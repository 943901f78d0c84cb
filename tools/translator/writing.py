"""Makes a procedure for pgroup of one of an old code file."""

from pcode.faults import Fault
from pcode.parts import Procedure

from .output import Output
from .sets import Sets
from .shapes import ADDRESS, CHARACTER, Console, size_of
from .system import System
from .table import BOOLEANS, BYTES, LAST, REALS, SETS, STRINGS, WORDS

COMPARED = {"EQU": "EQUI", "NEQ": "NEQI", "LEQ": "LEQI", "LES": "LESI", "GEQ": "GEQI",
            "GRT": "GRTI"}
REAL_ROUTINES = {"ADR": "ADDREALS", "SBR": "SUBREALS", "MPR": "MULREALS", "DVR": "DIVREALS",
                 "ABR": "WITHOUTSIGN", "NGR": "NEGATED", "SQR": "SQUARED", "FLT": "FLOATED"}
MAIN = {"SLDO": "LDO", "LDO": "LDO", "SRO": "SRO", "LAO": "LAO"}
LOCAL = {"SLDL": "LDO", "LDL": "LDO", "STL": "SRO", "LLA": "LAO"}  # of the program's own frame
AROUND = {"LOD": "LDO", "STR": "SRO", "LDA": "LAO"}
EXTERN = {"LDE": "LDO", "STE": "SRO", "LAE": "LAO"}
MOST_SHORT, MOST_RESULT, MANY = 16, 2, 8
JUMPS = ("UJP", "FJP", "EFJ", "NFJ")
HALT = 39


def name_of(at):
    """The label of an old offset."""
    return f"O{at}"


class Writer(Sets, System):
    """Writes one procedure. `program` is the whole translation."""

    def __init__(self, program, segment, procedure):
        self.program, self.segment, self.procedure = program, segment, procedure
        self.machine, self.has_files = program.machine, program.has_files
        self.key = segment.number, procedure.number
        self.code, self.notes = program.code[self.key], program.notes[self.key]
        self.out = Output()
        self.skipped = set()
        self.order = list(self.code)
        self.index = {at: number for number, at in enumerate(self.order)}
        self.targets = {target for it in self.code.values() for target in it.targets()}
        self.targets |= {procedure.enter, procedure.exit, *self.passed_over()}

    def passed_over(self):
        """The offsets behind instructions that do not stand in front of the next one: they lead
        into another, or past one that overlaps them."""
        for it, behind in zip(self.code.values(), [*self.order[1:], None]):
            if it.name not in LAST and it.after != behind:
                yield it.after

    def place(self, at=None):
        return self.segment.place._replace(procedure=self.procedure.number, offset=at)

    def refuse(self, text, it):
        raise Fault(text, self.place(it.at))

    # The whole procedure

    def written(self):
        for at, it in self.code.items():
            if at not in self.skipped:
                self.instruction(at, it)
        labels = self.out.labels
        labels["enter"] = labels[name_of(self.procedure.enter)]
        number, procedure = self.program.numbers[self.key], self.procedure
        level = 0 if number == 1 else procedure.level
        return Procedure(self.place(), number, f"{self.segment.name}_{procedure.number}", level,
                         procedure.params, procedure.data, self.out.lines, labels)

    def instruction(self, at, it):
        self.out.place = self.place(at)
        if at in self.targets:
            self.out.set(name_of(at))
        if at == self.procedure.exit:
            self.out.set("exit")
            self.arrived()
        if at in self.notes.before:
            self.translate(it)
        if it.name not in LAST and not self.is_next(it):
            self.out.emit("UJP", name_of(it.after))

    def is_next(self, it):
        """Whether what comes behind an instruction is written next."""
        where = self.index[it.at] + 1
        while where < len(self.order) and self.order[where] in self.skipped:
            where += 1
            it = self.code[self.order[where - 1]]
        return where < len(self.order) and self.order[where] == it.after

    def next(self, it=None):
        """The instruction that comes behind one, if no jump leads to it."""
        at = (it or self.current).after
        return self.code.get(at) if at not in self.targets else None

    def skip(self, it):
        self.skipped.add(it.at)

    def translate(self, it):
        self.current = it
        name = it.name
        if name in COMPARED:
            self.compare(it)
        elif name in MAIN:
            self.main_word(MAIN[name], it.operands[0])
        elif name in LOCAL and self.procedure.level == 0:
            self.main_word(LOCAL[name], it.operands[0])
        elif name in JUMPS:
            self.out.emit(name, name_of(it.operands[0]))
        elif name in REAL_ROUTINES:
            self.call(REAL_ROUTINES[name])
        elif name in EXTERN:
            self.extern(it)
        elif name in AROUND:
            self.around(it)
        elif hasattr(self, name.lower()):
            getattr(self, name.lower())(it)
        else:
            self.out.emit(name, *it.operands)

    # Words

    def main_word(self, name, offset):
        offset += self.program.shift
        self.out.emit("SLDO" if name == "LDO" and offset <= MOST_SHORT else name, offset)

    def around(self, it):
        """A word of a procedure around: that of the program is in the main frame."""
        levels, offset = it.operands
        element = Console(None, it.at)
        if levels > self.procedure.level:
            if it.name != "LOD" or levels != self.procedure.level + 1 or offset not in (2, 3, 4):
                self.refuse(f"{it.name} {levels},{offset}: it uses a variable of the system", it)
            if element.at in self.notes.pushed:
                self.out.number({2: 1, 3: 1, 4: 2}[offset])
        elif levels == self.procedure.level:
            self.main_word(AROUND[it.name], offset)
        elif levels == 0:
            self.out.emit({"LOD": "LDL", "STR": "STL", "LDA": "LLA"}[it.name], offset)
        else:
            self.out.emit(it.name, levels, offset)

    def sind(self, it):
        number = self.notes.windows.get(it.at)
        if number is None:
            self.out.emit("SIND", *it.operands)
        else:
            self.out.emit("LAO", self.machine.variable("WINDOW") + number - 1)

    def extern(self, it):
        """A word of an intrinsic unit's data segment."""
        number, offset = it.operands
        base = self.program.data_base(number, offset)
        if base is None:
            self.refuse(f"the data segment {number} of an intrinsic unit is not in the file", it)
        self.out.emit(EXTERN[it.name], base + offset)

    def xjp(self, it):
        low, high, *targets = it.operands
        self.out.emit("XJP", low, high, *(to if to == "-" else name_of(to) for to in targets))

    def bpt(self, it):
        """A line of the text for a debugger."""

    # Constants

    def constant(self, words):
        """Words that are known are pushed."""
        if len(words) > 2:
            self.out.many(f"LAO {self.machine.text(words)}", f"LDM {len(words)}")
        else:
            for word in reversed(words):
                self.out.number(word - 65536 * (word > 32767))

    def ldc(self, it):
        words = it.operands[0][::-1]  # in the order of memory
        length = self.next()
        is_length = length and length.name == "SLDC" and length.operands == [len(words)]
        if words and is_length and self.is_tested(len(words)):
            ends = self.is_range(words)
            if ends and ends[0] >= 0:
                self.within(*ends)
                return
            self.out.emit("LAO", self.machine.text(words))
            self.tested(len(words))
        else:
            if len(words) == 2 and not is_length:
                words = self.program.real_words(words)
            self.constant(words)

    def ldm(self, it):
        if self.is_tested(it.operands[0]):
            self.tested(it.operands[0])
        else:
            self.out.emit("LDM", it.operands[0])

    def lsa(self, it):
        characters = it.operands[0]
        stored = self.next()
        data = bytes([len(characters)]) + characters
        if stored and stored.name == "SAS" and len(characters) <= stored.operands[0]:
            self.store_text(data)
            self.skip(stored)
        else:
            self.text(data)

    def store_text(self, data):
        """A text that is known goes to the address on the top, and not a byte more."""
        last, one = len(data) - 1, self.machine.variable("RTONE")
        if len(data) % 2 and last:
            self.out.many(f"SRO {one}", f"LDO {one}")
        if last:
            self.text(data)
            self.out.emit("MOV", len(data) // 2)
        if len(data) % 2:
            if last:
                self.out.emit("LDO", one)
            for number in (last, data[last]):
                self.out.number(number)
            self.out.emit("STB")

    def lpa(self, it):
        self.text(it.operands[0])

    def text(self, data):
        data += bytes(len(data) % 2)
        words = [data[k] + 256 * data[k + 1] for k in range(0, len(data), 2)]
        self.out.emit("LAO", self.machine.text(words))

    # Strings and comparisons

    def sas(self, it):
        source = self.notes.sources[it.at]
        if source == CHARACTER:
            self.call("RTCHARACTER")
            return
        self.out.number(it.operands[0])
        self.call("RTASSIGN" if source == ADDRESS else "RTEITHER")

    def ixs(self, it):
        """The index is looked at, and both words stay."""
        one, two = self.machine.variable("RTONE"), self.machine.variable("RTTWO")
        self.out.emit("CGP", self.machine.own("IXS", lambda: self.indexing(one, two)))

    def indexing(self, one, two):
        out = Output(self.machine.place)
        out.many(f"SRO {one}", f"SRO {two}", f"LDO {two}", f"LDO {one}", "SLDC 1", f"LDO {two}",
                 "SLDC 0", "LDB", "CHK")
        out.set("exit")
        out.emit("RNP", 0)
        return 0, out.lines, out.labels

    def compare(self, it):
        kind, (plain, zero) = it.operands[0], (COMPARED[it.name], "SLDC 0")
        if kind == BOOLEANS:
            self.out.emit(it.name, BOOLEANS)
        elif kind == SETS:
            self.compare_sets(it)
        elif kind == STRINGS and it.name in ("EQU", "NEQ"):
            self.call("SAMETEXT")
            if it.name == "NEQ":
                self.out.many(zero, "EQUI")
        elif kind in (STRINGS, REALS):
            self.call("COMPARE" if kind == STRINGS else "COMPAREREALS")
            self.out.many(zero, plain)
        elif kind == BYTES:
            self.out.number(it.operands[1])
            self.call("RTSAMEBYTES")
            self.out.many(zero, plain)
        else:
            self.compare_words(it)

    def compare_words(self, it):
        assert it.operands[0] == WORDS
        if it.name not in ("EQU", "NEQ"):
            self.refuse("arrays or records are compared by their order", it)
        self.out.number(it.operands[1])
        self.call("RTSAMEWORDS")
        if it.name == "NEQ":
            self.out.many("SLDC 0", "EQUI")

    def flo(self, it):
        """The number below a REAL becomes a REAL."""
        one, two = self.machine.variable("RTONE"), self.machine.variable("RTTWO")
        self.out.many(f"SRO {one}", f"SRO {two}")
        self.call("FLOATED")
        self.out.many(f"LDO {two}", f"LDO {one}")

    # Calls and EXIT

    def clp(self, it):
        self.out.emit(*self.program.call_of(self.key, it))
        self.after_call(it)

    cgp = cip = clp

    def cxp(self, it):
        if it.operands[0] == 0:
            self.system_call(it)
        else:
            self.clp(it)

    def rnp(self, it):
        if self.procedure.level == 0:
            self.out.emit("RBP", 0)
            return
        if it.operands[0] > MOST_RESULT:
            self.refuse(f"a function gives {it.operands[0]} words, and 2 are the most", it)
        self.out.emit("RNP", it.operands[0])

    def rbp(self, it):
        if self.procedure.level:
            self.refuse("RBP stands in a procedure that is not the program", it)
        self.out.emit("RBP", 0)

    def xit(self, it):
        if self.procedure.level == 0:
            self.out.emit("RBP", 0)
        else:
            self.out.emit("CSP", HALT)

    def leaving(self):
        return self.machine.variable("LEAVING")

    def arrived(self):
        """An EXIT that names this procedure is over here. In the program one that is still under
        way names a procedure that nobody called."""
        number = self.program.numbers[self.key]
        if self.key not in self.program.asked and (number != 1 or not self.program.asked):
            return
        over = self.out.label()
        self.out.emit("LDO", self.leaving())
        if number == 1:
            self.out.many("SLDC 1", "GRTI", f"FJP {over}", f"CSP {HALT}")
        else:
            self.out.number(number)
            self.out.many(f"EFJ {over}", "SLDC 0", f"SRO {self.leaving()}")
        self.out.set(over)

    def after_call(self, it):
        """Behind a call that may end more than itself: goes to the end of this one if it did."""
        callee = self.program.callee(self.key, it)
        if not self.program.leaves[callee] - {callee}:
            return
        stack = self.stack_behind(it)
        self.out.many(f"LDO {self.leaving()}", "SLDC 0")
        if not stack:
            self.out.emit("EFJ", "exit")
            return
        on = self.out.label()
        self.out.emit("NFJ", on)
        self.drop(stack)
        self.out.emit("UJP", "exit")
        self.out.set(on)

    def stack_behind(self, it):
        """The elements on the stack behind an instruction, without the files that no word is
        pushed for."""
        shape = self.notes.before.get(it.after, ())
        return self.there(shape)

    def there(self, shape):
        return [el for el in shape
                if not (isinstance(el, Console) and el.at not in self.notes.pushed)]

    def exit(self, it):
        target = self.notes.exits[it.at]
        if not self.out.take_back(2):
            self.drop_words(2)
        if target not in self.program.numbers:
            self.refuse(f"an EXIT names procedure {target[1]} of segment {target[0]}, which is not "
                        "in the file", it)
        if target != self.key:
            self.out.number(self.program.numbers[target])
            self.out.emit("SRO", self.leaving())
        self.drop(self.there(self.notes.before[it.at][:-2]))
        self.out.emit("UJP", "exit")

    def drop(self, stack):
        """Takes elements off the stack."""
        for element in reversed(stack):
            if size_of(element) is None:
                self.take(None, "RTUPPER")
            else:
                self.drop_words(size_of(element))

    def drop_words(self, count):
        if count <= MANY:
            for _ in range(count):
                self.out.emit("SRO", self.machine.variable("RTONE"))
        else:
            self.out.emit("CGP", self.machine.own(f"DROP {count}", lambda: dropping(count)))


def dropping(count):
    """A procedure that takes its parameters and does nothing."""
    out = Output()
    out.set("exit")
    out.emit("RNP", 0)
    return count, out.lines, out.labels
