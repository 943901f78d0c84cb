"""Statements."""

from ..checking import tree
from ..checking.types import REAL
from .blocks import Blocks
from .exits import nodes_of
from .places import Frame
from .texts import cost, packed, words_of

# Of a table for CASE: the words that lead nowhere, for each constant.
MOST_SPARE = 8
# Characters that are written at once, as the library's SCRATCH has room; fewer go one by one.
SCRATCH, FEW = 80, 3
# Where the library's procedures have the words of a text that they write.
WRITTEN = {"PUTTEXT": "SCRATCH", "PUTWORDS": "SYMBOLS"}
WRITING = 8  # bytes of what writes a text beside its words, about

# The method for each statement.
DONE = {tree.Block: "block", tree.Assign: "assign", tree.MoveWords: "move_words",
        tree.StoreText: "store_text", tree.WriteText: "write_text", tree.Perform: "perform",
        tree.Transfer: "transfer", tree.Exit: "exit", tree.If: "if_statement",
        tree.While: "while_statement", tree.Repeat: "repeat", tree.For: "for_statement",
        tree.Case: "case", tree.With: "with_statement", tree.Goto: "goto",
        tree.Labelled: "labelled"}


class Statements(Blocks):
    def statement(self, node):
        if not isinstance(node, tree.Block):
            self.code.place = node.place
        self.with_temporaries(getattr(self, DONE[type(node)]), node)
        assert self.code.depth == 0, "a statement leaves words on the evaluation stack"

    def perform(self, node):
        self.push(node.value)

    def with_temporaries(self, make, node):
        """Makes the code of a node. The temporaries that it takes are free again behind."""
        top = self.top
        make(node)
        self.top = top

    def temporary(self, words):
        """Words of the frame for the time of a statement."""
        offset = self.top + 1
        self.top += words
        self.most = max(self.most, self.top)
        return Frame(self.routine, offset)

    def block(self, node):
        for statement in node.statements:
            self.statement(statement)

    def assign(self, node):
        place = self.place(node.location)
        self.prepare(place)
        self.push(node.value)
        if node.location.type is REAL:
            self.store_words_of(place, REAL.size)
        else:
            self.store(place)

    def move_words(self, node):
        self.push_address(self.place(node.location))
        self.push(node.source)
        self.code.emit("MOV", node.words)

    def store_text(self, node):
        self.push_address(self.place(node.location))
        self.put_text(node.text)

    def write_text(self, node):
        parts = [node.text[k:k + SCRATCH] for k in range(0, len(node.text), SCRATCH)]
        size = sum(cost(self.written_words(it)[1]) + WRITING for it in parts)
        routine = self.program.texts.writer(node, size, len(self.program.routines))
        if routine and routine is not self.routine:
            self.enter(routine)
            return
        for part in parts:
            if len(part) <= FEW:
                for character in part:
                    self.code.number(ord(character))
                    self.call_library("PUTCHAR")
                continue
            writer, words, count = self.written_words(part)
            variable = self.program.library[WRITTEN[writer]]
            self.store_words(Frame(variable.routine, self.offset_of(variable)), words)
            self.code.number(count)
            self.call_library(writer)

    def written_words(self, part):
        """What writes a part of a text: a procedure of the library, the words for it, and what
        their number is to it."""
        words = words_of(part)
        if self.program.is_packed:
            smaller = packed(part, self.program.line_end)
            if smaller and cost(smaller) < cost(words):
                return "PUTWORDS", smaller, len(smaller)
        return "PUTTEXT", words, len(part)

    def transfer(self, node):
        for value in node.values:
            self.push(value)
        self.code.emit("CSP", node.procedure)

    # Jumps

    def exit(self, node):
        if node.routine is not self.routine:
            self.code.number(self.program.number_of(node.routine))
            self.store(self.leaving())
        self.code.emit("UJP", "exit")

    def goto(self, node):
        self.code.emit("UJP", f"G{node.label}")

    def labelled(self, node):
        self.code.set(f"G{node.label}")
        self.statement(node.statement)

    def if_statement(self, node):
        code = self.code
        if isinstance(node.test, tree.Constant):
            kept, dropped = node.yes, node.no
            if not node.test.value & 1:
                kept, dropped = dropped, kept
            if not any(isinstance(it, tree.Labelled) for it in nodes_of([dropped])):
                self.statement(kept or tree.Block([]))
                return
        otherwise = code.label()
        self.jump_unless(node.test, otherwise)
        self.statement(node.yes)
        if node.no:
            end = code.label()
            code.emit("UJP", end)
            code.set(otherwise)
            self.statement(node.no)
            code.set(end)
        else:
            code.set(otherwise)

    def while_statement(self, node):
        code = self.code
        again, end = code.label(), code.label()
        code.set(again)
        self.jump_unless(node.test, end)
        self.statement(node.body)
        code.emit("UJP", again)
        code.set(end)

    def repeat(self, node):
        again = self.code.label()
        self.code.set(again)
        self.statement(node.body)
        self.code.place = node.until
        self.jump_unless(node.test, again)

    def for_statement(self, node):
        """The variable is compared, and then counted: behind the loop it is one beyond the limit.
        The limit is worked out once."""
        code, limit = self.code, node.limit
        self.assign(tree.Assign(node.place, node.location, node.start))
        if not isinstance(limit, tree.Constant):
            kept = self.temporary(1)
            self.push(limit)
            self.store(kept)
        again, end = code.label(), code.label()
        code.set(again)
        self.load(self.place(node.location))
        if isinstance(limit, tree.Constant):
            code.number(limit.value)
        else:
            self.load(kept)
        code.emit("GEQI" if node.is_down else "LEQI")
        code.emit("FJP", end)
        self.statement(node.body)
        code.place = node.place
        step = ("SBI",) if node.is_down else ("ADI",)
        variable = tree.Load(node.location.type, node.location)
        one = tree.Constant(None, 1)
        self.assign(tree.Assign(node.place, node.location,
                                tree.Operation(None, step, [variable, one])))
        code.emit("UJP", again)
        code.set(end)

    def with_statement(self, node):
        """The address of each record is worked out once, and kept if it is not known."""
        for opening in node.openings:
            place = self.place(opening.base)
            opening.is_frame = isinstance(place, Frame)
            if not opening.is_frame:
                self.push_address(place)
                place = self.temporary(1)
                self.store(place)
            opening.temporary = place
        self.statement(node.body)

    # CASE

    def case(self, node):
        values = [value for some, _ in node.branches for value in some]
        spread = max(values) - min(values) + 1
        if spread <= MOST_SPARE * (len(values) + 1):
            self.case_by_table(node, min(values), max(values))
        else:
            self.case_by_tests(node)

    def case_by_table(self, node, low, high):
        """The branches come first, since an XJP's words lead back alone."""
        code = self.code
        table, end, where = code.label(), code.label(), {}
        self.push(node.selector)
        code.emit("UJP", table)
        code.depth -= 1  # in the branches the selector is gone
        for some, body in node.branches:
            label = code.label()
            code.set(label)
            where.update((value, label) for value in some)
            self.statement(body)
            code.emit("UJP", end)
        code.place = node.place
        code.set(table)
        code.depth += 1
        labels = [where.get(value, "-") for value in range(low, high + 1)]
        code.emit("XJP", low, high, end, *labels)
        code.set(end)

    def case_by_tests(self, node):
        code, end = self.code, self.code.label()
        kept = self.temporary(1)
        self.push(node.selector)
        self.store(kept)
        for some, body in node.branches:
            here, other = code.label(), code.label()
            code.place = node.place
            for k, value in enumerate(some):
                self.load(kept)
                code.number(value)
                is_last = k + 1 == len(some)
                code.emit("EFJ" if is_last else "NFJ", other if is_last else here)
            code.set(here)
            self.statement(body)
            code.emit("UJP", end)
            code.set(other)
        code.set(end)
