"""Checks statements."""

from ..parsing import syntax
from . import tree
from .context import kind_of, low_bit, number
from .input_output import InputOutput
from .locations import is_word
from .symbols import OpenedField, Routine, Standard, Variable
from .types import BOOLEAN, REAL, WORD, File, Long, Record, Set, String, is_ordinal, with_article

# The method for each statement.
STATEMENTS = {syntax.Compound: "compound", syntax.Assign: "assign",
              syntax.CallStatement: "call_statement", syntax.If: "if_statement",
              syntax.While: "while_statement", syntax.Repeat: "repeat",
              syntax.For: "for_statement", syntax.Case: "case", syntax.With: "with_statement",
              syntax.Goto: "goto", syntax.Labelled: "labelled"}


def has_same_room(text, location):
    """Whether a string is a variable of the same declared length as the one that it is assigned to,
    so that all of its words may be moved. What a VAR parameter names may have less room."""
    places = [text.location, location] if isinstance(text, tree.Load) else []
    return bool(places) and text.type.most == location.type.most and not any(
        isinstance(it, tree.VariableAt) and it.variable.is_address for it in places)


def is_calm(value):
    """Whether a value calls nothing: variables, numbers, and what is made of these."""
    if isinstance(value, tree.Operation):
        return all(map(is_calm, value.operands))
    if isinstance(value, tree.Load):
        return isinstance(value.location, tree.VariableAt)
    return isinstance(value, tree.Constant)


def is_one_more(node, value):
    """Whether a set variable gets itself and one element more or less, which is not known."""
    target, source = node.target, node.value
    if not isinstance(value, tree.SetOperation) or not isinstance(value.right, tree.SetValue):
        return False
    is_itself = (isinstance(target, syntax.Name) and isinstance(source.left, syntax.Name)
                 and target.name == source.left.name and source.operator in ("+", "-"))
    parts = value.right.parts
    return (is_itself and len(parts) == 1 and parts[0][1] is None
            and not isinstance(parts[0][0], tree.Constant) and is_calm(parts[0][0]))


class Statements(InputOutput):
    def statement(self, node):
        """The checked tree of a statement; of one with a fault an empty block."""
        checked = tree.Block([])
        if node is None:
            return checked
        with self.faults.caught():
            checked = getattr(self, STATEMENTS[type(node)])(node)
        return checked

    def compound(self, node):
        return self.block_of(node.statements)

    def block_of(self, statements):
        return tree.Block([self.statement(it) for it in statements])

    # Assignments

    def assign(self, node):
        location = self.assigned(node.target)
        if isinstance(location.type, File):
            self.refuse("a file is not assigned: RESET and REWRITE open it", node.place)
        value, kind = self.value(node.value), location.type
        if is_word(kind):
            value = self.fitted(value, kind, node.value, node.place.is_checked)
            return tree.Assign(node.place, location, value)
        if isinstance(kind, Long):
            return self.long_assigned(node.place, location, self.long(value, node.value))
        if kind is REAL:
            return tree.Assign(node.place, location, self.real(value, node.value))
        if isinstance(kind, String):
            most, text = tree.Constant(None, kind.most), self.string(node.value)
            if has_same_room(text, location):
                return tree.MoveWords(node.place, location, tree.Address(text.location), kind.size)
            if isinstance(text, tree.TextValue) and len(text.text) <= kind.most:
                return tree.StoreText(node.place, location, chr(len(text.text)) + text.text)
            source = tree.StringAddress(text)
            return self.perform(node, "ASSIGN", tree.Address(location), source, most)
        if isinstance(kind, Set) and not isinstance(value.type, Set):
            self.refuse_type(node.value, value.type, with_article(kind))
        if is_one_more(node, value):
            return self.one_element(node, value, location)
        source = self.block_or_word(value, kind, node.value)
        if isinstance(source, tree.TextValue):
            return tree.StoreText(node.place, location, source.text)
        return tree.MoveWords(node.place, location, source, kind.size)

    def one_element(self, node, value, location):
        """S := S + [X] and S := S - [X]."""
        self.need_set(node.value, value, location.type)
        (element, _), = value.right.parts
        last = number(WORD * location.type.size - 1)
        where = tree.Address(location)
        is_in = tree.Constant(BOOLEAN, int(node.value.operator == "+"))
        return self.perform(node, "PUTELEMENT", where, element, last, is_in)

    def assigned(self, node):
        """The location of an assignment: a variable, or the value of the function around it."""
        symbol = self.scopes.find(node) if isinstance(node, syntax.Name) else None
        if not isinstance(symbol, Routine):
            return self.location(node)
        around = self.routine
        while around and around is not symbol:
            around = around.parent
        if not around or not symbol.result:
            self.refuse(f"{node.written} is {kind_of(symbol)}: it gets a value within a function "
                        "of that name alone", node.place)
        return tree.VariableAt(symbol.result, Variable(symbol.result, symbol, 1))

    def call_statement(self, node):
        call = node.call
        if isinstance(call, syntax.Name):
            call = syntax.Call(call.place, call, [])
        symbol = self.scopes.find(call.name)
        if isinstance(symbol, Standard):
            return self.standard_procedure(symbol.name, call)
        if not isinstance(symbol, Routine) or not symbol.level:
            missing = ": := is missing" if isinstance(symbol, (Variable, OpenedField)) else ""
            self.refuse(f"{call.name.written} is {kind_of(symbol)}, and a procedure is wanted "
                        f"here{missing}", node.place)
        if symbol.result:
            self.refuse(f"{call.name.written} is a function: its value goes nowhere", node.place)
        return tree.Perform(node.place, self.routine_call(symbol, call.name, call.arguments))

    # Choices and loops

    def if_statement(self, node):
        test = tree.Constant(None, 0)
        with self.faults.caught():
            test = self.boolean(node.test)
        return tree.If(node.place, test, self.statement(node.yes),
                       self.statement(node.no) if node.no else None)

    def while_statement(self, node):
        test = tree.Constant(None, 0)
        with self.faults.caught():
            test = self.boolean(node.test)
        return tree.While(node.place, test, self.statement(node.body))

    def repeat(self, node):
        body = self.block_of(node.statements)
        return tree.Repeat(node.place, body, self.boolean(node.test), node.test.place)

    def for_statement(self, node):
        name, is_checked = node.variable, node.place.is_checked
        symbol = self.scopes.find(name)
        if not isinstance(symbol, Variable) or not is_ordinal(symbol.type):
            self.refuse(f"{name.written} is {kind_of(symbol)}, and FOR counts in a variable of "
                        "numbers, characters or names of a list", name.place)
        location, kind = tree.VariableAt(symbol.type, symbol), symbol.type
        start = self.fitted(self.value(node.start), kind, node.start, is_checked)
        limit = self.ordered(node.limit)
        self.need(node.limit, limit.type, kind.host)
        body = self.statement(node.body)
        return tree.For(node.place, location, low_bit(start), limit, node.is_down, body)

    def case(self, node):
        selector = self.ordered(node.selector)
        branches, seen = [], {}
        for constants, body in node.branches:
            values = []
            for constant in constants:
                symbol = self.ordinal_constant(constant)
                self.need(constant, symbol.type, selector.type.host)
                if symbol.value in seen:
                    self.refuse(f"{symbol.type.shown(symbol.value)} stands in this CASE already, "
                                f"in line {seen[symbol.value]}", constant.place)
                seen[symbol.value] = constant.place.line
                values.append(symbol.value)
            branches.append((values, self.statement(body)))
        if not branches:
            self.refuse("this CASE has no constants", node.place)
        return tree.Case(node.place, selector, branches)

    def with_statement(self, node):
        openings, opened = [], 0
        try:
            for record in node.records:
                location = self.location(record)
                if not isinstance(location.type, Record):
                    self.refuse_type(record, location.type, "a RECORD")
                opening = tree.Opening(location.type, location)
                fields = location.type.fields.items()
                self.scopes.open({name: OpenedField(opening, it) for name, it in fields})
                opened += 1
                openings.append(opening)
            return tree.With(node.place, openings, self.statement(node.body))
        finally:
            for _ in range(opened):
                self.scopes.close()

    # Labels

    def goto(self, node):
        self.find_label(node)
        if self.routine.labels[node.label] == "declared":
            self.routine.labels[node.label] = node.place
        return tree.Goto(node.place, node.label)

    def labelled(self, node):
        self.find_label(node)
        if self.routine.labels[node.label] == "set":
            self.refuse(f"the label {node.label} stands twice in {self.routine.name}", node.place)
        self.routine.labels[node.label] = "set"
        return tree.Labelled(node.place, node.label, self.statement(node.statement))

    def find_label(self, node):
        if node.label not in self.routine.labels:
            self.refuse(f"the label {node.label} is not declared in {self.routine.name}: GOTO "
                        "stays within a procedure", node.place)

    def check_labels(self):
        for label, state in self.routine.labels.items():
            if state not in ("declared", "set"):
                with self.faults.caught():
                    self.refuse(f"the label {label} stands in front of no statement", state)
