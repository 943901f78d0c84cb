"""Random programs that say what they do, for two compilers.

All variables are set before they are read, loops end, and each call costs fuel, so that a program
ends. About half of the programs are compiled with checks of ranges, and some of these break one."""

import random
from dataclasses import dataclass, field
from typing import List

from .random_types import CHAR, INTEGER, Types, Variable
from .random_values import Values

LOOPS = ["I0", "I1", "I2"]
COUNTERS = ["Z0", "Z1", "Z2", "Z3"]
FUEL = 40


@dataclass
class Routine:
    name: str
    parameters: List[tuple] = field(default_factory=list)  # pairs: whether it is VAR, and the type


@dataclass
class Program:
    ucsd: str
    free: str  # for Free Pascal
    given: str  # the input


class Generator(Values):
    def __init__(self, seed):
        self.random = random.Random(seed)
        self.types = Types(self.random)
        self.is_checked = self.random.random() < 0.5
        self.wild = self.random.choice(["index", "division", None]) if self.is_checked else None
        self.lines, self.functions, self.procedures = [], [], []
        self.count = self.size = 0

    def line(self, text):
        self.lines.append(text)

    # Statements. `loops` are the variables that no loop around uses.

    def statements(self, variables, depth, loops, least=1, most=4):
        for _ in range(self.random.randint(least, most if depth < 3 else 2)):
            self.statement(variables, depth, loops)

    def block(self, variables, depth, loops, end=";"):
        self.line("BEGIN")
        self.statements(variables, depth + 1, loops)
        self.line(f"END{end}")

    def statement(self, variables, depth, loops):
        self.size += 1
        makers = [self.assign] * 6 + [self.write] * 2 + [self.move, self.call, self.strings]
        if depth < 4 and self.size < 120:
            makers += [self.choice] * 2 + [self.case] * 2 + [self.loop] * 3 + [self.opened]
        self.random.choice(makers)(variables, depth, loops)

    def assign(self, variables, _depth, _loops):
        kinds = [self.types.simple()] * 4 + [self.types.string, self.types.set, self.types.numbers]
        kind = self.random.choice(kinds)
        target = self.place(kind, variables, is_written=True)
        if target:
            self.line(f"{target} := {self.value(kind, variables)};")

    def move(self, variables, _depth, _loops):
        """A whole array or record."""
        kind = self.random.choice(self.types.blocks)
        target = self.place(kind, variables, is_written=True)
        source = self.place(kind, variables)
        if target and kind is self.types.characters and self.random.random() < 0.4:
            letters = "".join(self.random.choice("KLMNOP") for _ in range(kind.high))
            self.line(f"{target} := '{letters}';")
        elif target and source:
            self.line(f"{target} := {source};")

    def strings(self, variables, _depth, _loops):
        """What both have in common: nothing that lies outside or has no room."""
        target = self.place(self.types.string, variables, is_written=True)
        if not target:
            return
        other = self.place(self.types.string, variables) or target
        at, count = self.random.randint(1, 5), self.random.randint(1, 4)
        self.line(self.random.choice([
            f"IF LENGTH({target}) + LENGTH({other}) <= 18 THEN "
            f"{target} := CONCAT({target}, 'pq', {other});",
            f"IF LENGTH({other}) >= {at + count} THEN {target} := COPY({other}, {at}, {count});",
            f"IF LENGTH({target}) >= {at + count} THEN DELETE({target}, {at}, {count});",
            f"IF (LENGTH({target}) + LENGTH({other}) <= 20) AND (LENGTH({target}) >= {at}) THEN "
            f"INSERT({other}, {target}, {at});",
            f"IF LENGTH({target}) >= {at} THEN {target}[{at}] := "
            f"{self.character(variables, 2)};",
        ]))

    def write(self, variables, _depth, _loops):
        items = []
        for _ in range(self.random.randint(1, 4)):
            width = f":{self.random.randint(1, 12)}" if self.random.random() < 0.3 else ""
            long = f":{self.random.randint(20, 30)}" if width else ""
            items.append(self.random.choice([
                lambda: self.number(variables, 1) + width,
                lambda: self.character(variables, 1) + width,
                lambda: f"({self.boolean(variables, 1)}){width}",
                lambda: self.literal() + long, lambda: self.text(variables, 1) + long,
                lambda: (self.place(self.types.characters, variables) or "'  '") + long,
            ])())
        self.line(f"WRITE{self.random.choice(['', 'LN'])}({', '.join(items)});")

    def call(self, variables, _depth, _loops):
        text = self.call_of(self.procedures, variables, 1)
        if text:
            self.line(f"{text};")

    def call_of(self, routines, variables, depth):
        if not routines:
            return None
        routine = self.random.choice(routines)
        given = []
        for is_var, kind in routine.parameters:
            if is_var or not (kind.is_simple or kind.form in ("string", "set")):
                given.append(self.place(kind, variables, is_var, is_var, depth + 1))
            else:
                given.append(self.value(kind, variables, depth + 1))
        if None in given:
            return None
        return routine.name + (f"({', '.join(given)})" if given else "")

    def choice(self, variables, depth, loops):
        self.line(f"IF {self.boolean(variables)} THEN")
        has_other = self.random.random() < 0.5
        self.block(variables, depth, loops, "" if has_other else ";")
        if has_other:
            self.line("ELSE")
            self.block(variables, depth, loops)

    def case(self, variables, depth, loops):
        low = self.random.choice([0, 1, -4, 7])
        labels, selector = self.random.choice([
            lambda: ([str(it) for it in range(low, low + 8)],
                     self.bounded(low - 1, low + 9, variables, 1)),
            lambda: (["-30000", "-7", "0", "1", "300", "32767"],
                     f"@({self.number(variables, 1)} + 0)"),
            lambda: ([f"'{chr(it)}'" for it in range(65, 91)], self.character(variables, 1)),
            lambda: (list(self.types.names), self.name(variables, 1)),
        ])()
        self.random.shuffle(labels)
        del labels[self.random.randint(2, 9):]
        cut = self.random.randint(1, len(labels))
        self.line(f"CASE {selector} OF")
        for some in (labels[:cut], labels[cut:]):
            if some:
                self.line(f"{', '.join(some)}:")
                self.block(variables, depth, loops)
        self.line("END;")

    def loop(self, variables, depth, loops):
        if not loops:
            return
        name, rest = loops[0], loops[1:]
        inner = variables + [Variable(name, INTEGER, False)]
        chance = self.random.random()
        if chance < 0.6:
            first, is_down = self.random.randint(-3, 5), self.random.random() < 0.4
            last = first + self.random.randint(-1, 4) * (-1 if is_down else 1)
            limit = str(last) if chance < 0.3 else self.bounded(min(first, last),
                                                                max(first, last), variables, 2)
            self.line(f"FOR {name} := {first} {'DOWNTO' if is_down else 'TO'} {limit} DO")
            self.block(inner, depth, rest)
            return
        self.line(f"{name} := 4;")
        if chance < 0.8:
            self.line(f"WHILE ({name} > 0) AND ({self.boolean(variables, 1)}) DO")
        self.line("BEGIN" if chance < 0.8 else "REPEAT")
        self.line(f"{name} := {name} - 1;")
        self.statements(inner, depth + 1, rest)
        test = f"({name} <= 0) OR ({self.boolean(variables, 1)})"
        self.line("END;" if chance < 0.8 else f"UNTIL {test};")

    def opened(self, variables, depth, loops):
        """WITH, of a record none of whose fields is hidden by one around."""
        records = [it for it in self.types.blocks if it.form == "record"]
        if not records or any(it.name.startswith("F") and it.name[1:].isdigit()
                              for it in variables):
            return
        kind = self.random.choice(records)
        target = self.place(kind, variables, is_written=True)
        if target:
            fields = [Variable(name, part, True, kind.is_packed and part.is_simple)
                      for name, part in kind.fields]
            self.line(f"WITH {target} DO")
            self.block(variables + fields, depth, loops)

    # Variables

    def variables(self, count, prefix):
        some = [self.types.string, self.types.set, self.types.numbers] + self.types.blocks
        return [Variable(f"{prefix}{k}", self.random.choice(some) if self.random.random() < 0.4
                         else self.types.simple()) for k in range(count)]

    def declare(self, variables):
        self.line("VAR")
        for it in variables:
            self.line(f"{it.name}: {it.kind.text};")
        self.line(f"{', '.join(LOOPS + COUNTERS)}: INTEGER;")

    def each(self, text, kind, do, level=0):
        """Does something with each simple value of a variable."""
        if kind.form == "array" and kind.index:
            for name in self.types.names:
                self.each(f"{text}[{name}]", kind.element, do, level)
        elif kind.form == "array":
            self.line(f"FOR {COUNTERS[level]} := {kind.low} TO {kind.high} DO BEGIN")
            self.each(f"{text}[{COUNTERS[level]}]", kind.element, do, level + 1)
            self.line("END;")
        elif kind.form == "record":
            for name, part in kind.fields:
                self.each(f"{text}.{name}", part, do, level)
        else:
            do(text, kind)

    def set_out(self, text, kind):
        known = {"bool": "FALSE", "enum": self.types.names[0], "string": "'abc'", "set": "[]"}
        low = max(kind.low, -32767)
        number = str(self.random.randint(low, kind.high))
        character = f"'{self.random.choice('abcXYZ')}'"
        value = known.get(kind.form) or (character if kind.form == "char" else number)
        self.line(f"{text} := {value};")

    def show(self, text, kind):
        if kind.form == "set":
            for k in range(kind.high + 1) if kind.high < 10 else (0, 1, 7, kind.high):
                element = self.types.names[k] if kind is self.types.set else str(k)
                self.line(f"WRITE({element} IN {text});")
        else:
            self.line(f"WRITE({f'ORD({text})' if kind.form == 'enum' else text}, ' ');")

    # Routines

    def routine(self, around, level):
        """A procedure, or a function that changes nothing around it."""
        self.count += 1
        is_function = self.random.random() < 0.4
        routine = Routine(f"{'FN' if is_function else 'PR'}{self.count}")
        own = []
        for k in range(self.random.randint(0, 4)):
            kind = self.variables(1, "")[0].kind
            is_var = not is_function and self.random.random() < 0.4
            routine.parameters.append((is_var, kind))
            own.append(Variable(f"P{level}{k}", kind))
        heads = [f"{'VAR ' if is_var else ''}{it.name}: {it.kind.text}"
                 for it, (is_var, _) in zip(own, routine.parameters)]
        heading = f"({'; '.join(heads)})" if heads else ""
        self.line(f"FUNCTION {routine.name}{heading}: INTEGER;" if is_function
                  else f"PROCEDURE {routine.name}{heading};")
        local = self.variables(self.random.randint(1, 5), f"L{level}")
        self.declare(local)
        if is_function:
            around = [Variable(it.name, it.kind, False, it.is_part) for it in around]
        kept = list(self.functions), list(self.procedures)
        if is_function:
            self.procedures = []
        inner = around + own + local
        within = [self.routine(inner, level + 1) for _ in range(self.random.choice([0, 0, 1, 2]))
                  if level < 3]
        self.body(routine, is_function, inner, local, within)
        self.functions, self.procedures = kept
        (self.functions if is_function else self.procedures).append(routine)
        return routine

    def body(self, routine, is_function, variables, local, within):
        self.line("BEGIN")
        for it in local:
            self.each(it.name, it.kind, self.set_out)
        self.size = 60
        if is_function:
            self.line(f"{routine.name} := 0;")
            self.call_within(within, variables)
            self.statements(variables, 2, [], 0, 3)
            self.line(f"{routine.name} := {self.number(variables, 1)};")
        else:
            self.line(f"FUEL := FUEL - 1; IF FUEL <= 0 THEN EXIT({routine.name});")
            self.call_within(within, variables)
            self.statements(variables, 0, LOOPS, 2, 6)
            if self.random.random() < 0.3:
                again = self.call_of([routine], variables, 2)
                self.line(f"{again or 'WRITELN'};")
        self.line("END;")

    def call_within(self, within, variables):
        """Calls each routine that is declared in another, so that none is only there."""
        for routine in within:
            called = self.call_of([routine], variables, 1)
            is_function = routine in self.functions
            if called:
                self.line(f"IF {called} > 0 THEN;" if is_function else f"{called};")

    def program(self) -> Program:
        shared = self.variables(self.random.randint(3, 10), "G")
        self.lines += ["TYPE"] + self.types.lines
        self.declare(shared + [Variable("SEED", INTEGER), Variable("FUEL", INTEGER),
                               Variable("KEY", CHAR)])
        for _ in range(self.random.randint(1, 5)):
            self.routine(shared, 1)
        self.line("BEGIN")
        self.line(f"FUEL := {FUEL}; READLN(SEED); READ(KEY); READLN; WRITELN(KEY);")
        for it in shared:
            self.each(it.name, it.kind, self.set_out)
        self.size = 0
        self.statements(shared + [Variable("SEED", INTEGER, False)], 0, LOOPS, 4, 12)
        for it in shared:
            self.each(it.name, it.kind, self.show)
            self.line("WRITELN;")
        self.line("END.")
        return self.finished()

    def finished(self):
        text = "\n".join(self.lines) + "\n"
        checks = "{$R+}" if self.is_checked else "{$R-}"
        ucsd = f"{checks}\nPROGRAM RANDOM;\n{text.replace('@(', '(')}"
        free = text.replace("@(", "INTEGER(")
        for k in range(self.count + 1):
            free = free.replace(f"EXIT(PR{k})", "EXIT")
        head = f"{{$MODE TP}}{checks}{{$Q-}}{{$B+}}\nPROGRAM RANDOM;\n"
        given = f"{self.random.randint(-32768, 32767)}\nxyz\n"
        return Program(ucsd, head + free, given)


def random_program(seed) -> Program:
    return Generator(seed).program()
