"""Random programs with REALs, files and a unit, for two compilers.

Each operation with REALs is a statement of its own, so that both round each result; a REAL is shown
by its two words. A file is what both have: SEEK and a record there or behind the last one, or a
text from its start. What differs in how that is written is a pair."""

import random
from dataclasses import dataclass
from typing import Dict

REALS = ["R0", "R1", "R2", "R3"]
NUMBERS = ["N0", "N1", "N2"]
MOST_RECORDS = 12
CELL = "CELL = RECORD CASE BOOLEAN OF TRUE: (R: REAL); FALSE: (L, H: INTEGER) END;"
ITEM = "ITEM = RECORD N: INTEGER; X: REAL; S: STRING[7] END;"
SHOW = """PROCEDURE SHOW(X: REAL);
VAR C: CELL;
BEGIN
  C.R := X;
  WRITE(C.H, ' ', C.L, ';')
END;
PROCEDURE TAME(VAR X: REAL);
BEGIN
  IF ABS(X) > 100000.0 THEN X := X / 65536.0;
  IF ABS(X) < 0.00001 THEN X := 1.5
END;
"""
FREE = "{$MODE TP}{$R-}{$Q-}{$B+}{$EXCESSPRECISION OFF}\n"


@dataclass
class Program:
    """`others` are the texts of its units by their names; `given` is its input."""

    ucsd: str
    free: str
    others: Dict[str, str]
    free_others: Dict[str, str]
    given: str


class Generator:
    def __init__(self, seed):
        self.random = random.Random(seed)
        self.ucsd, self.free = [], []
        self.count = 0  # of the records of F
        self.depth = 0

    def line(self, ucsd, free=None):
        self.ucsd.append(ucsd)
        self.free.append(ucsd if free is None else free)

    def real(self):
        return self.random.choice(REALS)

    def number(self):
        return self.random.choice(NUMBERS)

    def literal(self):
        return f"{self.random.randrange(-999, 1000) / self.random.choice([1, 2, 8, 64])!r}"

    # Statements

    def assign(self):
        target, left, right = self.real(), self.real(), self.real()
        choice = self.random.randrange(9)
        if choice < 4:
            operator = "+-*/"[choice]
            if operator == "/":
                self.line(f"IF {right} = 0 THEN {right} := 3;")
            self.line(f"{target} := {left} {operator} {right};")
        elif choice == 4:
            self.line(f"{target} := {self.literal()};")
        elif choice == 5:
            self.line(f"{target} := {self.number()};")
        elif choice == 6:
            self.line(f"{target} := ABS({left}); {target} := SQRT({target});")
        elif choice == 7:
            self.line(f"{target} := -{left};")
        else:
            self.line(f"{target} := SQR({left});")
        self.line(f"TAME({target});")

    def whole(self):
        target, source = self.number(), self.real()
        if self.random.random() < 0.5:
            self.line(f"IF ABS({source}) < 30000.0 THEN {target} := TRUNC({source}) MOD 100;")
        else:
            self.line(f"{target} := ({self.number()} * 7 + {self.random.randrange(50)}) MOD 100;")

    def test(self):
        comparison = self.random.choice(["<", "<=", "=", "<>", ">", ">="])
        return f"{self.real()} {comparison} {self.real()}"

    def choice(self):
        self.line(f"IF {self.test()} THEN BEGIN")
        self.statements(2)
        self.line("END ELSE BEGIN")
        self.statements(2)
        self.line("END;")

    def loop(self):
        name = f"I{self.depth}"
        self.line(f"FOR {name} := 1 TO {self.random.randint(1, 4)} DO BEGIN")
        self.statements(3)
        self.line("END;")

    def show(self):
        choice = self.random.randrange(4)
        if choice == 0:
            self.line(f"WRITELN({self.number()}, ' ', {self.test()});")
        elif choice == 1:
            self.line(f"WRITELN(TICK({self.number()}), HITS);")
        elif choice == 2:
            self.line(f"{self.real()} := MIXED({self.real()}, {self.number()});")
        else:
            self.line(f"SHOW({self.real()}); WRITELN;")

    # Files. Within loops and choices no record is added, so that their number is known.

    def record(self):
        self.line(f"R.N := {self.number()}; R.X := {self.real()}; "
                  f"R.S := '{self.random.choice(['', 'A', 'BCD', 'SEVENTH'])}';")

    def put(self):
        is_new = not self.depth and self.count < MOST_RECORDS
        at = self.random.randrange(self.count + is_new) if self.count + is_new else None
        if at is None:
            return
        self.record()
        self.line(f"SEEK(F, {at}); F^ := R; PUT(F);", f"SEEK(F, {at}); WRITE(F, R);")
        self.count = max(self.count, at + 1)

    def get(self):
        if not self.count:
            return
        at = self.random.randrange(self.count)
        self.line(f"SEEK(F, {at}); GET(F); R := F^;", f"SEEK(F, {at}); READ(F, R);")
        self.line("WRITE(R.N, R.S, ' '); SHOW(R.X); WRITELN;")

    def scan(self):
        body = "N0 := (N0 + {0}.N) MOD 100; WRITE(LENGTH({0}.S)); SHOW({0}.X)"
        self.line(f"RESET(F); WHILE NOT EOF(F) DO BEGIN {body.format('F^')}; GET(F) END; WRITELN;",
                  f"SEEK(F, 0); WHILE NOT EOF(F) DO BEGIN READ(F, R); {body.format('R')} END; "
                  "WRITELN;")

    def text(self):
        """A text is written, and read again by lines, by characters or by numbers."""
        lines = self.random.randrange(4)
        self.line("REWRITE(T, 'T');", "ASSIGN(T, 'random.txt'); REWRITE(T);")
        for _ in range(lines):
            self.line(f"WRITE(T, {self.number()}:{self.random.randrange(6)}, ' ');")
            if self.random.random() < 0.5:
                self.line(f"WRITE(T, -{self.number()}, 'xy':{self.random.choice([2, 4])});")
            self.line("WRITELN(T);")
        self.line("CLOSE(T, LOCK); RESET(T, 'T');", "CLOSE(T); RESET(T);")
        self.line(self.random.choice([
            "WHILE NOT EOF(T) DO BEGIN READLN(T, S); WRITE('<', S, '>') END;",
            "WHILE NOT EOF(T) DO BEGIN WHILE NOT EOLN(T) DO BEGIN READ(T, C); WRITE(C) END; "
            "READLN(T); WRITE('/') END;",
            "WHILE NOT EOF(T) DO BEGIN READ(T, N2); READLN(T, S); WRITE(N2, '|', S, '|') END;"]))
        self.line("CLOSE(T); WRITELN;")

    def statements(self, most):
        self.depth += 1
        for _ in range(self.random.randint(1, most)):
            makers = [self.assign] * 6 + [self.whole, self.show, self.show, self.put, self.get]
            if self.depth < 3:
                makers += [self.choice, self.loop]
            self.random.choice(makers)()
        self.depth -= 1

    # The texts

    def unit(self):
        """The unit, which has a state of its own."""
        factor = self.random.randrange(2, 9)
        begun = self.random.randrange(10)
        return f"""INTERFACE
VAR HITS: INTEGER;
FUNCTION TICK(N: INTEGER): INTEGER;
FUNCTION MIXED(X: REAL; N: INTEGER): REAL;
IMPLEMENTATION
VAR STATE: INTEGER; LAST: REAL;
FUNCTION NEXT(N: INTEGER): INTEGER; BEGIN NEXT := (N * {factor} + STATE) MOD 97 END;
FUNCTION TICK(N: INTEGER): INTEGER;
BEGIN STATE := NEXT(N); HITS := HITS + 1; TICK := STATE END;
FUNCTION MIXED(X: REAL; N: INTEGER): REAL;
VAR Y: REAL;
BEGIN
  Y := X + LAST; LAST := N; MIXED := Y;
  IF ABS(Y) > 100000.0 THEN MIXED := N
END;
BEGIN
  HITS := {begun}; STATE := {begun}; LAST := 0.5
END.
"""

    def program(self):
        for name in REALS:
            self.line(f"{name} := {self.literal()}; TAME({name});")
        self.line("READLN(N0, N1, N2);")
        self.line("REWRITE(F, 'F');", "ASSIGN(F, 'random.dat'); REWRITE(F);")
        for _ in range(self.random.randint(4, 9)):
            self.random.choice([self.put, self.put, self.scan, self.text, self.loop, self.choice,
                                self.assign, self.get])()
        self.scan()
        for name in REALS:
            self.line(f"SHOW({name});")
        self.line("WRITELN(N0, ' ', N1, ' ', N2, ' ', HITS)")
        unit = self.unit()
        variables = (f"VAR {', '.join(REALS)}: REAL; {', '.join(NUMBERS)}, I0, I1, I2: INTEGER; "
                     "R: ITEM; F: FILE OF ITEM; T: TEXT; S: STRING; C: CHAR;\n")
        ucsd = (f"PROGRAM RANDOM; USES MIXER; TYPE {CELL} {ITEM}\n{variables}{SHOW}BEGIN\n"
                + "\n".join(self.ucsd) + "\nEND.\n")
        free = (f"{FREE}PROGRAM RANDOM; USES MIXER; TYPE REAL = SINGLE; {CELL} {ITEM}\n"
                f"{variables}{SHOW}BEGIN\n" + "\n".join(self.free) + "\nEND.\n")
        free_unit = unit.replace("INTERFACE\n", "INTERFACE\nTYPE REAL = SINGLE;\n", 1)
        given = " ".join(str(self.random.randrange(-50, 100)) for _ in NUMBERS) + "\n"
        return Program(ucsd, free, {"MIXER": f"UNIT MIXER;\n{unit}"},
                       {"MIXER": f"{FREE}UNIT MIXER;\n{free_unit}"}, given)


def random_file_program(seed) -> Program:
    return Generator(seed).program()
