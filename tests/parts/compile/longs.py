"""Long integers beside Python's whole numbers, and programs with what has to come of them."""

import random

from ..checks import passed
from ..program import must
from .judging import Options, compile_text, run

MOST = 10 ** 36
PROGRAM = """PROGRAM LONGS;
VAR A, B, C: INTEGER[36]; OP: INTEGER;
BEGIN
  READ(OP);
  WHILE OP > 0 DO
    BEGIN
      READ(A, B);
      CASE OP OF
        1: C := A + B; 2: C := A - B; 3: C := A * B; 4: C := A DIV B;
        5: C := ORD(A < B) + 2 * ORD(A = B) + 4 * ORD(A >= B); 6: C := -A
      END;
      WRITELN(C);
      READ(OP)
    END
END.
"""
DECLARED = "TYPE L = INTEGER[12]; VAR A: L; B: INTEGER[5]; I: INTEGER; S: STRING[6];"
ERROR = "execution error"

# In the form of `cases`.
CASES = [
    ("long integers", DECLARED + """
PROCEDURE P(X: L; VAR Y: L); BEGIN Y := X + Y; X := 0 END;""",
     "A := 123456789; P(A, A); I := 7; P(I, A); P(100000 * I, A); WRITE(A:12, A:3); B := -99999; "
     "WRITE(B, TRUNC(B DIV 9), I * B); STR(A DIV 1000, S); WRITE(' ', S, LENGTH(S))", "",
     "   247613585247613585-99999-11111-699993 2476136", ""),
    ("long integers are compared", DECLARED, "A := 40000; B := 40000; I := 5; WRITE(A = B, A <> B, "
     "A < 40001, I < A, A <= I, -A > -40001, A >= 0)", "",
     "TRUEFALSETRUETRUEFALSETRUETRUE", ""),
    ("long integers in records, arrays and files", """TYPE R = RECORD N: INTEGER[9]; C: CHAR END;
VAR A: ARRAY[1..3] OF INTEGER[9]; F: FILE OF R; I: INTEGER;""",
     "FOR I := 1 TO 3 DO A[I] := 300000 * I; REWRITE(F); F^.N := A[1] + A[3]; F^.C := 'X'; PUT(F); "
     "RESET(F); WRITE(F^.N, F^.C, SIZEOF(A))", "", "1200000X36", ""),
    ("READ of a long integer", DECLARED, "READLN(A, B); WRITE(A, ' ', B)", "  -123456\b789 77\n",
     "  -123456\b \b789 77\n-12345789 77", ""),
    ("error 1: too many digits", DECLARED, "A := 99999; B := A; WRITE(B); B := A + 1", "", "99999",
     ERROR + " 1"),
    ("error 1: TRUNC of a long integer", DECLARED, "A := 32767; WRITE(TRUNC(A), TRUNC(-A - 1)); "
     "I := TRUNC(A + 1)", "", "32767-32768", ERROR + " 1"),
    ("error 6: a long division by 0", DECLARED, "B := 0; A := A DIV B", "", "", ERROR + " 6"),
    ("error 1: a long text has no room", DECLARED, "A := 1234567; STR(A, S)", "", "", ERROR + " 1"),
]


def some_number(source):
    size = source.choice([1, 2, 3, 4, 5, 9, 18, 19, 35, 36])
    number = source.choice([source.randrange(10 ** size), 10 ** size - 1, 10 ** (size - 1),
                            source.randrange(3)])
    return source.choice([1, -1]) * number


def result_of(op, left, right):
    """What an operation comes to; None if it is too great, or there is none."""
    if op == 4:
        if not right:
            return None
        quotient = abs(left) // abs(right)
        return -quotient if (left < 0) != (right < 0) else quotient
    results = {1: left + right, 2: left - right, 3: left * right, 6: -left,
               5: (left < right) + 2 * (left == right) + 4 * (left >= right)}
    return results[op] if abs(results[op]) < MOST else None


def compare(count, seed):
    source, given, wanted = random.Random(seed), [], []
    while len(wanted) < count:
        op, left, right = source.choice([1, 2, 3, 3, 4, 4, 4, 5, 6]), some_number(source), 0
        right = source.choice([some_number(source), some_number(source), left, left + 1])
        result = result_of(op, left, right)
        if result is not None and abs(right) < MOST:
            given.append(f"{op} {left} {right}\n")
            wanted.append(result)
    data = compile_text(PROGRAM, "longs.pas", Options(is_echoed=False)).data
    found, ending = run(data, "".join(given) + "0\n")
    lines = found.split("\n")
    must(ending == "" and len(lines) == count + 1, f"{len(lines)} lines and {ending!r}")
    for asked, result, line in zip(given, wanted, lines):
        must(str(result) == line, f"{asked.strip()} comes to {line}, and not {result}")


def try_longs():
    compare(400, 1)
    passed("400 operations with long integers come to what Python says")


TESTS = (try_longs,)
