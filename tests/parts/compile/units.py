"""Programs of several texts: a program and the units that it uses, and what is drawn by lot."""

import itertools

from ..checks import passed
from ..program import must
from .judging import Options, compile_text, faults_of, prints, run, write

STACK = """UNIT STACK;
INTERFACE
  CONST MOST = 3;
  TYPE ITEM = RECORD N: INTEGER; X: REAL END;
  VAR DEPTH: INTEGER;
  PROCEDURE PUSH(I: ITEM);
  FUNCTION POP(VAR I: ITEM): BOOLEAN;
IMPLEMENTATION
  VAR ROOM: ARRAY[1..MOST] OF ITEM;
  PROCEDURE GROW(BY: INTEGER); BEGIN DEPTH := DEPTH + BY END;
  PROCEDURE PUSH; BEGIN GROW(1); ROOM[DEPTH] := I END;
  FUNCTION POP(VAR I: ITEM): BOOLEAN;
  BEGIN
    POP := DEPTH > 0;
    IF DEPTH > 0 THEN BEGIN I := ROOM[DEPTH]; GROW(-1) END
  END;
BEGIN
  WRITE('S'); DEPTH := 0
END.
"""
TOP = """UNIT TOP;
INTERFACE
  USES STACK;
  PROCEDURE TWICE(N: INTEGER);
IMPLEMENTATION
  VAR I: ITEM;
  PROCEDURE TWICE; BEGIN I.N := N; I.X := N / 2; PUSH(I); PUSH(I) END;
BEGIN
  WRITE('T'); TWICE(7)
END.
"""
USES = """PROGRAM P;
USES TRANSCEND, TOP, STACK;
VAR I: ITEM; GROW: INTEGER;
BEGIN
  GROW := 1; I.N := 9; I.X := SQRT(4); PUSH(I);
  WHILE POP(I) DO WRITE(' ', I.N, I.X:4:1);
  WRITE(' ', DEPTH, MOST)
END.
"""
INLINE = """PROGRAM P;
UNIT A; INTERFACE VAR N: INTEGER; PROCEDURE Q; IMPLEMENTATION
  PROCEDURE Q; BEGIN N := N + 1; WRITE(N); IF N < 3 THEN Q END; END;
USES A;
BEGIN Q; IF N = 3 THEN EXIT(PROGRAM); WRITE('X') END.
"""
# What is refused: the program, the text of the unit OTHER, and the place and the words.
REFUSED = [
    ("USES OTHER; BEGIN N := 1 END.", "INTERFACE IMPLEMENTATION VAR N: INTEGER; END.",
     "t.pas:2:19: N is not declared"),
    ("USES OTHER; BEGIN END.", "INTERFACE PROCEDURE P; IMPLEMENTATION END.",
     "other.pas:2:21: P is declared FORWARD, and its body is missing"),
    ("USES OTHER; BEGIN END.", "INTERFACE PROCEDURE P(N: INTEGER); IMPLEMENTATION "
     "PROCEDURE P(N: CHAR); BEGIN END; END.", "other.pas:2:61: P has other parameters"),
    ("USES OTHER; BEGIN END.", "INTERFACE VAR N: INTEGER; IMPLEMENTATION BEGIN N := 'A' END.",
     "other.pas:2:53: this is a CHAR, and an INTEGER is wanted here"),
    ("USES OTHER; BEGIN END.", "IMPLEMENTATION END.", "other.pas:2:1: INTERFACE is wanted"),
    ("USES OTHER; BEGIN END.", "INTERFACE USES OTHER; IMPLEMENTATION END.",
     "other.pas:2:16: OTHER uses itself, by what it uses"),
    ("USES GONE; BEGIN GO END.", "", "t.pas:2:6: there is no unit GONE: put its text beside this "
     "one, as GONE.pas or GONE.TEXT (2 times)"),
    ("USES WRONG; BEGIN END.", "", "t.pas:2:6: wrong.pas has the unit RIGHT, and not WRONG"),
    ("VAR N: INTEGER; BEGIN N := RANDOM END.", "", "t.pas:2:28: RANDOM is not declared"),
]


def try_units():
    write("STACK.TEXT", STACK)
    write("top.pas", TOP)
    write("wrong.pas", "UNIT RIGHT; INTERFACE IMPLEMENTATION END.")
    prints("units", USES, "", "ST 9 2.0 7 3.5 7 3.5 03", "")
    prints("a unit in a program", INLINE, "", "123", "")
    for text, unit, wanted in REFUSED:
        write("other.pas", "UNIT OTHER;\n" + unit)
        told = faults_of("PROGRAM T;\n" + text)
        must(len(told) >= 1 and told[0].startswith(wanted), f"{text!r} and {unit!r}: {told}")
    passed(f"units are taken in their order, and {len(REFUSED)} faults of them are told")


def numbers(seeds):
    """The three generators of Wichmann and Hill, without their tricks."""
    one, two, three = seeds
    while True:
        one, two, three = 171 * one % 30269, 172 * two % 30307, 170 * three % 30323
        yield (3 * one + 5 * two + 7 * three) % 32768


def try_chance():
    """RANDOM is the same in each run, and comes of the keys alone behind RANDOMIZE."""
    text = ("PROGRAM T; USES APPLESTUFF; VAR I, H, L: INTEGER; C: CHAR; BEGIN "
            "READ(C); IF C = 'R' THEN RANDOMIZE; FOR I := 1 TO 200 DO WRITELN(RANDOM); NOTE(1, 2);"
            "IF KEYPRESS THEN WRITE('K'); TIME(H, L); TIME(H, L); WRITE(H, L) END.")
    data = compile_text(text, "t.pas", Options(is_echoed=False)).data
    found = run(data, "x")
    wanted = [str(it) for it in itertools.islice(numbers((1982, 31, 188)), 200)]
    must(found == ("\n".join(wanted) + "\nK02", ""), f"RANDOM: {found}")
    drawn = run(data, "R")[0]
    must(drawn == run(data, "R")[0] and drawn != found[0], "RANDOMIZE draws the same")
    few = [sum(int(it) % 8 == k for it in wanted) for k in range(8)]
    must(min(few) > 10, f"the numbers by their lowest bits: {few}")
    passed("RANDOM, RANDOMIZE, KEYPRESS, NOTE and TIME come of calls and keys alone")


TESTS = (try_units, try_chance)
