"""What the compiler says of a text as a whole: all that it lacks, and each fault once."""

from ..checks import passed
from ..program import must
from .judging import Options, faults_of, tool, write
from compiler.checking.declarations import Checker
from compiler.faults import Faults
from compiler.program import library_of
from compiler.runtime import parts

# A program that lacks much: each of it is told once, at its first place, with how often it is met.
LACKING = """PROGRAM OLD(INPUT, OUTPUT);
USES TURTLEGRAPHICS, APPLESTUFF;
TYPE LINK = RECORD N: INTEGER END;
VAR L: LINK; N: INTEGER;
PROCEDURE PLOT(X: INTEGER); EXTERNAL;
BEGIN
  INITTURTLE; PLOT(3);
  L.N := 1;
  N := PADDLE(N); N := PADDLE(N);
  PENCOLOR(WHITE); N := RANDOM;
  MOVETO(N, N)
END.
"""
LACKS = [
    ("2:6", "there is no TURTLEGRAPHICS, and no pictures", 4),
    ("5:29", "there are no external procedures", 1),
    ("9:8", "PADDLE: there are no paddles, buttons or sounds", 2),
]
# Texts with one mistake, and the one place that is told, with a part of what is said.
SINGLE = [
    ("VAR X: INTEGER;\n  X := 1;\n  WRITE(X)\nEND.", "3:3", "BEGIN is missing in front of this"),
    ("VAR X: INTEGER;\n  WRITE(X); X := 1\nEND.", "3:3", "BEGIN is missing in front of this"),
    ("VAR X: INTEGER;\nIF TRUE THEN X := 1;\n X := 2\nEND.", "3:1", "BEGIN is missing in front"),
    ("CONST A = 1; VAR P: ^CHAR;\n P^ := 'A'\nEND.", "3:2", "BEGIN is missing in front"),
    ("PROCEDURE P; VAR N: CHAR;\n N := 'A' END;\nBEGIN P END.", "3:2", "BEGIN is missing"),
    ("CONST A := 1; B = 2;\nBEGIN WRITE(B) END.", "2:9", "= is wanted, and not :="),
    ("PROCEDURE P(PROCEDURE Q); BEGIN Q END;\nBEGIN P(P) END.", "2:13", "no procedures as param"),
    ("PROCEDURE P(A: ARRAY OF CHAR; N: CHAR); VAR C: CHAR; BEGIN C := N END;\nBEGIN END.", "2:16",
     "no conformant arrays"),
    ("VAR X: INTEGER;\nBEGIN CASE X OF 1: X := 2; ELSE X := 3; X := 4 END; X := 5 END.", "3:28",
     "ELSE is no part of UCSD Pascal's CASE"),
    ("VAR X: INTEGER;\nBEGIN CASE X OF 1: X := 2 OTHERWISE X := 3 END; X := 5 END.", "3:27",
     "OTHERWISE is no part of UCSD Pascal's CASE"),
    ("BEGIN WRITE('ABC) END.", "2:13", "this text has no second quote on its line"),
    ("BEGIN WRITE(1); # WRITE(2) END.", "2:17", "the character # is no part of Pascal"),
    ("VAR # N: CHAR; M: CHAR;\nBEGIN M := 'A' END.", "2:5", "the character # is no part"),
    ("{ BEGIN END.", "2:1", "this comment has no }"),
    ("BEGIN {$IFDEF APPLE} WRITE(1); {$ELSE} WRITE(2) {$ENDIF} END.", "2:7",
     "nothing is compiled by condition, so that {$IFDEF APPLE} is no option"),
    ("PROCEDURE P(A: ARRAY OF CHAR; VAR B: INTEGER); BEGIN B := 1 END;\nBEGIN P('A', 1) END.",
     "2:16", "UCSD Pascal had no conformant arrays"),
    ("FUNCTION F(A: INTEGER): STRING; BEGIN F := 'A' END;\nBEGIN WRITE(F(1)) END.", "2:25",
     "UCSD Pascal had no functions that give a STRING"),
    ("VAR A: INTEGER;\nBEGIN IF A > 1 AND A < 9 THEN A := 1; A := 2 END.", "3:22",
     "AND and OR come before comparisons"),
]


def try_lacks():
    """All that a program lacks is told, each with its first place and how often it is met."""
    write("old.pas", LACKING)
    status, out, err = tool("--check", "old.pas")
    lines = err.splitlines()
    wanted = [(place, part, f" ({count} times)" if count > 1 else "")
              for place, part, count in LACKS]
    must(status == 1 and not out and len(lines) == len(wanted), f"what is lacking: {lines}")
    for line, (place, part, often) in zip(lines, wanted):
        is_so = line.startswith(f"old.pas:{place}: {part}") and line.endswith(often)
        must(is_so and ("times)" in line) == bool(often), f"{line!r} is not {place} {part} {often}")
    many = "".join(f"V{k} := 1;\n" for k in range(20))
    told = faults_of("PROGRAM T; PROCEDURE F; EXTERNAL; BEGIN\n" + many + "IDSEARCH(1) END.")
    is_so = len(told) == 12 and "no external" in told[0] and "IDSEARCH" in told[11]
    must(is_so, f"beside faults: {told}")
    told = faults_of("PROGRAM T; PROCEDURE F; EXTERNAL; BEGIN I := ; F := END.")
    places = [it.split(": ")[0][6:] for it in told]
    must(places == ["1:25", "1:46", "1:53"], f"faults of form: {told}")
    passed("all that a program lacks is told, and how often it is met")


def try_single():
    """One mistake is told once, without what follows from it."""
    for text, place, part in SINGLE:
        told = faults_of("PROGRAM T;\n" + text)
        is_so = len(told) == 1 and told[0].startswith(f"t.pas:{place}: ") and part in told[0]
        must(is_so, f"{text!r}: {told}")
    passed(f"{len(SINGLE)} mistakes are told once each")


def try_library():
    """Each procedure of the run-time library has no fault, also where no program uses it."""
    checker = Checker(Faults(), 10)
    checker.library = library_of(checker, Options())
    names = sorted(parts()[2])
    for name in names:
        checker.library.complete(checker.library[name])
    bodies = [checker.library[name].body for name in names]
    must(len(bodies) > 40 and all(bodies), "a procedure of the library has no body")
    passed(f"the {len(names)} procedures of the library have no fault")


TESTS = (try_lacks, try_single, try_library)
