"""Programs for what REAL is in the language, in the form of `cases`. What WRITE shows is worked out
by hand; the arithmetic is tried in `reals`."""

REALS = "VAR X, Y: REAL; I: INTEGER;"
ERROR = "execution error"

CASES = [
    ("a REAL without a width", REALS,
     "X := 3.14159; WRITE(X, -X, 0.0, 1.0, 100.0, -0.5, 1E-20, 3.40282E38)", "",
     " 3.14159-3.14159 0.00000 1.00000 1.00000E2-5.00000E-1 1.00000E-20 3.40282E38", ""),
    ("widths of REALs", REALS, "X := 2.5; WRITE(X:10, '|', X:3, '|', X:6:2, '|', X:0:0, '|', "
     "-X:9:3, '|', 0.05:0:1, '|', 9.96:0:1, '|', 12345.0:0:2)", "",
     "   2.50000| 2.50000|  2.50|3|   -2.500|0.1|10.0|12345.00", ""),
    ("a REAL is shown exactly", REALS,
     "X := 0.1; WRITE(X:0:12, ' ', 16777216.0:0:0, ' ', 1E10:0:0)", "", "0.100000001490 16777216 "
     "10000000000", ""),
    ("an INTEGER becomes a REAL", REALS + """
FUNCTION F(A: INTEGER; X: REAL; B: INTEGER): REAL; BEGIN F := A - X * B END;
PROCEDURE P(VAR X: REAL); BEGIN X := X + 1 END;""",
     "X := 7; I := 2; Y := X / I + I; P(Y); "
     "WRITE(Y:0:2, F(1, I, 3):6:1, 1 / 4:6:2, F(I, 0.5, I):5:1)", "", "6.50  -5.0  0.25  1.0", ""),
    ("REALs are compared", REALS, "X := -1.5; Y := 2; I := 2; WRITE(X < Y, X > Y, Y = I, Y <> 2, "
     "X <= -1.5, 1.5 >= Y, X < -2, 0.1 + 0.2 = 0.3)", "",
     "TRUEFALSETRUEFALSETRUEFALSEFALSETRUE", ""),
    ("TRUNC and ROUND", REALS,
     "FOR I := -3 TO 3 DO BEGIN X := I / 2; WRITE(TRUNC(X), ROUND(X), ' ') END; "
     "WRITE(TRUNC(-2.9), ROUND(2.5), ROUND(32767.4), ROUND(-32768.4))", "",
     "-1-2 -1-1 0-1 00 01 11 12 -2332767-32768", ""),
    ("functions of constants", "",
     "WRITE(ABS(-1.5):0:1, SQR(1.5):6:2, PWROFTEN(2):6:0, TRUNC(7.9), ROUND(-7.5), ABS(-7), "
     "SQR(7))", "", "1.5  2.25   1007-8749", ""),
    ("REALs in arrays, records and behind pointers", """
TYPE R = RECORD N: INTEGER; X: REAL END; VAR A: ARRAY[1..3] OF REAL; B, C: R; P: ^R; I: INTEGER;
  Q: ^REAL;""", "FOR I := 1 TO 3 DO A[I] := I / 8; B.N := 5; B.X := A[2] + A[3]; C := B; NEW(P); "
     "P^ := C; NEW(Q); Q^ := P^.X; A[C.N - 4] := Q^; WITH P^ DO X := X * 2; "
     "WRITE(A[1]:0:3, P^.X:6:2, SIZEOF(A), SIZEOF(R), B = C)", "", "0.625  1.25126TRUE", ""),
    ("a REAL of a function around, and of a constant", """CONST PI = 3.14159; HALF = -0.5;
FUNCTION F(X: REAL): REAL;
  FUNCTION G: REAL; BEGIN G := X * HALF; F := 9 END;
BEGIN F := G + G END;""", "WRITE(F(PI):0:5)", "", "-3.14159", ""),
    ("EXIT with REALs pushed", """VAR X: REAL;
FUNCTION F(X: REAL): REAL; FORWARD;
PROCEDURE P; BEGIN X := 1.5 + 2 * F(3); WRITE('X') END;
FUNCTION F; BEGIN F := X; IF X = 3 THEN EXIT(P) END;""", "X := 9; P; WRITE(X:0:1)", "", "9.0", ""),
    ("READ of a REAL", REALS,
     "READLN(X, Y, I); WRITE(X:0:3, ' ', Y:0:3, I); READLN(X); READLN(Y); WRITE(X, Y)",
     " 2.5 -1e-2 7\n+.5E+1\nx\n",
     " 2.5 -1e-2 7\n2.500 -0.0107+.5E+1\nx\n 5.00000 0.00000", ""),
    # The REALs on both sides of 529533200 are 529533184 and 529533216, and the first is even.
    ("READ of a number between two REALs", REALS,
     "READLN(X); READLN(Y); WRITELN(X:0:1, ' ', Y:0:1); READ(X); WRITE(X:0:1)",
     "529533200.000\n529533200\n529533200.0000001\n", "529533200.000\n529533200\n"
     "529533184.0 529533184.0\n529533200.0000001\n529533216.0", ""),
    ("a backspace in a REAL", REALS, "READLN(X); WRITE(X:0:2)", "1.5\b\b2.7\n",
     "1.5\b \b\b \b2.7\n12.70", ""),
    ("error 6: a division by 0", REALS, "Y := 0; WRITE('A'); X := 1 / Y", "", "A", ERROR + " 6"),
    ("error 1: a REAL that is too great", REALS, "Y := 1E20; X := Y * Y", "", "", ERROR + " 1"),
    ("error 1: a sum that is too great", REALS, "Y := -3E38; X := Y + Y", "", "", ERROR + " 1"),
    ("error 1: TRUNC of a great REAL", REALS, "Y := 32768.0; I := TRUNC(Y)", "", "", ERROR + " 1"),
    ("error 1: ROUND of a REAL below the INTEGERs", REALS, "Y := -32768.5; I := ROUND(Y)", "", "",
     ERROR + " 1"),
    ("error 1: the root of a number below 0", REALS, "Y := -1; X := SQRT(Y)", "", "", ERROR + " 1"),
    ("error 1: the logarithm of 0", REALS, "Y := 0; X := LN(Y)", "", "", ERROR + " 1"),
    ("error 1: EXP of a great number", REALS, "Y := 89; X := EXP(Y)", "", "", ERROR + " 1"),
    ("error 1: PWROFTEN of 38", REALS, "I := 38; X := PWROFTEN(I)", "", "", ERROR + " 1"),
    ("error 1: a great REAL is read", REALS, "READ(X)", "1E99\n", "1E99\n", ERROR + " 1"),
    ("what is too small is 0", REALS, "X := 1E-30; WRITE(X * X, EXP(-100.0), X * X = 0)", "",
     " 0.00000 0.00000TRUE", ""),
]
