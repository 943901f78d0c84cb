"""Programs for what is UCSD Pascal's alone, each with what has to come of it by the language's
manual and docs/PASCAL.md.

A case is a name, the declarations, the statements, the input, the output, and how it ends: "" for
the end of the program, or what `run` says without the place."""

NUMBERS = "VAR I, J, N: INTEGER;"
COLORS = "TYPE COLOR = (RED, GREEN, BLUE); VAR C: COLOR; S: SET OF COLOR; T: SET OF COLOR;"
STRINGS = "VAR S, T: STRING; U: STRING[5]; I: INTEGER; C: CHAR;"
PACKED = """TYPE P = PACKED RECORD A: 0..15; B: BOOLEAN; C: 0..7; D: CHAR END;
VAR R: P; W: RECORD CASE BOOLEAN OF TRUE: (X: P); FALSE: (Y, Z: INTEGER) END;
    I: INTEGER; A: PACKED ARRAY[0..5] OF 0..31; K: RECORD CASE BOOLEAN OF
      TRUE: (L: PACKED ARRAY[0..5] OF 0..31); FALSE: (M, N: INTEGER) END;"""
ERROR = "execution error"

CASES = [
    # Statements
    ("FOR ends one beyond", NUMBERS, "FOR I := 1 TO 3 DO WRITE(I); WRITE(' ', I); "
     "FOR I := 3 DOWNTO 1 DO; WRITE(' ', I); FOR I := 5 TO 4 DO WRITE('X'); WRITE(' ', I)",
     "", "123 4 0 5", ""),
    ("FOR stores its start, then works out its limit", NUMBERS,
     "I := 7; N := 0; FOR I := 1 TO I + 2 DO N := N + 1; WRITE(N)", "", "3", ""),
    ("FOR works out its limit once", NUMBERS,
     "J := 3; N := 0; FOR I := 1 TO J DO BEGIN J := 10; N := N + 1 END; WRITE(N)", "", "3", ""),
    ("CASE without a match goes on", NUMBERS,
     "FOR I := -1 TO 4 DO CASE I OF 1, 3: WRITE('A'); 2: WRITE('B') END; WRITE('.')",
     "", "ABA.", ""),
    ("CASE with values far apart", NUMBERS, "FOR I := 1 TO 4 DO BEGIN CASE I * 10000 OF "
     "10000: WRITE('A'); -25536, 20000: WRITE('B'); 5: WRITE('X') END END", "", "ABB", ""),
    ("CASE of a Boolean that NOT made", "VAR B: BOOLEAN;",
     "B := FALSE; CASE NOT B OF TRUE: WRITE('T'); FALSE: WRITE('F') END", "", "T", ""),
    ("GOTO", "LABEL 1, 2;" + NUMBERS,
     "I := 0; 1: I := I + 1; IF I < 5 THEN GOTO 1; GOTO 2; WRITE('X'); 2: WRITE(I)", "", "5", ""),
    ("WITH works out its record once", """TYPE R = RECORD X, Y: INTEGER END;
VAR A: ARRAY[1..2] OF R; I: INTEGER;""", "I := 1; WITH A[I] DO BEGIN I := 2; X := 7; Y := 8 END; "
     "WRITE(A[1].X, A[1].Y, A[2].X)", "", "780", ""),
    # EXIT
    ("EXIT of a procedure around", NUMBERS + """
PROCEDURE P(N: INTEGER);
  PROCEDURE Q; BEGIN WRITE('Q'); IF N = 1 THEN EXIT(P); WRITE('R') END;
BEGIN IF N > 1 THEN P(N - 1); Q; WRITE(N) END;""", "P(3); WRITE('.')", "", "QQR2QR3.", ""),
    ("EXIT within an expression", NUMBERS + """
FUNCTION F(N: INTEGER): INTEGER; FORWARD;
PROCEDURE P; BEGIN I := 1 + 2 * F(3); WRITE('X') END;
FUNCTION F; BEGIN F := N; IF N = 3 THEN EXIT(P) END;""",
     "I := 9; P; WRITE(I); I := F(2) + F(1); WRITE(I)", "", "93", ""),
    ("EXIT of a function keeps its value", """
FUNCTION F: INTEGER; BEGIN F := 5; EXIT(F); F := 6 END;""", "WRITE(F)", "", "5", ""),
    ("EXIT(PROGRAM)", "PROCEDURE P; BEGIN WRITE('A'); EXIT(PROGRAM) END;", "P; WRITE('B')",
     "", "A", ""),
    ("EXIT of a procedure that is not called", """
PROCEDURE P; BEGIN END; PROCEDURE Q; BEGIN EXIT(P) END;""", "Q; WRITE('X')", "", "",
     ERROR + " 14"),
    ("HALT", "", "WRITE('A'); HALT; WRITE('B')", "", "A", ERROR + " 14"),
    # Booleans
    ("ORD of NOT is of all 16 bits", "VAR B: BOOLEAN;",
     "B := FALSE; WRITE(ORD(NOT B)); B := TRUE; WRITE(ORD(NOT B)); B := NOT B; "
     "IF B THEN WRITE('X') ELSE WRITE('F'); WRITE(B, NOT B, B = (NOT TRUE))",
     "", "-1-2FFALSETRUETRUE", ""),
    ("bits by ODD", "", "WRITE(ORD(ODD(12) AND ODD(10)), ORD(ODD(12) OR ODD(3)), "
     "ORD(ODD(5) AND NOT ODD(4)))", "", "8151", ""),
    ("a Boolean as an index", "VAR A: ARRAY[BOOLEAN] OF INTEGER; B: BOOLEAN;",
     "A[FALSE] := 1; A[TRUE] := 2; B := FALSE; WRITE(A[NOT B], A[B])", "", "21", ""),
    ("ODD of what is known", "VAR A: ARRAY[BOOLEAN] OF CHAR;", "A[FALSE] := 'F'; A[TRUE] := 'T'; "
     "CASE ODD(5) OF TRUE: WRITE(A[ODD(7)], A[ODD(4)]) END; WRITE(ORD(ODD(6)), ODD(6))", "",
     "TF6FALSE", ""),
    ("what is known of Booleans is worked out", "CONST YES = TRUE; VAR B: BOOLEAN;",
     "WRITE(NOT YES, YES AND (1 < 2), (2 <= 1) OR NOT YES, ORD(NOT YES), ORD(NOT (1 = 2)), "
     "ODD(3) = YES, (NOT YES) < YES, 'A' <> 'B', (ODD(4) OR ODD(2)) >= YES); "
     "IF (MAXINT > 1) AND NOT (1 >= 2) THEN WRITE('T') ELSE WRITE('F'); B := NOT (3 > 2); WRITE(B)",
     "", "FALSETRUEFALSE-2-1TRUETRUETRUEFALSETFALSE", ""),
    ("AND looks at both sides", NUMBERS + """
FUNCTION F(N: INTEGER): BOOLEAN; BEGIN WRITE(N); F := N > 0 END;""",
     "IF F(0) AND F(1) THEN; IF F(1) OR F(0) THEN", "", "0110", ""),
    # Numbers
    ("numbers are compared", NUMBERS, "I := -1; J := 1; WRITE(I < J, I <= J, I > J, I >= J, "
     "J <= J, J < J, J >= J, J > J, I = J, I <> J)", "",
     "TRUETRUEFALSEFALSETRUEFALSETRUEFALSEFALSETRUE", ""),
    ("DIV and MOD cut off", NUMBERS,
     "I := -7; WRITE(I DIV 2, I MOD 2, 7 DIV (-2), (-7) MOD 2)", "", "-3-1-3-1", ""),
    ("sums go around", NUMBERS, "I := MAXINT; I := I + 1; WRITE(I, ABS(-32768), -32768)", "",
     "-32768-32768-32768", ""),
    ("names by 8 characters", "VAR COUNTERONE, B_C: INTEGER;",
     "counteronly := 4; Bc := 5; WRITE(COUNTERO, BC)", "", "45", ""),
    # CHK
    ("an index outside", NUMBERS + "VAR A: ARRAY[1..3] OF INTEGER; Z: INTEGER;",
     "I := 4; {$R-} A[I] := 0; WRITE('A'); {$R+} A[I] := 0", "", "A", ERROR + " 1"),
    ("a range", NUMBERS + "VAR R: 1..5;",
     "I := 6; {$R-} R := I; WRITE('A'); {$R+} R := I - 1; WRITE('B'); R := I", "", "AB",
     ERROR + " 1"),
    ("a range as a parameter", NUMBERS + "TYPE T = 1..5; PROCEDURE P(N: T); BEGIN WRITE(N) END;",
     "I := 5; P(I); P(I + 1)", "", "5", ERROR + " 1"),
    ("division by 0", NUMBERS, "I := 0; WRITE(1 DIV I)", "", "", ERROR + " 6"),
    ("NIL", "VAR P: ^INTEGER;", "P := NIL; P^ := 1", "", "", ERROR + " 7"),
    # Packing: fields and elements from the lowest bits on, none in two words
    ("packed fields", PACKED, "R.A := 5; R.B := TRUE; R.C := 6; R.D := 'B'; W.X := R; "
     "WRITE(W.Y, ' ', W.Z, ' ', R.A, ORD(R.B), R.C, R.D)", "", "17109 0 516B", ""),
    ("packed elements", PACKED, "FOR I := 0 TO 5 DO A[I] := I + 1; K.L := A; "
     "WRITE(K.M, ' ', K.N, ' ', SIZEOF(A))", "", "3137 6308 4", ""),
    ("a field that does not fit begins a word", "TYPE T = PACKED RECORD A: 0..255; B: 0..511; "
     "C: BOOLEAN END; VAR R: RECORD CASE BOOLEAN OF TRUE: (X: T); FALSE: (Y, Z: INTEGER) END;",
     "R.X.A := 255; R.X.B := 3; R.X.C := TRUE; WRITE(R.Y, ' ', R.Z)", "", "255 515", ""),
    ("a range up to a power of two", "VAR A: PACKED ARRAY[0..5] OF 0..16; I: INTEGER;",
     "FOR I := 0 TO 5 DO A[I] := 16; FOR I := 0 TO 5 DO WRITE(A[I]); WRITE(SIZEOF(A))", "",
     "1616161616164", ""),
    ("sizes", "VAR S: STRING[10]; A: PACKED ARRAY[1..5] OF CHAR; B: ARRAY[1..5] OF CHAR; "
     "C: SET OF CHAR; D: PACKED RECORD X: BOOLEAN; Y: INTEGER END; P: ^INTEGER;",
     "WRITE(SIZEOF(S), ' ', SIZEOF(A), ' ', SIZEOF(B), ' ', SIZEOF(C), ' ', SIZEOF(D), ' ', "
     "SIZEOF(P), ' ', SIZEOF(STRING))", "", "12 6 10 32 4 2 82", ""),
    # Strings
    ("string overflow", STRINGS, "U := 'ABCDE'; WRITE(U); S := 'ABCDEF'; U := S", "", "ABCDE",
     ERROR + " 1"),
    ("S := U of one declared length moves all words", """
TYPE R = RECORD A: STRING[7]; N: INTEGER END;
VAR S, T: STRING[7]; Q: R; A: ARRAY[1..2] OF STRING[7]; P: ^R; I: INTEGER;""",
     "S := 'ABCDEFG'; T := S; WRITE(T); T := 'XY'; Q.N := 5; Q.A := T; A[2] := Q.A; NEW(P); "
     "P^.N := 6; P^.A := A[2]; S := P^.A; WRITE(S, LENGTH(S), Q.N, P^.N); S := S; WRITE(S)", "",
     "ABCDEFGXY256XY", ""),
    ("S := U by VAR parameters moves what there is", """VAR S: STRING[3]; N: INTEGER; T: STRING;
PROCEDURE P(VAR A, B: STRING); BEGIN A := B; B := A END;
PROCEDURE Q(VAR A: STRING); BEGIN A := T; T := A END;""",
     "N := 7; S := 'ABC'; T := 'XY'; P(S, T); WRITE(S, N); Q(S); WRITE(S, T, N)", "", "XY7XYXY7",
     ""),
    ("the length of a string", STRINGS, "S := 'ABC'; WRITE(LENGTH(S), LENGTH(''), S[1]); "
     "S[3] := 'X'; WRITE(S); {$R-} S[0] := CHR(2); {$R+} WRITE(S); S[3] := 'Y'", "", "30AABXAB",
     ERROR + " 1"),
    ("COPY and DELETE outside do nothing", STRINGS, "S := 'ABCDE'; WRITE(COPY(S, 2, 3), "
     "COPY(S, 4, 3), COPY(S, 0, 1), '.'); DELETE(S, 4, 3); WRITE(S); DELETE(S, 4, 2); WRITE(S)",
     "", "BCD.ABCDEABC", ""),
    ("INSERT and CONCAT", STRINGS, "S := 'AD'; INSERT('BC', S, 2); INSERT('E', S, 5); "
     "INSERT('X', S, 9); WRITE(S); INSERT(S, S, 2); WRITE(' ', S, ' ', CONCAT('<', S, '>'))", "",
     "ABCDE AABCDEBCDE <AABCDEBCDE>", ""),
    ("INSERT without room does nothing", STRINGS, "U := 'ABCD'; INSERT('XY', U, 1); WRITE(U)", "",
     "ABCD", ""),
    ("CHR of what is known", STRINGS, "S := CONCAT(CHR(321), 'B', CHR(67)); WRITE(S, CHR(324))",
     "", "ABCD", ""),
    ("POS", STRINGS, "S := 'ABCABD'; WRITE(POS('ABD', S), POS('X', S), POS('A', S), POS('', S))",
     "", "4010", ""),
    ("strings are compared", STRINGS, "S := 'ABC'; T := 'ABD'; WRITE(S < T, S = 'ABC', "
     "S > 'AB', 'B' > S, '' < S, S <> T)", "", "TRUETRUETRUETRUETRUETRUE", ""),
    ("STR", STRINGS, "STR(-32768, S); WRITE(S); STR(7, S); WRITE(S, LENGTH(S))",
     "", "-3276871", ""),
    ("arrays of characters are compared", "VAR A, B: PACKED ARRAY[1..3] OF CHAR;",
     "A := 'ABC'; B := 'ABD'; WRITE(A < B, A = 'ABC', A >= B)", "", "TRUETRUEFALSE", ""),
    ("blocks are compared", "TYPE T = RECORD X, Y: INTEGER END; VAR A, B: T;",
     "A.X := 1; A.Y := 2; B := A; WRITE(A = B); B.Y := 3; WRITE(A = B, A <> B)", "",
     "TRUEFALSETRUE", ""),
    ("FILLCHAR, MOVELEFT and MOVERIGHT", "VAR A: PACKED ARRAY[0..7] OF CHAR;",
     "FILLCHAR(A, 8, '.'); A[0] := 'A'; A[1] := 'B'; MOVELEFT(A[0], A[2], 2); WRITE(A); "
     "MOVELEFT(A[0], A[1], 3); WRITE(' ', A); A := 'ABCD....'; MOVERIGHT(A[0], A[1], 3); "
     "WRITE(' ', A)", "", "ABAB.... AAAA.... AABC....", ""),
    ("FILLCHAR with a number", "VAR A: PACKED ARRAY[0..7] OF CHAR; I: INTEGER;",
     "FILLCHAR(A, 8, 65); I := 322; FILLCHAR(A[2], 2, I); WRITE(A); FILLCHAR(A, SIZEOF(A), 0); "
     "WRITE(ORD(A[7]))", "", "AABBAAAA0", ""),
    # Sets
    ("sets", COLORS, "S := [RED, BLUE]; T := S - [RED]; FOR C := RED TO BLUE DO WRITE(C IN T); "
     "T := T + [GREEN..GREEN]; WRITE(T = [GREEN, BLUE], T <= [RED..BLUE], S * T = [BLUE], "
     "[] <= S, S >= [GREEN])", "", "FALSEFALSETRUETRUETRUETRUETRUEFALSE", ""),
    ("an element of a set is worked out once", """VAR S: SET OF 0..9; N: INTEGER;
FUNCTION F: INTEGER; BEGIN N := N + 1; F := N END;""",
     "N := 0; S := [F]; WRITE(N, 1 IN S, 2 IN S); S := [7] + [F]; WRITE(N, 2 IN S, 7 IN S)", "",
     "1TRUEFALSE2TRUETRUE", ""),
    ("a set of 4,080", "VAR S: SET OF 0..4079; I: INTEGER;",
     "I := 4079; S := [5, I]; WRITE(I IN S, 4078 IN S, 5 IN S); WRITE(SIZEOF(S)); "
     "S := S + [I + 1]", "", "TRUEFALSETRUE510", ERROR + " 1"),
    ("sets of several sizes", "VAR S: SET OF 0..15; T: SET OF 0..40; I: INTEGER;",
     "S := [3]; T := [3, 40]; WRITE(S = T, S <= T, T <= S, 40 IN S + T, 40 IN T - S); "
     "T := S; WRITE(T = S); I := 40; WRITE(T + [I] = [3, I])", "",
     "FALSETRUEFALSETRUETRUETRUETRUE", ""),
    ("sets of brackets alone", "VAR I, J: INTEGER;", "I := 100; J := 255; "
     "WRITE([I, J] >= [] - [], [I] + [J] = [J, I], [I] * [3] = [])", "", "TRUETRUETRUE", ""),
    ("IN works out its left side first", """VAR N: INTEGER;
FUNCTION F(K: INTEGER): INTEGER; BEGIN N := N + 10; F := K END;""",
     "N := 5; WRITE(N IN [F(1)..F(9), F(20)], N)", "", "TRUE35", ""),
    ("IN of brackets", "VAR C: CHAR;", "C := 'D'; WRITE(C IN ['A'..'C', 'D'], C IN [], "
     "C IN ['E'..'Z'])", "", "TRUEFALSEFALSE", ""),
    # The heap
    ("NEW, MARK and RELEASE", """TYPE L = ^NODE; NODE = RECORD V: INTEGER; N: L END;
VAR H, P: L; M: ^INTEGER; I: INTEGER;""", "H := NIL; FOR I := 1 TO 3 DO BEGIN NEW(P); P^.V := I; "
     "P^.N := H; H := P END; WHILE H <> NIL DO BEGIN WRITE(H^.V); H := H^.N END; "
     "WRITE(' ', MEMAVAIL); MARK(M); NEW(P); RELEASE(M); WRITE(' ', MEMAVAIL)", "",
     "321 3994 3994", ""),
    ("DISPOSE gives nothing back", "VAR P: ^INTEGER;",
     "NEW(P); P^ := 7; DISPOSE(P); WRITE(P^, ' ', MEMAVAIL)", "", "7 3999", ""),
    ("a full heap", "TYPE A = ARRAY[1..1999] OF INTEGER; VAR P: ^A; I: INTEGER;",
     "FOR I := 1 TO 3 DO BEGIN NEW(P); WRITE(I) END", "", "12", ERROR + " 1"),
    # WRITE
    ("widths", "VAR S: STRING; B: PACKED ARRAY[1..3] OF CHAR; I: INTEGER;",
     "S := 'ABC'; B := 'XYZ'; I := -5; WRITE(I:4, I:1, 'A':3, S:5, S:2, B:4, B:2, 'TEXT':6, "
     "TRUE:6, S:0, 'TEXT':2)", "", "  -5-5  A  ABCAB XYZXY  TEXT  TRUEABCTE", ""),
    ("the screen", "", "GOTOXY(4, 9); PAGE(OUTPUT)", "", "\x1b[10;5H\x1b[2J\x1b[1;1H", ""),
    ("a long text", "", "WRITELN('" + "0123456789" * 17 + "')", "", "0123456789" * 17 + "\n", ""),
    # READ, which shows what it reads
    ("READ of numbers", NUMBERS, "READ(I, J); READLN(N); WRITE(I, ' ', J, ' ', N)",
     "12 -3\n  +4x\n", "12 -3\n  +4x\n12 -3 4", ""),
    ("READ of strings takes the rest of a line", STRINGS,
     "READLN(S); READLN(U); READ(T); READLN; READLN(T); WRITE(S, '|', U, '|', T)",
     "a b\n1234567\nx\ny\n", "a b\n1234567\nx\ny\na b|12345|y", ""),
    ("EOLN is true once the line's end has been read", "VAR C: CHAR; N: INTEGER;",
     "N := 0; WHILE NOT EOLN DO BEGIN READ(C); N := N + 1 END; WRITE(N, ORD(C)); READLN; "
     "WRITE(EOLN); READ(C); WRITE(C)", "ab\nc", "ab\n332FALSEcc", ""),
    ("Ctrl-C is the end of the file", STRINGS, "I := 0; WHILE NOT EOF DO BEGIN READLN(S); "
     "I := I + 1 END; READ(C); READLN(T); WRITE(I, ORD(C), LENGTH(T), EOLN)", "a\nb\n\x03",
     "a\nb\n3320TRUE", ""),
    ("CR ends a line too", STRINGS, "READLN(S); READLN(T); WRITE(S, T)", "a\rb\n", "a\nb\nab", ""),
    ("a backspace takes a character back", STRINGS, "READLN(S); READLN(I); WRITE(S, I)",
     "ax\x08b\n12\x7f3\n", "ax\x08 \x08b\n12\x08 \x083\nab13", ""),
    ("KEYBOARD shows nothing", STRINGS, "READ(KEYBOARD, C); WRITE('<', C, '>'); "
     "READLN(KEYBOARD, S); WRITE(S, EOLN(KEYBOARD))", "xab\n", "<x>abFALSE", ""),
    ("a program that reads on waits", STRINGS, "READLN(S)", "ab", "ab", "waits"),
    # Files on devices, which are the console
    ("REWRITE of the console's names", """VAR F, G: TEXT; H: INTERACTIVE; S: STRING;
PROCEDURE P(VAR E: TEXT); BEGIN WRITELN(E, 'P', 1:3) END;""",
     "REWRITE(F, 'CONSOLE:'); WRITE(F, 'A', 1); P(F); S := 'printer:'; REWRITE(G, S); P(G); "
     "CLOSE(F, LOCK); REWRITE(F, '#8:'); WRITELN(F); PAGE(G); CLOSE(F); CLOSE(G, NORMAL); "
     "REWRITE(H, 'Remout:'); REWRITE(H); REWRITE(OUTPUT); WRITE(H, S, IORESULT); CLOSE(OUTPUT)", "",
     "A1P  1\nP  1\n\n\x1b[2J\x1b[1;1Hprinter:0", ""),
    ("RESET of the console's names", "VAR F: TEXT; G: INTERACTIVE; S: STRING; C: CHAR; I: INTEGER;",
     "RESET(G, 'SYSTERM:'); READ(G, C); WRITE('<', C, G^, EOLN(G), EOF(G), '>'); CLOSE(G); "
     "RESET(F, 'CONSOLE:'); READLN(F, S); WRITE(S); READLN(F, I); WRITE(I); GET(F); "
     "WRITE(F^); RESET(F); READ(F, C); WRITE(C)", "xab\n5\nyz",
     "<xxFALSEFALSE>ab\nab5\n5yyzz", ""),
    ("files of other names", "VAR F: TEXT; S: STRING; I: INTEGER;",
     "S := 'DATA.TEXT'; {$I-} RESET(F, S); I := IORESULT; REWRITE(F, '#1:'); WRITE(IORESULT, I); "
     "{$I+} RESET(F, S); WRITE('X')", "", "010there is no file DATA.TEXT\n", ERROR + " 10"),
    ("a file that is not open", "VAR F: TEXT;",
     "REWRITE(F, '#1:'); WRITE(F, 'A'); CLOSE(F); WRITE(F, 'B')", "", "A", ERROR + " 1"),
    # What is done by words
    ("one element more or less", """TYPE T = SET OF 0..20;
VAR S: T; I, N: INTEGER; B: SET OF BOOLEAN;
PROCEDURE P(VAR X: T; I: INTEGER); BEGIN X := X + [I]; X := X - [I - 1] END;
FUNCTION F: INTEGER; BEGIN S := []; F := 3 END;""",
     "S := []; FOR I := 0 TO 20 DO IF ODD(I) THEN S := S + [I]; I := 5; S := S - [I]; P(S, 8); "
     "S := S - [I + 4]; FOR I := 0 TO 20 DO IF I IN S THEN WRITE(I, ' '); S := [7]; S := S + [F]; "
     "WRITE(7 IN S, 3 IN S); B := []; B := B + [NOT ODD(N)]; WRITE(TRUE IN B, FALSE IN B)",
     "", "1 3 8 11 13 15 17 19 TRUETRUETRUEFALSE", ""),
    ("error 1: an element that a set has not", "VAR S: SET OF 0..20; I: INTEGER;",
     "S := []; I := 31; S := S + [I]; WRITE(I IN S); I := 32; S := S + [I]", "", "TRUE",
     ERROR + " 1"),
    ("FILLCHAR from each byte on", "VAR A: PACKED ARRAY[0..40] OF CHAR; I, J, N, BAD: INTEGER;",
     "BAD := 0; FOR I := 0 TO 12 DO FOR N := -1 TO 20 DO BEGIN FOR J := 0 TO 40 DO A[J] := '.'; "
     "FILLCHAR(A[I], N, 'X'); FOR J := 0 TO 40 DO IF (A[J] = 'X') <> ((J >= I) AND (J < I + N)) "
     "THEN BAD := BAD + 1 END; FILLCHAR(A, 41, 200); FOR J := 0 TO 40 DO IF ORD(A[J]) <> 200 THEN "
     "BAD := BAD + 1; WRITE(BAD)", "", "0", ""),
    ("texts in quotes fill strings", "VAR S: STRING[4]; T: STRING[5];", "S := 'ABCD'; T := 'X'; "
     "WRITE(S, T, LENGTH(T)); T := 'ABCDE'; S := ''; WRITE(T, S, LENGTH(S)); S := 'ABCDE'", "",
     "ABCDX1ABCDE0", ERROR + " 1"),
    ("strings are equal up to their ends", STRINGS + "V: STRING[4]; W: STRING[3];",
     "FOR I := 0 TO 5 DO BEGIN S := COPY('ABCDE', 1, I); T := COPY('ABCDEF', 1, I); "
     "WRITE(S = T, S <> T, ' '); IF I > 0 THEN BEGIN {$R-} T[I + 1] := 'X'; {$R+} WRITE(S = T); "
     "T[I] := '.'; WRITE(S = T, ' ') END END; V := 'ABC'; W := V; WRITE(V = W, W = 'ABC', "
     "'ABD' = V, V = 'ABCD'); W := ''; V := W; WRITE(V = '', LENGTH(V))", "",
     "TRUEFALSE " + "TRUEFALSE TRUEFALSE " * 5 + "TRUETRUEFALSEFALSETRUE0", ""),
    # Units
    ("UNITREAD and UNITWRITE", "VAR A: PACKED ARRAY[0..3] OF CHAR; N: INTEGER;",
     "UNITREAD(1, A, 2); UNITREAD(2, A[2], 2, , 0); UNITWRITE(1, A[1], 3); "
     "{$I-} UNITWRITE(6, A, 1); N := IORESULT; {$I+} WRITE(N); UNITWRITE(6, A, 1)",
     "abcd", "abbcd2", ERROR + " 10"),
    ("UNITCLEAR, UNITWAIT and UNITBUSY do nothing", NUMBERS + """
FUNCTION F: INTEGER; BEGIN WRITE('F'); F := 1 END;""",
     "UNITCLEAR(1); UNITWAIT(F); WRITE(UNITBUSY(2), UNITBUSY(F))", "", "FFALSEFFALSE", ""),
    ("SCAN, as its manual shows it", "VAR DEM: PACKED ARRAY[0..52] OF CHAR;",
     "DEM := '.....THE TERAK IS A MEMBER OF THE PTERODACTYL FAMILY.'; WRITE("
     "SCAN(-26, =':', DEM[30]), ' ', SCAN(100, <>'.', DEM), ' ', SCAN(15, =' ', DEM[0]), ' ', "
     "SCAN(-9, ='E', DEM[7]), SCAN(0, ='.', DEM), ' ', SCAN(-9, <>'T', DEM[5]), "
     "SCAN(4, =CHR(46), DEM[1]))", "",
     "-26 5 8 00 -10", ""),
    ("SCAN of a string", STRINGS, "S := 'AB,CD'; C := ','; I := SCAN(LENGTH(S), =C, S[1]); "
     "WRITE(I, SCAN(2, =C, S[1]), SCAN(-4, <>C, S[3]))", "", "22-1", ""),
    ("INPUT^ is what was read last, and GET reads", STRINGS, "READ(C); WRITE(INPUT^, C); "
     "GET(INPUT); WRITE(INPUT^); READ(C); WRITE(C); READ(I); WRITE(INPUT^, I); READ(C); WRITE(C); "
     "GET(KEYBOARD); WRITE(KEYBOARD^, INPUT^)", "ab12;z", "aaabbb12;;12;z;", ""),
    ("RESET of INPUT lets reading begin anew", STRINGS, "READLN(S); READ(C); RESET(INPUT); "
     "WRITE(EOF, EOLN); RESET(KEYBOARD); READLN(T); WRITE(S, T)", "a\n\x03b\n",
     "a\nFALSEFALSEb\nab", ""),
    # Procedures
    ("SEGMENT changes nothing", """SEGMENT PROCEDURE P(N: INTEGER); FORWARD;
SEGMENT FUNCTION F(N: INTEGER): INTEGER; BEGIN F := N + 1 END;
SEGMENT PROCEDURE P; BEGIN WRITE(F(N)) END;""", "P(4)", "", "5", ""),
    ("variables of procedures around", """
PROCEDURE A(P: INTEGER); VAR V: INTEGER;
  PROCEDURE B(Q: INTEGER); VAR W: INTEGER;
    PROCEDURE C;
    BEGIN V := V + P; W := W + Q; IF V < 9 THEN C END;
    PROCEDURE D; BEGIN C; WRITE(V, W) END;
  BEGIN W := 5; D; IF Q > 1 THEN B(Q - 1); WRITE(V) END;
BEGIN V := 1; B(2); WRITE(P, V) END;""", "A(4)", "", "99" "136" "13" "13" "413", ""),
    ("parameters and scopes", """TYPE R = RECORD A, B: INTEGER END; S5 = STRING[5];
VAR X: R; T: STRING; K: SET OF CHAR;
PROCEDURE P(Y: R; VAR Z: R; T: S5; VAR U: STRING; N: INTEGER);
  PROCEDURE Q(N: INTEGER);
  BEGIN Y.A := Y.A + N; IF N > 0 THEN Q(N - 1) ELSE Z.B := Y.A END;
BEGIN Q(N); U := CONCAT(T, '!'); T := 'no' END;""",
     "X.A := 1; X.B := 2; T := 'abc'; P(X, X, 'hey', T, 3); WRITE(X.A, X.B, T); K := ['A'..'C']; "
     "WRITE('B' IN K)", "", "17hey!TRUE", ""),
    ("functions that call each other", """
FUNCTION ODDLY(N: INTEGER): BOOLEAN; FORWARD;
FUNCTION EVENLY(N: INTEGER): BOOLEAN;
BEGIN IF N = 0 THEN EVENLY := TRUE ELSE EVENLY := ODDLY(N - 1) END;
FUNCTION ODDLY; BEGIN IF N = 0 THEN ODDLY := FALSE ELSE ODDLY := EVENLY(N - 1) END;""",
     "WRITE(EVENLY(10), ODDLY(10))", "", "TRUEFALSE", ""),
]
