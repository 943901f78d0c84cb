"""Programs for files in memory, in the form of `cases`: what comes of them by the manual."""

RECORDS = """TYPE R = RECORD N: INTEGER; S: STRING[5]; X: REAL END;
VAR F, G: FILE OF R; I: INTEGER;
PROCEDURE SHOW; BEGIN WRITE(F^.N, F^.S, F^.X:4:1, ' ') END;
PROCEDURE FILLED(N: INTEGER);
VAR I: INTEGER;
BEGIN
  REWRITE(F, 'DATA');
  FOR I := 1 TO N DO BEGIN F^.N := I; F^.S := 'AB'; F^.X := I / 2; PUT(F) END;
  CLOSE(F, LOCK)
END;"""
TEXTS = "VAR T, U: TEXT; S: STRING; I, J: INTEGER; C: CHAR; X: REAL;"
BLOCKS = """VAR F: FILE; A: PACKED ARRAY[0..1023] OF CHAR; I, N: INTEGER;"""
NUMBERS = "VAR F: FILE OF INTEGER; I: INTEGER;"
ERROR = "execution error"

CASES = [
    ("records are written and read", RECORDS, "FILLED(3); RESET(F, 'DATA'); "
     "WHILE NOT EOF(F) DO BEGIN SHOW; GET(F) END; CLOSE(F)", "", "1AB 0.5 2AB 1.0 3AB 1.5 ", ""),
    ("SEEK, GET and PUT change one record", RECORDS, "FILLED(40); RESET(F, 'DATA'); "
     "SEEK(F, 20); GET(F); SHOW; F^.N := 99; SEEK(F, 20); PUT(F); SEEK(F, 19); GET(F); SHOW; "
     "GET(F);"
     "SHOW; GET(F); SHOW; SEEK(F, 39); GET(F); SHOW; WRITE(EOF(F)); GET(F); WRITE(EOF(F)); "
     "SEEK(F, 0); GET(F); SHOW; WRITE(EOF(F))", "",
     "21AB10.5 20AB10.0 99AB10.5 22AB11.0 40AB20.0 FALSETRUE1AB 0.5 FALSE", ""),
    ("a file grows by PUT behind its end", RECORDS, "FILLED(2); RESET(F, 'DATA'); SEEK(F, 2); "
     "F^.N := 7; F^.S := 'NEW'; PUT(F); WRITE(EOF(F)); CLOSE(F); RESET(G, 'DATA'); I := 0; "
     "WHILE NOT EOF(G) DO BEGIN I := I + G^.N; GET(G) END; WRITE(I)", "", "TRUE10", ""),
    ("RESET goes to the start again", NUMBERS, "REWRITE(F, 'N'); F^ := 5; PUT(F); F^ := 6; PUT(F); "
     "RESET(F); WRITE(F^); GET(F); WRITE(F^, EOF(F)); GET(F); WRITE(EOF(F))", "", "56FALSETRUE",
     ""),
    ("REWRITE without LOCK leaves nothing", NUMBERS, "REWRITE(F, 'N'); F^ := 5; PUT(F); CLOSE(F); "
     "{$I-} RESET(F, 'N'); {$I+} WRITE(IORESULT)", "", "10", ""),
    ("LOCK takes the place of the older file", NUMBERS,
     "FOR I := 1 TO 2 DO BEGIN REWRITE(F, 'N'); F^ := I; PUT(F); CLOSE(F, LOCK) END; "
     "RESET(F, 'N'); WRITE(F^); GET(F); WRITE(EOF(F)); CLOSE(F, PURGE); "
     "{$I-} RESET(F, 'N'); {$I+} WRITE(IORESULT)", "", "2TRUE10", ""),
    ("CRUNCH ends a file where it is", NUMBERS, "REWRITE(F, 'N'); FOR I := 1 TO 9 DO "
     "BEGIN F^ := I; PUT(F) END; SEEK(F, 2); CLOSE(F, CRUNCH); RESET(F, 'N'); "
     "WHILE NOT EOF(F) DO BEGIN WRITE(F^); GET(F) END", "", "12", ""),
    ("names have no case, volume and size", NUMBERS, "REWRITE(F, '#5:my.data[20]'); F^ := 3; "
     "PUT(F); "
     "CLOSE(F, LOCK); RESET(F, 'DISK:MY.DATA'); WRITE(F^); CLOSE(F); RESET(F, '*My.Data'); "
     "WRITE(F^)",
     "", "33", ""),
    ("room comes back", NUMBERS, "REWRITE(F, 'N'); FOR I := 1 TO 200 DO PUT(F); CLOSE(F, LOCK); "
     "I := MEMAVAIL; RESET(F, 'N'); CLOSE(F, PURGE); REWRITE(F, 'M'); "
     "FOR I := I - I + 1 TO 200 DO PUT(F); CLOSE(F, LOCK); WRITE(MEMAVAIL)", "", "3744", ""),
    ("the numbers of IORESULT", NUMBERS, "{$I-} RESET(F, 'GONE'); WRITE(IORESULT, ' '); GET(F); "
     "WRITE(IORESULT, ' '); PUT(F); WRITE(IORESULT, ' '); SEEK(F, 1); WRITE(IORESULT, ' '); "
     "REWRITE(F, 'A'); WRITE(IORESULT, ' '); RESET(F, 'B'); WRITE(IORESULT, ' '); "
     "PUT(F); WRITE(IORESULT, EOF(F)); CLOSE(F); WRITE(EOF(F))", "", "10 13 13 13 0 12 "
     "0TRUETRUE", ""),
    ("a file that has no room", NUMBERS, "{$I-} REWRITE(F, 'A'); I := 0; REPEAT PUT(F); I := I + 1 "
     "UNTIL IORESULT <> 0; WRITE(IORESULT, ' ', I > 3000, MEMAVAIL < 32, ' '); CLOSE(F); "
     "RESET(F, 'A'); WRITE(IORESULT); REWRITE(F, 'A'); {$I+} WHILE TRUE DO PUT(F)", "",
     "8 TRUETRUE 10there is no room for the file A\n", ERROR + " 10"),
    ("files of a procedure are closed at its end", NUMBERS + """
PROCEDURE P(N: INTEGER);
VAR F: FILE OF INTEGER; G: TEXT;
BEGIN
  REWRITE(F, 'L'); F^ := N; PUT(F); REWRITE(G, 'M'); IF N > 20 THEN EXIT(P); CLOSE(F, LOCK)
END;""", "FOR I := 1 TO 30 DO P(I); RESET(F, 'L'); WRITE(F^)", "", "20", ""),
    ("a VAR parameter is a file", RECORDS + """TYPE T = FILE OF R;
PROCEDURE ADD(VAR F: T; N: INTEGER); BEGIN F^.N := N; PUT(F) END;""",
     "REWRITE(G, 'D'); ADD(G, 4); ADD(G, 5); RESET(G); WRITE(G^.N); GET(G); WRITE(G^.N)", "", "45",
     ""),
    ("lines of a text", TEXTS, "REWRITE(T, 'T'); WRITELN(T, 'ONE ', 1); WRITE(T, 2.5:0:2, ' ', "
     "'X':3);"
     "WRITELN(T); WRITELN(T); WRITE(T, 'LAST', TRUE); CLOSE(T, LOCK); RESET(T, 'T'); "
     "WHILE NOT EOF(T) DO BEGIN READLN(T, S); WRITE('<', S, '>') END", "",
     "<ONE 1><2.50   X><><LASTTRUE>", ""),
    ("EOLN and EOF look ahead in a text", TEXTS, "REWRITE(T, 'T'); WRITELN(T, '12 7'); "
     "WRITELN(T, 'A');"
     "CLOSE(T, LOCK); RESET(T, 'T'); READ(T, I); WRITE(I, EOLN(T)); READ(T, J); WRITE(J, EOLN(T)); "
     "READLN(T); WRITE(T^, EOLN(T)); GET(T); WRITE(EOLN(T), EOF(T)); READ(T, C); "
     "WRITE('<', C, '>', EOF(T))", "", "12FALSE7TRUEAFALSETRUEFALSE< >TRUE", ""),
    ("characters of a text by its window", TEXTS, "REWRITE(T, 'T'); T^ := 'A'; PUT(T); T^ := "
     "'B'; PUT(T);"
     "RESET(T); WRITE(T^); GET(T); WRITE(T^); GET(T); WRITE(EOF(T))", "", "ABTRUE", ""),
    ("REALs of a text", TEXTS, "REWRITE(T, 'T'); WRITELN(T, 1 / 3, ' ', 2.5); RESET(T); READ(T, "
     "X); "
     "WRITE(X:0:4); READ(T, X); WRITE(X:4:1)", "", "0.3333 2.5", ""),
    ("a function writes in the middle of a WRITE to a file", TEXTS + """
FUNCTION F(N: INTEGER): INTEGER; BEGIN WRITE('F'); WRITELN(U, N); F := N END;""",
     "REWRITE(T, 'T'); REWRITE(U, 'U'); WRITELN(T, 'A', F(1), F(2):3, F(3)); RESET(T); RESET(U); "
     "READLN(T, S); WRITE(S); FOR I := 1 TO 3 DO BEGIN READ(U, J); WRITE(J) END", "",
     "FFFA1  23123", ""),
    ("two texts are copied by turns", TEXTS, "REWRITE(T, 'T'); FOR I := 1 TO 50 DO WRITELN(T, I); "
     "RESET(T); REWRITE(U, 'U'); WHILE NOT EOF(T) DO BEGIN WHILE NOT EOLN(T) DO BEGIN READ(T, C); "
     "WRITE(U, C) END; READLN(T); WRITELN(U) END; RESET(U); J := 0; WHILE NOT EOF(U) DO BEGIN "
     "READLN(U, I); J := J + I END; WRITE(J)", "", "1275", ""),
    ("blocks", BLOCKS, "FOR I := 0 TO 1023 DO A[I] := CHR(I DIV 8); REWRITE(F, 'B'); "
     "WRITE(BLOCKWRITE(F, A, 2), BLOCKWRITE(F, A[512], 1, 3)); CLOSE(F, LOCK); RESET(F, 'B'); "
     "FILLCHAR(A, 1024, 'X'); N := BLOCKREAD(F, A, 1, 1); WRITE(N, ' ', ORD(A[0]), ' ', "
     "ORD(A[511]), "
     "A[512], EOF(F)); N := BLOCKREAD(F, A, 2); WRITE(N, ORD(A[0]), ' ', ORD(A[512]), EOF(F), "
     "BLOCKREAD(F, A, 1))", "", "211 64 127XFALSE20 64TRUE0", ""),
    ("files and the heap have one room", NUMBERS + "VAR P: ^INTEGER; H: ^INTEGER;",
     "REWRITE(F, 'N'); I := MEMAVAIL; MARK(H); NEW(P); P^ := 9; FOR I := 1 TO 100 DO BEGIN F^ := "
     "I; "
     "PUT(F) END; RELEASE(H); RESET(F); I := 0; WHILE NOT EOF(F) DO BEGIN I := I + F^; GET(F) END; "
     "WRITE(I)", "", "5050", ""),
    ("a file that is not there", TEXTS, "RESET(T, 'A:GONE.TEXT')", "", "there is no file "
     "GONE.TEXT\n",
     ERROR + " 10"),
    ("a text is shown in the middle of files", TEXTS, "REWRITE(T, 'T'); REWRITE(U, 'PRINTER:'); "
     "WRITE(U, 'P', 5:2); WRITE(T, 'X'); PAGE(T); WRITE('.'); RESET(T); READ(T, C); READ(T, C); "
     "WRITE(ORD(C))", "", "P 5.12", ""),
]
