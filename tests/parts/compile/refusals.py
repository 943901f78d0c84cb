"""Texts that are refused, each with the places of its faults and a part of what is said there."""

# A statement within a program with these declarations, and what it is refused with.
DECLARED = """PROGRAM T;
LABEL 1;
CONST TEN = 10; WORD = 'word';
TYPE COLOR = (RED, GREEN); REC = RECORD A: INTEGER; B: CHAR END; LINK = ^REC; SMALL = 1..9;
VAR I, PAY: INTEGER; B: BOOLEAN; C: CHAR; K: COLOR; R: REC; P: LINK; S: STRING[5];
  A: ARRAY[1..3] OF INTEGER; T: PACKED ARRAY[1..3] OF CHAR; E: SET OF COLOR; N: SMALL;
  Q: PACKED RECORD X, Y: 0..3 END; Z: ^INTEGER;
PROCEDURE DO_IT(N: SMALL; VAR M: INTEGER); BEGIN END;
FUNCTION F(N: INTEGER): INTEGER; BEGIN F := N END;
BEGIN
"""
LINE = DECLARED.count("\n") + 1
STATEMENTS = [
    # Types
    ("IF PAY THEN", 4, "PAY is an INTEGER, and a BOOLEAN is wanted here"),
    ("B := PAY + 1", 10, "this is an INTEGER, and a BOOLEAN is wanted here"),
    ("I := 'A'", 6, "this is a CHAR, and an INTEGER is wanted here"),
    ("I := B", 6, "B is a BOOLEAN, and an INTEGER is wanted here"),
    ("K := 1", 6, "this is an INTEGER, and a COLOR is wanted here"),
    ("S := I", 6, "I is an INTEGER, and a STRING is wanted here"),
    ("S := C", 6, "C is a CHAR, and a STRING is wanted here"),
    ("T := 'ABCD'", 6, "text in quotes, and a PACKED ARRAY[1..3] OF CHAR is wanted here"),
    ("R := A", 6, "A is an ARRAY[1..3] OF INTEGER, and a REC is wanted here"),
    ("E := [1]", 6, "is wanted here"),
    ("E := RED", 6, "RED is a COLOR, and a SET OF COLOR is wanted here"),
    ("P := Z", 6, "this points to another type"),
    ("P := I", 6, "I is an INTEGER, and a pointer is wanted here"),
    ("IF K = 1 THEN", 8, "and a COLOR is wanted here"),
    ("IF R < R THEN", 6, "cannot be compared by <"),
    ("IF E < E THEN", 6, "sets are compared by =, <>, <= and >="),
    ("I := I AND 1", 6, "I is an INTEGER, and a BOOLEAN is wanted here"),
    ("B := NOT I", 10, "I is an INTEGER, and a BOOLEAN is wanted here"),
    ("I := I / 2", 8, "this is a REAL, and an INTEGER is wanted here: TRUNC or ROUND makes one"),
    ("I := 1 DIV 0", 8, "this divides by 0"),
    ("A[4] := 1", 3, "4 is outside 1..3"),
    ("A['A'] := 1", 3, "and an INTEGER is wanted here"),
    ("I[1] := 1", 1, "I is an INTEGER, and an ARRAY or a STRING is wanted here"),
    ("I.A := 1", 1, "I is an INTEGER, and a RECORD is wanted here"),
    ("R.D := 1", 3, "REC has no field D"),
    ("I^ := 1", 1, "I is an INTEGER, and a pointer is wanted here"),
    ("N := 10", 6, "10 is outside 1..9"),
    ("I := 32768", 6, "above 32767"),
    ("I := 99999", 6, "99999 is above 32767, the greatest INTEGER"),
    ("WITH A DO", 6, "A is an ARRAY[1..3] OF INTEGER, and a RECORD is wanted here"),
    # Names
    ("COUNT := 1", 1, "COUNT is not declared"),
    ("TEN := 1", 1, "TEN is a constant, and a variable is wanted here"),
    ("COLOR := 1", 1, "COLOR is a type, and a variable is wanted here"),
    ("I := COLOR", 6, "COLOR is a type, and has no value"),
    ("I := DO_IT", 6, "DO_IT is a procedure, and has no value"),
    ("F := 1", 1, "F is a function: it gets a value within a function of that name alone"),
    ("F(1)", 1, "F is a function: its value goes nowhere"),
    ("PAY", 1, "PAY is a variable, and a procedure is wanted here: := is missing"),
    ("LENGTH(S)", 1, "LENGTH is a function: its value goes nowhere"),
    ("I := WRITE(1)", 6, "WRITE is a procedure, and has no value"),
    # Parameters
    ("DO_IT(1)", 1, "DO_IT has 2 parameters, and 1 is given"),
    ("DO_IT(0, I)", 7, "0 is outside 1..9"),
    ("DO_IT(1, 2)", 10, "a variable is wanted here"),
    ("DO_IT(1, C)", 10, "C is a CHAR, and an INTEGER, for the VAR parameter M, is wanted here"),
    ("DO_IT(1, Q.X)", 11, "has no address of its own"),
    ("I := F", 6, "F has 1 parameter, and 0 are given"),
    ("I := F(1:2)", 10, "a width behind : is of WRITE alone"),
    ("I := ORD(S)", 10, "S is a STRING[5], and a character, Boolean or name of a list is wanted"),
    ("NEW(I)", 5, "I is an INTEGER, and a pointer is wanted here"),
    ("WRITE(R)", 7, "R is a REC, and an INTEGER, REAL, CHAR, BOOLEAN, STRING or"),
    ("WRITE(K)", 7, "K is a COLOR, and an INTEGER, REAL, CHAR, BOOLEAN, STRING or"),
    ("READ(B)", 6, "B is a BOOLEAN, and an INTEGER, REAL, CHAR or STRING is wanted here"),
    ("READ(OUTPUT, I)", 1, "OUTPUT is written, and not read"),
    ("WRITE(INPUT, I)", 1, "INPUT is read, and not written"),
    ("WRITE(I:5:2)", 11, "places behind a point are of a REAL alone"),
    ("EXIT(I)", 6, "EXIT ends a procedure, and I is none"),
    # Statements
    ("I = 1", 3, "an assignment is written with :="),
    ("IF B THEN I := 1; ELSE I := 2", 19, "this ELSE has no IF: does a ; stand in front of it?"),
    ("GOTO 2", 1, "the label 2 is not declared in T"),
    ("GOTO 1", 1, "the label 1 stands in front of no statement"),
    ("FOR R := 1 TO 2 DO", 5, "R is a variable, and FOR counts in a variable of numbers"),
    ("FOR I := 1 TO 'A' DO", 15, "and an INTEGER is wanted here"),
    ("CASE I OF 1: ; 1: END", 16, "1 stands in this CASE already, in line"),
    ("CASE I OF 'A': END", 11, "and an INTEGER is wanted here"),
    ("CASE I OF 1: ; OTHERWISE I := 2 END", 16, "OTHERWISE is no part of UCSD Pascal's CASE"),
    ("WRITE('ABC)", 7, "this text has no second quote on its line"),
    ('WRITE("ABC")', 7, "a text stands between ' and '"),
    ("I := 1 }", 8, "the character } is no part of Pascal"),
    ("I := (1 + ;", 11, "a value is wanted, and not ;"),
    # AND and OR between comparisons
    ("IF I > 0 AND PAY > 0 THEN I := 1", 18, "AND and OR come before comparisons: write (A = B)"),
    ("IF I = 1 OR B THEN I := 1", 8, "and a BOOLEAN is wanted here. AND and OR come before"),
    ("B := I < PAY < 3", 14, "put the first one into parentheses"),
    # What is not there
    ("RESET(I, 'X')", 1, "RESET has a file as its first parameter"),
    ("I := TRUNC('A')", 12, "this is a CHAR, and a REAL is wanted here"),
    ("I := 3.14", 6, "this is a REAL, and an INTEGER is wanted here"),
    ("I := TRUNC(32768.0)", 12, "32768 is outside -32768..32767, the INTEGERs"),
    ("WRITE(1.5 / 0)", 11, "this divides by 0"),
    ("WRITE(1.5 DIV 2)", 7, "this is a REAL, and an INTEGER is wanted here"),
    ("WRITE(3.5E38)", 7, "3.5E38 is above 3.40282E38, the greatest REAL"),
    ("WRITE(SQR(2E19))", 11, "this is above 3.40282E38, the greatest REAL"),
    ("WRITE(PWROFTEN(38))", 16, "PWROFTEN has a number from 0 to 37, and not 38"),
    ("TIME(I, B)", 9, "B is a BOOLEAN, and an INTEGER is wanted here"),
    ("I := PADDLE(1)", 6, "PADDLE: there are no paddles, buttons or sounds"),
    ("I := SCAN(1, 'A', S)", 14, "SCAN has = or <> in front of the character"),
    ("I := SCAN(1, =1, S)", 15, "this is an INTEGER, and a CHAR is wanted here"),
    ("I := ORD(='A')", 10, "= in front of a value is of SCAN's second parameter alone"),
    ("FILLCHAR(T, 3, B)", 16, "B is a BOOLEAN, and a CHAR is wanted here"),
    ("DISPOSE(I)", 9, "I is an INTEGER, and a pointer is wanted here"),
    ("GET(OUTPUT)", 1, "GET has a file as its first parameter"),
    ("C := OUTPUT^", 12, "OUTPUT is written at once, and has no window"),
    ("{$I #4:X.TEXT} I := 1", 1, "#4:X.TEXT is a file of a p-System's volume"),
    ("{$I gone.pas} I := 1", 1, "gone.pas cannot be read"),
    ("{$X+} I := 1", 1, "there is no option X+"),
]
# Declarations, at the second line, and what they are refused with.
DECLARATIONS = [
    ("VAR X: SET OF REAL;", 15, "REAL is a REAL, and a range, CHAR, BOOLEAN or a list of names"),
    ("VAR X: 1.5..2;", 8, "this is a REAL, and a number, character or name of a list"),
    ("VAR X: INTEGER[37];", 16, "a long integer has 1 to 36 digits, and not 37"),
    ("VAR X: CHAR[8];", 12, "CHAR has no length: STRING and INTEGER have one"),
    ("VAR X: INTEGER[8]; I: INTEGER; PROCEDURE P; BEGIN I := X END;", 56,
     "X is an INTEGER[8], and an INTEGER is wanted here: TRUNC makes one"),
    ("VAR X: INTEGER[8]; PROCEDURE P; BEGIN X := X MOD 2 END;", 46, "long integers have + - * DIV"),
    ("VAR X: INTEGER[8]; PROCEDURE P; BEGIN X := X / 2 END;", 46, "long integers have + - * DIV"),
    ("VAR X: INTEGER[8]; PROCEDURE P; BEGIN X := X + 1.5 END;", 48, "this is a REAL, and an"),
    ("CONST X = 99999;", 11, "99999 is above 32767, the greatest INTEGER: a long integer is no"),
    ("VAR F: FILE OF TEXT;", 8, "a file is a variable of its own, and no part of another"),
    ("VAR F: FILE; BEGIN GET(F) END.", 20, "GET is of a file of records; BLOCKREAD and BLOCKWRITE"),
    ("VAR F: FILE; BEGIN F^ := 1 END.", 21, "a FILE without a type of records has no window"),
    ("VAR F: FILE OF INTEGER; BEGIN WRITE(F, 1) END.", 31, "WRITE is of a text, and of no file of"),
    ("VAR F: TEXT; BEGIN SEEK(F, 1) END.", 20, "SEEK is of a file of records, and of no text"),
    ("VAR F: FILE OF INTEGER; I: INTEGER; BEGIN I := BLOCKREAD(F, I, 1) END.", 48,
     "BLOCKREAD is of a FILE without a type of records"),
    ("VAR F: FILE OF INTEGER; BEGIN F^ := 'A' END.", 37, "this is a CHAR, and an INTEGER"),
    ("VAR F: ARRAY[1..2] OF TEXT;", 8, "a file is a variable of its own"),
    ("TYPE R = RECORD F: TEXT END;", 17, "a file is a variable of its own"),
    ("PROCEDURE P(F: TEXT); BEGIN END;", 13, "a file is a VAR parameter"),
    ("VAR F: TEXT; PROCEDURE P; BEGIN RESET(F, 'X.TEXT', 1) END;", 33, "RESET has a file and a"),
    ("PROCEDURE P; BEGIN REWRITE(INPUT) END;", 20, "REWRITE opens a variable of the type TEXT or"),
    ("VAR F, G: TEXT; PROCEDURE P; BEGIN F := G END;", 38, "a file is not assigned"),
    ("VAR F: TEXT; PROCEDURE P; BEGIN IF F = F THEN END;", 38, "cannot be compared by ="),
    ("VAR F: TEXT; PROCEDURE P; BEGIN CLOSE(F, KEEP) END;", 33, "CLOSE has a file, and LOCK"),
    ("USES TURTLE;", 6, "there is no unit TURTLE: put its text beside this one, as TURTLE.pas"),
    ("SEGMENT VAR X: CHAR;", 9, "PROCEDURE or FUNCTION is wanted behind SEGMENT, and not VAR"),
    ("PROCEDURE P; EXTERNAL;", 14, "there are no external procedures"),
    ("PROCEDURE P; FORWARD;", 11, "P is declared FORWARD, and its body is missing"),
    ("FUNCTION F: STRING; BEGIN END;", 13, "UCSD Pascal had no functions that give a STRING: take "
     "a VAR parameter"),
    ("TYPE R = RECORD A: CHAR END; FUNCTION F: R; BEGIN END;", 42, "and not a R: take a VAR"),
    ("FUNCTION F; BEGIN END;", 10, "the function F has no type"),
    ("PROCEDURE P(A: (RED, GREEN)); BEGIN END;", 16, "the type of a parameter is a name"),
    ("PROCEDURE P(A: ARRAY[1..2] OF CHAR); BEGIN END;", 16, "UCSD Pascal had no conformant arrays"),
    ("VAR A, A: INTEGER;", 8, "A is declared twice"),
    ("VAR COUNTERONE, COUNTEROTHER: CHAR;", 17, "of a name the first 8 characters count"),
    ("TYPE T = ^GONE;", 11, "GONE is not declared"),
    ("TYPE T = 5..1;", 10, "5 is above 1"),
    ("TYPE T = 1..'A';", 13, "this is a CHAR, and INTEGER, as the least value, is wanted here"),
    ("TYPE T = SET OF INTEGER;", 17, "the elements of a set are from 0 to 4079"),
    ("TYPE T = SET OF 0..4080;", 17, "the elements of a set are from 0 to 4079"),
    ("TYPE T = STRING[256];", 17, "a STRING has room for 1 to 255 characters, and not 256"),
    ("TYPE T = RECORD A: CHAR; A: CHAR END;", 26, "the record has a field A already"),
    ("VAR A: ARRAY[1..16384] OF INTEGER;", 8, "the array has 16384 words, and 16383 are all"),
    ("VAR A, B: ARRAY[1..9000] OF INTEGER;", 8, "have more than 16383 words"),
    ("VAR A: INTEGER BEGIN END.", 15, "; is wanted behind INTEGER"),
    ("VAR A: PACKED INTEGER;", 15, "ARRAY, RECORD or SET is wanted behind PACKED"),
    ("CONST A = B;", 11, "B is not declared"),
    ("(* never closed", 1, "this comment has no *)"),
]
# Whole texts, each with a place and what is said there.
TEXTS = [
    ("UNIT U; INTERFACE IMPLEMENTATION END.", "1:1", "this is a UNIT, which a program uses:"),
    ("", "1:1", "PROGRAM is wanted at the beginning, and not the end of the text"),
    ("PROGRAM A; BEGIN END", "1:21", ". is wanted behind the last END, and not the end"),
    ("PROGRAM A; BEGIN", "1:17", "a ; or END is wanted behind a statement"),
    ("PROGRAM A; BEGIN \0 END.", "1:18", "the character number 0 is no part of Pascal"),
    ("PROGRAM A; BEGIN WRITE('X END.", "1:24", "this text has no second quote on its line"),
    ("PROGRAM A; BEGIN { END. # ' \"", "1:18", "this comment has no }"),
]
# A text with several faults: each is told once, in order, and one alone of a name.
SEVERAL = """PROGRAM A;
VAR X: CHAR; I: INTEGER
BEGIN
  I := ;
  I = 2;
END.
"""
SEVERAL_PLACES = ["2:24", "4:8", "5:5"]
TYPED = """PROGRAM A;
VAR X: GONE; I: INTEGER;
BEGIN
  X := 1; J := 2; J := 3;
  IF I THEN I := 'A' ELSE Q;
  WHILE I DO I := 'B'
END.
"""
TYPED_PLACES = ["2:8", "4:11", "5:6", "5:18", "5:27", "6:9", "6:19"]
