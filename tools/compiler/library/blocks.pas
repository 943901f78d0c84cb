{ What the other files of the library stand on: bytes and words at an address.

  The compiler calls these procedures for what a program says; a program does
  not see their names. A parameter of the type BYTES takes the address of
  anything: its bytes are used as far as the procedure is told. }
{$R-}
TYPE
  BYTES = PACKED ARRAY[0..32765] OF CHAR;
  WORDS = ARRAY[0..16382] OF INTEGER;

VAR
  LEAVING: INTEGER;              { the number of the procedure that EXIT ends, or 0 }

{ Below 0, 0 or above 0, as the first N characters of S are below, equal to or
  above those of T }
FUNCTION COMPAREBYTES(VAR S, T: BYTES; N: INTEGER): INTEGER;
VAR
  I, D: INTEGER;
BEGIN
  I := 0;
  REPEAT
    D := ORD(S[I]) - ORD(T[I]);
    I := I + 1
  UNTIL (D <> 0) OR (I = N);
  COMPAREBYTES := D
END;

FUNCTION SAMEWORDS(VAR S, T: WORDS; N: INTEGER): BOOLEAN;
VAR
  I: INTEGER;
  SAME: BOOLEAN;
BEGIN
  I := 0;
  REPEAT
    SAME := S[I] = T[I];
    I := I + 1
  UNTIL (I >= N) OR NOT SAME;
  SAMEWORDS := SAME
END;

PROCEDURE IGNORE(N: INTEGER);
BEGIN
END;

{ How far it is from byte AT of S to the first character that is C, or is not
  where it is not WANTED; N if that is not met in N bytes. Below 0 it goes back }
FUNCTION SCANBYTES(N: INTEGER; C: CHAR; WANTED: BOOLEAN; VAR S: BYTES; AT: INTEGER): INTEGER;
VAR
  I, STEP: INTEGER;
  FOUND: BOOLEAN;
BEGIN
  STEP := 1;
  IF N < 0 THEN STEP := -1;
  I := 0;
  FOUND := FALSE;
  WHILE (I <> N) AND NOT FOUND DO
    BEGIN
      FOUND := (S[AT + I] = C) = WANTED;
      IF NOT FOUND THEN I := I + STEP
    END;
  SCANBYTES := I
END;

PROCEDURE FILLWORDS(VAR D: WORDS; AT, LAST, W: INTEGER);
BEGIN
  REPEAT
    D[AT] := W;
    AT := AT + 1
  UNTIL AT > LAST
END;

PROCEDURE FILL(VAR D: BYTES; AT, N: INTEGER; C: CHAR);
VAR
  I: INTEGER;
BEGIN
  N := AT + N;                   { the first byte behind }
  IF (N > AT + 7) AND NOT ODD(AT) THEN
    BEGIN
      FILLWORDS(D, AT DIV 2, N DIV 2 - 1, 257 * ORD(ODD(ORD(C)) AND ODD(255)));
      AT := N - ORD(ODD(N) AND ODD(1))
    END;
  FOR I := AT TO N - 1 DO D[I] := C
END;

PROCEDURE MOVELEFT(VAR S: BYTES; FROM: INTEGER; VAR D: BYTES; AT, N: INTEGER);
VAR
  I: INTEGER;
BEGIN
  FOR I := 0 TO N - 1 DO D[AT + I] := S[FROM + I]
END;

PROCEDURE MOVERIGHT(VAR S: BYTES; FROM: INTEGER; VAR D: BYTES; AT, N: INTEGER);
VAR
  I: INTEGER;
BEGIN
  FOR I := N - 1 DOWNTO 0 DO D[AT + I] := S[FROM + I]
END;
