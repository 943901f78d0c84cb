{ Strings: byte 0 is the length, and the characters stand from byte 1 on. What
  has no room, or lies outside, is left as it is, as UCSD Pascal has it; only
  an assignment that has no room is an execution error. }
{$R-}
PROCEDURE ASSIGN(VAR D, S: WORDS; M: INTEGER);   { D has room for M characters }
VAR
  I, N: INTEGER;
  LEFT: 0..255;
BEGIN
  N := ORD(ODD(S[0]) AND ODD(255));
  {$R+} LEFT := M - N; {$R-}             { error 1: the STRING has no room }
  N := N DIV 2;
  I := 0;
  REPEAT
    D[I] := S[I];
    I := I + 1
  UNTIL I > N
END;

{ Whether they are equal: whole words are compared, and then the byte that may be left }
FUNCTION SAMETEXT(VAR S, T: WORDS): BOOLEAN;
VAR
  I, N, LAST: INTEGER;
  SAME: BOOLEAN;
BEGIN
  N := ORD(ODD(S[0]) AND ODD(255));
  SAME := N = ORD(ODD(T[0]) AND ODD(255));
  IF SAME THEN
    BEGIN
      LAST := (N + 1) DIV 2;
      I := 0;
      WHILE I < LAST DO
        IF S[I] = T[I] THEN I := I + 1
        ELSE
          BEGIN
            SAME := FALSE;
            I := LAST
          END;
      IF SAME AND NOT ODD(N) THEN
        SAME := ORD(ODD(S[LAST]) AND ODD(255)) = ORD(ODD(T[LAST]) AND ODD(255))
    END;
  SAMETEXT := SAME
END;

PROCEDURE APPEND(VAR D, S: BYTES; M: INTEGER);
VAR
  I, N, HAS: INTEGER;
BEGIN
  HAS := ORD(D[0]);
  N := ORD(S[0]);
  IF HAS + N <= M THEN
    BEGIN
      FOR I := 1 TO N DO D[HAS + I] := S[I];
      D[0] := CHR(HAS + N)
    END
END;

PROCEDURE COPYTEXT(VAR D, S: BYTES; AT, N: INTEGER);
VAR
  I: INTEGER;
BEGIN
  D[0] := CHR(0);
  IF (AT > 0) AND (N > 0) AND (AT <= 255) AND (N <= 255) THEN
    IF AT + N - 1 <= ORD(S[0]) THEN
      BEGIN
        FOR I := 1 TO N DO D[I] := S[AT + I - 1];
        D[0] := CHR(N)
      END
END;

{ Below 0, 0 or above 0, as S is below, equal to or above T }
FUNCTION COMPARE(VAR S, T: BYTES): INTEGER;
VAR
  I, N, D: INTEGER;
BEGIN
  N := ORD(S[0]);
  IF ORD(T[0]) < N THEN N := ORD(T[0]);
  I := 0;
  REPEAT
    I := I + 1;
    IF I > N THEN D := ORD(S[0]) - ORD(T[0])
    ELSE D := ORD(S[I]) - ORD(T[I])
  UNTIL (I > N) OR (D <> 0);
  COMPARE := D
END;

{ Where T stands in S first, or 0 }
FUNCTION POSITION(VAR T, S: BYTES): INTEGER;
VAR
  I, J, N, LAST: INTEGER;
  FOUND: BOOLEAN;
BEGIN
  N := ORD(T[0]);
  LAST := ORD(S[0]) - N + 1;
  FOUND := FALSE;
  I := 0;
  IF N > 0 THEN
    WHILE (I < LAST) AND NOT FOUND DO
      BEGIN
        I := I + 1;
        J := 0;
        REPEAT
          J := J + 1;
          FOUND := T[J] = S[I + J - 1]
        UNTIL (J = N) OR NOT FOUND
      END;
  IF FOUND THEN POSITION := I ELSE POSITION := 0
END;

PROCEDURE DELETETEXT(VAR S: BYTES; AT, N: INTEGER);
VAR
  I, REST: INTEGER;
BEGIN
  IF (AT > 0) AND (N > 0) AND (AT <= 255) AND (N <= 255) THEN
    BEGIN
      REST := ORD(S[0]) - AT - N + 1;
      IF REST >= 0 THEN
        BEGIN
          FOR I := AT TO AT + REST - 1 DO S[I] := S[I + N];
          S[0] := CHR(ORD(S[0]) - N)
        END
    END
END;

PROCEDURE INSERTTEXT(VAR T, S: BYTES; AT, M: INTEGER);
VAR
  I, N, HAS: INTEGER;
BEGIN
  N := ORD(T[0]);
  HAS := ORD(S[0]);
  IF (AT > 0) AND (AT <= HAS + 1) AND (N + HAS <= M) THEN
    BEGIN
      FOR I := HAS DOWNTO AT DO S[I + N] := S[I];
      FOR I := 1 TO N DO S[AT + I - 1] := T[I];
      S[0] := CHR(N + HAS)
    END
END;

PROCEDURE DIGITS(N: INTEGER; VAR S: BYTES; M: INTEGER);  { of STR }
VAR
  T: PACKED ARRAY[0..6] OF CHAR;
  I, K, REST: INTEGER;
  LEFT: 0..255;
BEGIN
  I := 7;
  REST := N;
  REPEAT
    I := I - 1;
    T[I] := CHR(ABS(REST MOD 10) + ORD('0'));
    REST := REST DIV 10
  UNTIL REST = 0;
  IF N < 0 THEN
    BEGIN
      I := I - 1;
      T[I] := '-'
    END;
  {$R+} LEFT := M - 7 + I; {$R-}         { error 1: the STRING has no room }
  FOR K := I TO 6 DO S[K - I + 1] := T[K];
  S[0] := CHR(7 - I)
END;
